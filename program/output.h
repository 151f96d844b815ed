/* Writing a picture so that whatever goes wrong, no file of its name is left. */
#ifndef OUTPUT_H
#define OUTPUT_H

#include <limits.h>
#include <stddef.h>
#include <stdint.h>

enum output_kind {
    STANDARD_OUTPUT,
    DEVICE, /* or a FIFO: written to, never replaced */
    REGULAR /* a file, or nothing of that name yet */
};

struct output {
    enum output_kind kind;
    const char *name;    /* as it was given */
    char path[PATH_MAX]; /* of a regular file, with the links followed */
    int file;            /* while it is open */
};

/* Finds out what `name` is, and removes a file of that name. One that is the text to be read, or holds
 * the text of a gradient, is left alone. What goes wrong is said, and 0 is the answer. */
int clear_output(struct output *out, const char *name, const char *text_name);

/* Opens it; no file has the name yet. What goes wrong is said, and 0 is the answer. */
int open_output(struct output *out);

/* Writes on. What goes wrong is said, and 0 is the answer: then it is still to be closed. */
int write_output(const struct output *out, const uint8_t *bytes, size_t length);

/* Closes it, and gives the file its name if all of it is written. What goes wrong is said. Unless 1 is the answer
 * there is no file of that name. Standard output stays open. */
int close_output(const struct output *out, int is_whole);

/* Ends standard output. If what was printed cannot be written, that is said, and 0 is the answer. */
int close_standard_output(void);

/* Opens each standard file that is closed, so that no other file gets its number. Reading from it and
 * writing to it still fail. */
int open_standard_files(void);

#endif
