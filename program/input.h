/* Reading files and standard input. */
#ifndef INPUT_H
#define INPUT_H

#include <stddef.h>
#include <sys/stat.h>

/* A name that stands for standard input. NULL, for a name that is not given, does too. */
int is_standard_input(const char *name);

/* What messages call it. */
const char *input_name(const char *name);

/* Opens it. What goes wrong is said, and the answer is below 0. */
int open_input(const char *name);

/* Reads on, up to `room` bytes; fewer only at the end. What goes wrong is said, and 0 is the answer. */
int read_part(int file, const char *name, void *bytes, size_t room, size_t *length);

/* Standard input stays open. */
void close_input(int file);

/* All three: reads up to `room` bytes from the start. */
int read_input(const char *name, void *bytes, size_t room, size_t *length);

/* Looks at what would be read, as stat does. */
int stat_input(const char *name, struct stat *found);

#endif
