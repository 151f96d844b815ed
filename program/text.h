/* Parts of texts, and texts that are put together and put to the library. */
#ifndef TEXT_H
#define TEXT_H

#include "avarezhu.h"

#include <stddef.h>
#include <stdint.h>

/* A text, or a part of one. It may hold any bytes. */
struct slice {
    const char *at;
    size_t length;
};

struct slice slice_of(const char *string);
struct slice between(const char *from, const char *to);
const char *end_of(struct slice s);

int is_space(char c);
int is_digit(char c);
int is_letter(char c);
int is_in_number(char c); /* a digit, a sign or a point */
char lower(char c);

/* Without white space at its ends. */
struct slice trimmed(struct slice s);

/* The part before the first white space that is in no brackets. */
struct slice first_word(struct slice s);

/* What follows a part that `s` starts with, trimmed. */
struct slice rest_after(struct slice s, struct slice part);

/* Without regard to ASCII case. */
int equals(struct slice s, const char *string);
int starts_with(struct slice s, const char *string);
int ends_with(struct slice s, const char *string);
const char *find(struct slice s, const char *string); /* NULL if it is not there */

/* A text that is put together. What is past the longest text and one byte more is dropped: that
 * byte is enough to be refused for. */
struct draft {
    char bytes[AVAREZHU_TEXT_MAX + 1];
    size_t length;
};

void add(struct draft *d, struct slice s);
void add_string(struct draft *d, const char *string);
struct slice drafted(const struct draft *d);

/* What the library replies to reading a text. */
uint32_t reply_to(struct slice text);

/* Whether a text with this reply is in the grammar, its stops not counted. */
int is_understood(uint32_t reply);

#endif
