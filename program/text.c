#define _POSIX_C_SOURCE 200809L

#include "text.h"

#include <string.h>

struct slice slice_of(const char *string)
{
    struct slice s = {string, strlen(string)};
    return s;
}

struct slice between(const char *from, const char *to)
{
    struct slice s = {from, (size_t)(to - from)};
    return s;
}

const char *end_of(struct slice s)
{
    return s.at + s.length;
}

int is_space(char c)
{
    return c == ' ' || c == '\t' || c == '\n' || c == '\r' || c == '\f';
}

int is_digit(char c)
{
    return '0' <= c && c <= '9';
}

int is_letter(char c)
{
    return 'a' <= lower(c) && lower(c) <= 'z';
}

int is_in_number(char c)
{
    return is_digit(c) || c == '+' || c == '-' || c == '.';
}

char lower(char c)
{
    return 'A' <= c && c <= 'Z' ? (char)(c + ('a' - 'A')) : c;
}

struct slice trimmed(struct slice s)
{
    while (s.length > 0 && is_space(s.at[0])) {
        s.at++;
        s.length--;
    }
    while (s.length > 0 && is_space(s.at[s.length - 1]))
        s.length--;
    return s;
}

struct slice first_word(struct slice s)
{
    size_t i, depth = 0;
    for (i = 0; i < s.length && (depth > 0 || !is_space(s.at[i])); i++) {
        if (s.at[i] == '(')
            depth++;
        else if (s.at[i] == ')' && depth > 0)
            depth--;
    }
    s.length = i;
    return s;
}

struct slice rest_after(struct slice s, struct slice part)
{
    return trimmed(between(end_of(part), end_of(s)));
}

static int same(const char *a, const char *b, size_t length)
{
    size_t i;
    for (i = 0; i < length; i++)
        if (lower(a[i]) != lower(b[i]))
            return 0;
    return 1;
}

int equals(struct slice s, const char *string)
{
    return s.length == strlen(string) && same(s.at, string, s.length);
}

int starts_with(struct slice s, const char *string)
{
    size_t n = strlen(string);
    return n <= s.length && same(s.at, string, n);
}

int ends_with(struct slice s, const char *string)
{
    size_t n = strlen(string);
    return n <= s.length && same(end_of(s) - n, string, n);
}

const char *find(struct slice s, const char *string)
{
    for (; s.length > 0; s.at++, s.length--)
        if (starts_with(s, string))
            return s.at;
    return NULL;
}

void add(struct draft *d, struct slice s)
{
    size_t room = sizeof d->bytes - d->length;
    if (s.length > room)
        s.length = room;
    if (s.length > 0)
        memcpy(d->bytes + d->length, s.at, s.length);
    d->length += s.length;
}

void add_string(struct draft *d, const char *string)
{
    add(d, slice_of(string));
}

struct slice drafted(const struct draft *d)
{
    struct slice s = {d->bytes, d->length};
    return s;
}

uint32_t reply_to(struct slice text)
{
    uint8_t gradient[AVAREZHU_GRADIENT_SIZE];
    return avarezhu_read(text.at, text.length, gradient, sizeof gradient);
}

int is_understood(uint32_t reply)
{
    return reply == AVAREZHU_DONE || reply == AVAREZHU_OUT_OF_RANGE;
}
