#define _POSIX_C_SOURCE 200809L

#include "say.h"

#include <stdarg.h>
#include <stdio.h>
#include <string.h>

void say(const char *format, ...)
{
    va_list words;
    va_start(words, format);
    fputs("avarezhu: ", stderr);
    vfprintf(stderr, format, words);
    fputc('\n', stderr);
    va_end(words);
}

void say_trouble(const char *name, int error)
{
    say("%s: %s", name, strerror(error));
}
