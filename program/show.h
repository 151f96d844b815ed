/* Texts shown to people: a line with a mark under a part of it, whatever bytes the text holds. */
#ifndef SHOW_H
#define SHOW_H

#include "text.h"

#include <stdio.h>

/* Counted from 1. Columns are characters of UTF-8, and a byte that is in none counts as one. */
struct place {
    size_t line;
    size_t column;
};

struct place place_of(struct slice text, const char *at);

/* The line that `mark`, a part of `text`, starts in, and under it a mark as long as that part or as the line. */
void show_marked(FILE *to, struct slice text, struct slice mark);

/* The part itself, cut if it is long. */
void show_part(FILE *to, struct slice part);

#endif
