/* Which part of a refused text is at fault. Each part is put to the library inside a text that is right
 * otherwise, so nothing here knows the grammar. */
#ifndef FAULT_H
#define FAULT_H

#include "outline.h"

#define NO_ITEM SIZE_MAX

struct fault {
    uint32_t reply;
    struct slice mark;   /* what is at fault */
    struct slice item;   /* the item that it is in; the mark itself if it is in none */
    size_t index;        /* of that item, or NO_ITEM */
    char words[96];      /* what is wrong, as a sentence without its start and end */
    const char *allowed; /* what may stand there */
};

/* The first fault that gets the text's own reply, and how many there are of any kind. */
struct findings {
    uint32_t reply;
    size_t count;
    int is_found;
    struct fault first;
};

void find_faults(const struct outline *o, uint32_t reply, struct findings *f);

#endif
