/* How a text is put together: NAME(item, item, ..), and what stands around it. Only brackets and commas
 * are looked at here. What a name or an item means is asked of the library. */
#ifndef OUTLINE_H
#define OUTLINE_H

#include "text.h"

struct outline {
    struct slice whole;  /* with the white space at its ends */
    struct slice text;   /* without it */
    struct slice before; /* what stands before the name */
    struct slice name;   /* the letters, digits and hyphens that stand before the first bracket */
    struct slice gap;    /* white space between the name and the bracket */
    const char *open;    /* the first bracket; NULL if there is none */
    const char *close;   /* the one that closes it; NULL if there is none */
    struct slice after;  /* what stands after it */
    size_t count;
    struct slice items[AVAREZHU_TEXT_MAX + 2]; /* with the white space around them */

    int is_name_taken;
    int is_linear;     /* the function takes a direction */
    int is_head_asked; /* it takes no stops without a direction or a circle before them */
};

void outline(struct outline *o, struct slice text);

/* The reply to a text that is right but for `item`, which stands at the place of item `index`, or which is
 * one of the stops. An item may also be several, split by commas. */
uint32_t reply_at(const struct outline *o, size_t index, struct slice item);
uint32_t reply_as_stop(const struct outline *o, struct slice item);

/* The reply to a text that is right but for the function's name. */
uint32_t reply_to_name(struct slice name);

#endif
