#define _POSIX_C_SOURCE 200809L

#include "compare.h"

#include <stdio.h>
#include <string.h>

/* The greatest difference of the bytes of a pixel. */
static unsigned distance(const uint8_t *a, const uint8_t *b)
{
    unsigned c, greatest = 0;
    for (c = 0; c < 4; c++) {
        unsigned d = a[c] < b[c] ? (unsigned)(b[c] - a[c]) : (unsigned)(a[c] - b[c]);
        if (d > greatest)
            greatest = d;
    }
    return greatest;
}

static void keep(struct difference *d, size_t place, const uint8_t *expected, const uint8_t *found)
{
    d->place = place;
    memcpy(d->expected, expected, 4);
    memcpy(d->found, found, 4);
}

void compare_strip(struct comparison *c, const uint8_t *expected, const uint8_t *frame, size_t pixels)
{
    static const uint8_t zeros[4];
    size_t i;
    for (i = 0; i < pixels; i++, c->compared++, expected += 4, frame += 4) {
        unsigned d = distance(expected, frame);
        if (distance(expected, zeros) > c->tolerance)
            c->is_bright = 1;
        if (d > c->tolerance && c->differing++ == 0)
            keep(&c->first, c->compared, expected, frame);
        if (d > c->greatest) {
            c->greatest = d;
            keep(&c->worst, c->compared, expected, frame);
        }
    }
}

static void show_difference(const char *which, const struct difference *d, size_t width)
{
    const uint8_t *e = d->expected, *f = d->found;
    printf("  %s: column %zu of row %zu (from 0) is %d %d %d %d, not %d %d %d %d; off by %u\n", which, d->place % width,
           d->place / width, f[0], f[1], f[2], f[3], e[0], e[1], e[2], e[3], distance(e, f));
}

static enum status refuse_zeros(unsigned tolerance)
{
    if (tolerance == 0)
        printf("REFUSED: every byte of this picture is zero; a camera that sends nothing would match it\n");
    else
        printf("REFUSED: no byte of this picture is above the tolerance of %u; a camera that sends nothing would match it\n",
               tolerance);
    return REFUSED;
}

enum status give_verdict(const struct comparison *c)
{
    if (!c->is_bright)
        return refuse_zeros(c->tolerance);
    if (c->differing == 0) {
        printf("PASS: %zu by %zu pixels", c->width, c->height);
        printf(c->tolerance > 0 ? ", none off by more than %u\n" : "\n", c->greatest);
        return DONE;
    }
    printf("FAIL: %zu of %zu pixels differ", c->differing, c->compared);
    printf(c->tolerance > 0 ? " by more than %u\n" : "\n", c->tolerance);
    show_difference("first", &c->first, c->width);
    show_difference("worst", &c->worst, c->width);
    return FAIL;
}
