/* A frame beside the picture that it should be, strip after strip. */
#ifndef COMPARE_H
#define COMPARE_H

#include "status.h"

#include <stddef.h>
#include <stdint.h>

/* A pixel that differs. */
struct difference {
    size_t place; /* counted from 0, row by row */
    uint8_t expected[4];
    uint8_t found[4];
};

/* All but the first three fields start as 0. */
struct comparison {
    size_t width;
    size_t height;
    unsigned tolerance;
    size_t compared; /* so many pixels until now */
    size_t differing;
    int is_bright; /* whether a byte of the picture is above the tolerance */
    unsigned greatest;
    struct difference first;
    struct difference worst;
};

/* Goes on with the pixels that follow those compared until now. */
void compare_strip(struct comparison *c, const uint8_t *expected, const uint8_t *frame, size_t pixels);

/* Prints PASS or FAIL, or REFUSED where a frame of zeros, as a dead camera gives, would pass. A pixel passes if
 * none of its bytes is off by more than the tolerance. */
enum status give_verdict(const struct comparison *c);

#endif
