/* A picture that is drawn part by part: its pixels strip after strip, or a PNG file in one part. */
#ifndef DRAWING_H
#define DRAWING_H

#include "text.h"

/* Fewer rows would take more time, since each strip reads the text afresh; more would take more memory. */
enum { STRIP_ROWS = 64 };

/* The bytes of the greatest strip. */
#define STRIP_SIZE AVAREZHU_PIXELS_SIZE(AVAREZHU_SIDE_MAX, STRIP_ROWS)

struct drawing {
    struct slice text;
    size_t width;
    size_t height;
    int is_raw;
    uint8_t *bytes; /* the part that was drawn last, to be freed */
    size_t length;  /* 0 after the last part */
    size_t first;   /* its rows, counted from 0 */
    size_t end;     /* up to this one, which is not in it */
};

/* Draws the first part. If there is no memory for it, that is said, and 0 is the answer. */
int draw_first(struct drawing *d, uint32_t *reply);

/* Draws the next part, or none after the last. The library, which took the first part, takes the others too; if
 * it does not, that is said, and 0 is the answer. */
int draw_next(struct drawing *d);

#endif
