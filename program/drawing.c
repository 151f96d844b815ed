#define _POSIX_C_SOURCE 200809L

#include "drawing.h"

#include "say.h"

#include <errno.h>
#include <stdlib.h>

static uint32_t draw_strip(struct drawing *d, size_t first)
{
    d->first = first;
    d->end = d->height - first > STRIP_ROWS ? first + STRIP_ROWS : d->height;
    d->length = AVAREZHU_PIXELS_SIZE(d->width, d->end - first);
    return avarezhu_draw_rows(d->text.at, d->text.length, d->width, d->height, first, d->end, d->bytes, d->length);
}

static uint32_t draw_png(struct drawing *d)
{
    d->first = 0;
    d->end = d->height;
    d->length = AVAREZHU_PNG_SIZE(d->width, d->height);
    return avarezhu_png(d->text.at, d->text.length, d->width, d->height, d->bytes, d->length);
}

int draw_first(struct drawing *d, uint32_t *reply)
{
    size_t rows = d->height < STRIP_ROWS ? d->height : STRIP_ROWS;
    d->bytes = malloc(d->is_raw ? AVAREZHU_PIXELS_SIZE(d->width, rows) : AVAREZHU_PNG_SIZE(d->width, d->height));
    if (d->bytes == NULL) {
        say_trouble("the picture", ENOMEM);
        return 0;
    }
    *reply = d->is_raw ? draw_strip(d, 0) : draw_png(d);
    return 1;
}

int draw_next(struct drawing *d)
{
    uint32_t reply;
    if (d->end == d->height) {
        d->length = 0;
        return 1;
    }
    reply = draw_strip(d, d->end);
    if (reply != AVAREZHU_DONE)
        say("rows %zu up to %zu: reply %u: %s", d->first, d->end, (unsigned)reply, avarezhu_message(reply));
    return reply == AVAREZHU_DONE;
}
