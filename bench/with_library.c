/* The library from text to pixels, a repeated picture also with its stops once, and memset over the same
 * bytes. */
#include "bench.h"

#include "avarezhu.h"

#include <stdlib.h>
#include <string.h>

static const struct picture *shown;
static uint8_t *target;
static size_t size;

static void begin(const struct picture *picture, uint8_t *pixels) {
    shown = picture;
    target = pixels;
    size = AVAREZHU_PIXELS_SIZE(picture->width, picture->height);
}

/* From byte `from` of the text on. */
static void draw_text(size_t from) {
    const char *text = shown->text + from;
    size_t length = shown->text_length - from;
    uint32_t reply = avarezhu_draw(text, length, shown->width, shown->height, target, size);
    if (reply != AVAREZHU_DONE) {
        fprintf(stderr, "reply %u to %.*s\n", (unsigned)reply, (int)length, text);
        exit(1);
    }
}

static void draw(void) {
    draw_text(0);
}

static void draw_once(void) {
    draw_text(strlen(REPEATING));
}

static void fill(void) {
    memset(target, 0x5a, size);
}

static void end(void) {
}

const struct painter library_painter = {"library", false, begin, draw, end, NULL};
const struct painter once_painter = {"once", false, begin, draw_once, end, NULL};
const struct painter memset_painter = {"memset", false, begin, fill, end, NULL};
