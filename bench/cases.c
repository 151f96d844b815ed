/* The gradients that are drawn and the texts that are read. */
#include "bench.h"

#include "avarezhu.h"

#include <math.h>
#include <stdlib.h>
#include <string.h>

#define ANGLE 37.25
#define PI 3.14159265358979323846

#define ASIDE_X 30.3 /* percent: the center is in no middle of a pixel and on no edge of one */
#define ASIDE_Y 41.7

#define UNITS 64.0 /* to a px */

const struct box boxes[BOXES] = {{64, 64}, {640, 480}, {2048, 64}, {2048, 2048}};

const char *const directions[DIRECTIONS] = {
    "to right", "to bottom", "37.25deg", "to top right", "circle", "circle aside",
};

static const char *const heads[DIRECTIONS] = {
    "linear-gradient(to right",     "linear-gradient(to bottom", "linear-gradient(37.25deg",
    "linear-gradient(to top right", "radial-gradient(circle",    "radial-gradient(circle at 30.3% 41.7%",
};

const struct period periods[PERIODS] = {{"40px", 2560}, {"1px", 64}, {"0.016px", 1}};

/* Steps of 14 to 44 levels from one stop to the next: steeper ones would make Qt's rounding along wide
 * rows, which grows from pixel to pixel, look like another picture. */
static const uint32_t palette[STOPS_MAX] = {
    0xd16de2, 0xbc56bd, 0xcb43a6, 0xe01b8b, 0xbb3c62, 0xab4f38, 0x9a7021, 0x8a9707,
    0x67b824, 0x4ecc42, 0x30eb2a, 0x14ca19, 0x00da39, 0x2af224, 0x52e448, 0x44c65b,
};

#define SIXTEEN                                                                            \
    "#1b3a6b, #d9a441 5%, #8c2f39 12.5%, green, #e8e4d8 24%, navy, #b5651d 40%, #2e6f8e, " \
    "#c94f7c, olive 55.125%, #101820, #f2c14e 70%, purple, #9fb8ad 85%, #7a1f5c80, white"

const struct reading readings[READINGS] = {
    {"short", "linear-gradient(red, blue)", AVAREZHU_DONE},
    {"middle", "linear-gradient(37.25deg, #1b3a6b 10%, #d9a441 45.5%, white 80%)", AVAREZHU_DONE},
    {"16 stops", "radial-gradient(circle farthest-corner at 50% 50%, " SIXTEEN ")", AVAREZHU_DONE},
    {"refused", "radial-gradient(circle farthest-corner at 50% 50%, " SIXTEEN ",)", AVAREZHU_MALFORMED},
};

static void append(struct picture *p, const char *words) {
    size_t length = strlen(words);
    if (p->text_length + length > TEXT_ROOM)
        abort();
    memcpy(p->text + p->text_length, words, length);
    p->text_length += length;
}

static void append_stops(struct picture *p) {
    for (int k = 0; k < p->count; k++) {
        struct color c = p->stops[k];
        char word[16];
        snprintf(word, sizeof word, ", #%02x%02x%02x%02x", c.red, c.green, c.blue, c.alpha);
        append(p, word);
        if (p->period != NULL && k == 0)
            append(p, " 0px");
        if (p->period != NULL && k == p->count - 1) {
            append(p, " ");
            append(p, p->period->text);
        }
    }
    append(p, ")");
}

static void set_stops(struct picture *p, int count, uint8_t alpha) {
    p->count = count;
    for (int k = 0; k < count; k++) {
        uint32_t c = palette[k * (STOPS_MAX - 1) / (count - 1)];
        p->stops[k] = (struct color){(uint8_t)(c >> 16), (uint8_t)(c >> 8), (uint8_t)c, alpha};
    }
}

/* The line runs through the middle of the box along (x, y), y downward, as far as the corners ask. */
static void set_line(struct picture *p, double x, double y) {
    double width = (double)p->width, height = (double)p->height, n = x * x + y * y;
    double half = (width * fabs(x) + height * fabs(y)) / (2 * n);
    p->x0 = width / 2 - half * x;
    p->y0 = height / 2 - half * y;
    p->x1 = width / 2 + half * x;
    p->y1 = height / 2 + half * y;
}

/* The center in percent of the box; the circle goes through the farthest corner. */
static void set_circle(struct picture *p, double x, double y) {
    double width = (double)p->width, height = (double)p->height;
    p->circle = true;
    p->x0 = width * x / 100;
    p->y0 = height * y / 100;
    p->radius = hypot(fmax(p->x0, width - p->x0), fmax(p->y0, height - p->y0));
}

static void set_direction(struct picture *p, int direction) {
    if (direction == TO_RIGHT)
        set_line(p, 1, 0);
    else if (direction == TO_BOTTOM)
        set_line(p, 0, 1);
    else if (direction == BY_ANGLE)
        set_line(p, sin(ANGLE * PI / 180), -cos(ANGLE * PI / 180));
    else if (direction == TO_CORNER)
        set_line(p, (double)p->height, -(double)p->width);
    else if (direction == CIRCLE)
        set_circle(p, 50, 50);
    else
        set_circle(p, ASIDE_X, ASIDE_Y);
}

/* Cuts the line or the radius to one period. */
static void set_period(struct picture *p, const struct period *period) {
    double length = period->units / UNITS, x = p->x1 - p->x0, y = p->y1 - p->y0;
    p->period = period;
    p->radius = length;
    p->x1 = p->x0 + x * length / hypot(x, y);
    p->y1 = p->y0 + y * length / hypot(x, y);
}

static struct picture begin_picture(size_t width, size_t height, int direction, int kind) {
    struct picture p = {
        .kind = kind, .width = width, .height = height, .direction = directions[direction], .opaque = true};
    set_direction(&p, direction);
    if (kind != PLAIN)
        append(&p, REPEATING);
    append(&p, heads[direction]);
    return p;
}

struct picture make_picture(size_t width, size_t height, int direction, int count, bool opaque) {
    struct picture p = begin_picture(width, height, direction, PLAIN);
    p.opaque = opaque;
    set_stops(&p, count, opaque ? 255 : 128);
    append_stops(&p);
    return p;
}

/* The first stop is at 0px, the last one period further, the others evenly between. */
struct picture make_repeated(size_t width, size_t height, int direction, int count, int period) {
    struct picture p = begin_picture(width, height, direction, REPEATED);
    set_period(&p, &periods[period]);
    set_stops(&p, count, 255);
    append_stops(&p);
    return p;
}

/* The period is 0. */
struct picture make_one_color(size_t width, size_t height, int direction) {
    struct picture p = begin_picture(width, height, direction, ONE_COLOR);
    p.count = 3;
    append(&p, ", red 0px, white 0px, blue 0px)");
    return p;
}
