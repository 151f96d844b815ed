/* cairo, on an image surface over the same pixels. */
#include "bench.h"

#include <cairo.h>
#include <pixman.h>
#include <stdlib.h>

static const struct picture *shown;
static cairo_surface_t *surface;
static cairo_t *context;

static void expect(cairo_status_t status) {
    if (status == CAIRO_STATUS_SUCCESS)
        return;
    fprintf(stderr, "cairo: %s\n", cairo_status_to_string(status));
    exit(1);
}

static void begin(const struct picture *picture, uint8_t *pixels) {
    int width = (int)picture->width, height = (int)picture->height;
    shown = picture;
    surface = cairo_image_surface_create_for_data(pixels, CAIRO_FORMAT_ARGB32, width, height, 4 * width);
    context = cairo_create(surface);
    cairo_set_operator(context, CAIRO_OPERATOR_SOURCE);
    expect(cairo_status(context));
}

static void draw(void) {
    const struct picture *p = shown;
    cairo_pattern_t *pattern = p->circle
                                   ? cairo_pattern_create_radial(p->x0, p->y0, 0, p->x0, p->y0, p->radius)
                                   : cairo_pattern_create_linear(p->x0, p->y0, p->x1, p->y1);
    for (int k = 0; k < p->count; k++) {
        struct color c = p->stops[k];
        cairo_pattern_add_color_stop_rgba(pattern, k / (p->count - 1.0), c.red / 255.0, c.green / 255.0,
                                          c.blue / 255.0, c.alpha / 255.0);
    }
    if (p->kind == REPEATED)
        cairo_pattern_set_extend(pattern, CAIRO_EXTEND_REPEAT);
    cairo_set_source(context, pattern);
    cairo_paint(context);
    cairo_pattern_destroy(pattern);
    expect(cairo_status(context));
}

static void end(void) {
    cairo_destroy(context);
    cairo_surface_destroy(surface);
}

static const char *version(void) {
    static char words[64];
    snprintf(words, sizeof words, "%s (pixman %s)", cairo_version_string(), pixman_version_string());
    return words;
}

const struct painter cairo_painter = {"cairo", true, begin, draw, end, version};
