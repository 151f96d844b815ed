/*
 * Avarezhu: CSS gradients, from text to premultiplied RGBA bytes.
 *
 *     text --read--> gradient --place (in a box)--> stops --draw--> pixels
 *
 * Most programs need one call:
 *
 *     const char *text = "linear-gradient(to right, black, white)";
 *     uint8_t pixels[AVAREZHU_PIXELS_SIZE(4, 1)];
 *     uint32_t reply = avarezhu_draw(text, strlen(text), 4, 1, pixels, sizeof pixels);
 *     if (reply != AVAREZHU_DONE)
 *         puts(avarezhu_message(reply)); // nothing was drawn: pixels holds zeros only
 *
 * It leaves 32 32 32 255, 96 96 96 255, 159 159 159 255, 223 223 223 255.
 *
 * Look at the reply before the pixels. Zeros alone tell nothing: they are left by every refusal, and
 * `linear-gradient(transparent, transparent)` is drawn as zeros too.
 *
 * True of every call:
 *   - Any bytes, any length and any box may be handed over. The call judges them and replies.
 *   - A slice is a pointer and a number of bytes, all of which the caller owns. With 0 bytes the
 *     pointer is not followed and may be NULL. No alignment is asked for.
 *   - No two slices of one call may overlap. This is the caller's part and is not checked.
 *   - The last slice is lent: the call writes every byte of it. After a refusal all are 0, however
 *     short the slice is; on AVAREZHU_DONE the answer comes first and all bytes past it are 0.
 *   - The other slices are only read. A text needs no 0 at its end, and a 0 in it is not in the grammar.
 *   - Nothing is allocated and nothing is kept between calls. Calls may run on several threads at
 *     once, as long as no call uses a slice that is lent to another.
 */
#ifndef AVAREZHU_H
#define AVAREZHU_H

#include <stddef.h>
#include <stdint.h>

/* The version, as a number that grows (20,200 for 2.2.0) and as a string. With another first number
 * some texts are drawn to other bytes: frames that were kept from such a version must be drawn again. */
#define AVAREZHU_VERSION 20200
#define AVAREZHU_VERSION_STRING "2.2.0"

/* A compiler that can warns where a reply is dropped. */
#if defined(__cplusplus) && __cplusplus >= 201703L
#define AVAREZHU_REPLY [[nodiscard]] uint32_t
#elif !defined(__cplusplus) && defined(__STDC_VERSION__) && __STDC_VERSION__ >= 202311L
#define AVAREZHU_REPLY [[nodiscard]] uint32_t
#elif defined(__GNUC__)
#define AVAREZHU_REPLY __attribute__((warn_unused_result)) uint32_t
#else
#define AVAREZHU_REPLY uint32_t
#endif

#ifdef __cplusplus
extern "C" {
#endif

/* Replies. If several apply, the first in this order is given: 1, 8, 2, 3, 4, 5, 6. */
enum avarezhu_reply {
    /* The answer is in the lent slice. */
    AVAREZHU_DONE = 0,

    /* Width or height is not in 1 to 2,048.
     * Wrong: a box of 0 by 5, or of 2,049 by 1. Right: 1 by 5, or 2,048 by 1. */
    AVAREZHU_BAD_BOX = 1,

    /* The lent slice is too short: 320 bytes for a gradient, 132 for stops, 4 for each pixel,
     * AVAREZHU_PNG_SIZE(width, height) for a PNG file.
     * Wrong: 15 bytes for 4 by 1 pixels. Right: 16 or more. */
    AVAREZHU_NO_ROOM = 2,

    /* The text is longer than 1,024 bytes.
     * Wrong: 1,025 bytes, even if the last is a blank. Right: leave blanks out. */
    AVAREZHU_LONG_TEXT = 3,

    /* The text is not in the grammar, or a gradient or stops handed in break their layout.
     * Wrong: linear-gradient(red). Right: linear-gradient(red, blue).
     * Wrong: stops in a slice of 133 bytes. Right: 132, no more and no less. */
    AVAREZHU_MALFORMED = 4,

    /* A number is out of its range: lengths -8192px to 8192px, a circle's size 0 to 8192px,
     * percentages -1000% to 1000%, angles -3600deg to 3600deg in steps of a quarter degree,
     * placed stops -33,554,432 to 33,554,432 in 1/64 px.
     * Wrong: linear-gradient(45.1deg, red, blue). Right: linear-gradient(45.25deg, red, blue). */
    AVAREZHU_OUT_OF_RANGE = 5,

    /* There are more than 16 stops.
     * Wrong: seventeen colors between commas. Right: sixteen. */
    AVAREZHU_TOO_MANY_STOPS = 6,

    /* The rows of a strip are none, or go past the picture: first is not below end, or end is above
     * the height.
     * Wrong: rows 448 up to 512 of a picture that is 480 high. Right: rows 448 up to 480. */
    AVAREZHU_BAD_ROWS = 8
};

/* What a reply means, as a sentence for people. */
static inline const char *avarezhu_message(uint32_t reply)
{
    switch (reply) {
    case AVAREZHU_DONE:
        return "Done.";
    case AVAREZHU_BAD_BOX:
        return "The width or the height is not from 1 to 2,048 pixels.";
    case AVAREZHU_NO_ROOM:
        return "The buffer is too short for the answer.";
    case AVAREZHU_LONG_TEXT:
        return "The text is longer than 1,024 bytes.";
    case AVAREZHU_MALFORMED:
        return "The text is not in the grammar, or a value handed in breaks its layout.";
    case AVAREZHU_OUT_OF_RANGE:
        return "A number is out of its range.";
    case AVAREZHU_TOO_MANY_STOPS:
        return "There are more than 16 color stops.";
    case AVAREZHU_BAD_ROWS:
        return "The rows of the strip are none, or go past the height.";
    default:
        return "This is not a reply of the library.";
    }
}

/* Sizes in bytes, and limits. */
#define AVAREZHU_GRADIENT_SIZE 320 /* of a gradient */
#define AVAREZHU_STOPS_SIZE 132    /* of placed stops */
#define AVAREZHU_TEXT_MAX 1024     /* of the longest text that is read */
#define AVAREZHU_SIDE_MAX 2048     /* greatest width and height of a box, in pixels */
#define AVAREZHU_STOPS_MAX 16      /* greatest number of stops */

/* The bytes of a picture in a box that is not too large, or of a strip with so many rows. */
#define AVAREZHU_PIXELS_SIZE(width, height) (4 * (size_t)(width) * (size_t)(height))

/* The bytes of the PNG file of a picture in a box that is not too large. */
#define AVAREZHU_PNG_SIZE(width, height) (63 + (6 + 3 * (size_t)(width)) * (size_t)(height))

/* The stack in bytes that is enough for any call. tests/host/stack.c measures what each call uses. */
#define AVAREZHU_STACK 819200

/* The size to hand to pthread_attr_setstacksize for a thread that makes calls: a thread's stack also
 * holds what the C library keeps for the thread, and the functions that lead to the call. */
#define AVAREZHU_THREAD_STACK 1048576

/*
 * Reading: text to gradient.
 * A text is linear-gradient(..), or radial-gradient(..) with a circle, or one of the two with repeating-
 * at once before its name:
 *
 *     repeating-linear-gradient(to right, black 0px, black 4px, white 4px, white 8px)
 *     repeating-radial-gradient(circle 16px, black, black 50%, white 50%, white)
 *
 * Leaves the gradient in 320 bytes. Replies: 0, 2, 3, 4, 5, 6.
 */
AVAREZHU_REPLY avarezhu_read(const char *text, size_t text_length,
                             uint8_t *gradient, size_t gradient_length);

/*
 * Placing: where the color stops stand on the gradient line in a box of width by height pixels, to the
 * nearest 1/64 px, halves toward plus infinity. Leaves the stops in 132 bytes. Replies: 0 to 6;
 * place_gradient never gives 3. A gradient handed in has 320 bytes exactly.
 */
AVAREZHU_REPLY avarezhu_place(const char *text, size_t text_length,
                              size_t width, size_t height,
                              uint8_t *stops, size_t stops_length);

AVAREZHU_REPLY avarezhu_place_gradient(const uint8_t *gradient, size_t gradient_length,
                                       size_t width, size_t height,
                                       uint8_t *stops, size_t stops_length);

/*
 * Drawing: the picture in a box of width by height pixels.
 * Leaves red, green, blue and alpha of each pixel, one byte each, the colors premultiplied by alpha;
 * rows from the top, pixels from the left, no gaps. Replies: 0 to 6; only avarezhu_draw gives 3.
 *
 * A repeating gradient shows its stops over and over, both ways along the line: each period goes from the
 * first stop up to, not including, the last as they are placed. Where all of them are placed at one
 * position, the whole picture has one color, the average of the stops.
 */
AVAREZHU_REPLY avarezhu_draw(const char *text, size_t text_length,
                             size_t width, size_t height,
                             uint8_t *pixels, size_t pixels_length);

AVAREZHU_REPLY avarezhu_draw_gradient(const uint8_t *gradient, size_t gradient_length,
                                      size_t width, size_t height,
                                      uint8_t *pixels, size_t pixels_length);

/*
 * Drawing in strips: rows first up to, not including, end of that picture, counted from 0 at the top.
 * Leaves AVAREZHU_PIXELS_SIZE(width, end - first) bytes, and no call needs room for more. The strips of
 * a picture, one after the other, are its bytes, wherever it is cut; a whole picture is the strip of
 * rows 0 up to height. Replies: 0 to 6 and 8; only avarezhu_draw_rows gives 3.
 *
 *     uint8_t strip[AVAREZHU_PIXELS_SIZE(640, 64)];
 *     size_t first, end;
 *     for (first = 0; first < 480; first = end) {
 *         end = 480 - first < 64 ? 480 : first + 64;
 *         reply = avarezhu_draw_rows(text, length, 640, 480, first, end, strip, sizeof strip);
 *         if (reply != AVAREZHU_DONE)
 *             break; // no strip of this picture would be drawn
 *         show(strip, first, end);
 *     }
 *
 * Each call reads the text, or takes the gradient, afresh. Strips of one picture may be drawn on
 * several threads at once, also into parts of one buffer that do not overlap.
 */
AVAREZHU_REPLY avarezhu_draw_rows(const char *text, size_t text_length,
                                  size_t width, size_t height, size_t first, size_t end,
                                  uint8_t *pixels, size_t pixels_length);

AVAREZHU_REPLY avarezhu_draw_gradient_rows(const uint8_t *gradient, size_t gradient_length,
                                           size_t width, size_t height, size_t first, size_t end,
                                           uint8_t *pixels, size_t pixels_length);

/*
 * The whole picture with stops of your own: direction or circle come from the gradient, colors and positions
 * from the stops. Whether they are repeated the gradient says, too: stops carry no such flag. The gradient's
 * own stops are judged but not drawn. Both slices are judged, and the lower reply of the two is given.
 */
AVAREZHU_REPLY avarezhu_draw_stops(const uint8_t *gradient, size_t gradient_length,
                                   const uint8_t *stops, size_t stops_length,
                                   size_t width, size_t height,
                                   uint8_t *pixels, size_t pixels_length);

/*
 * A PNG file of the picture, for people to look at: the picture over a checkerboard of light grays,
 * 8 bits each of red, green and blue. Leaves AVAREZHU_PNG_SIZE(width, height) bytes. Replies: 0 to 6,
 * as for drawing; 2 is judged on the file's size.
 */
AVAREZHU_REPLY avarezhu_png(const char *text, size_t text_length,
                            size_t width, size_t height,
                            uint8_t *png, size_t png_length);

/*
 * The two layouts as structs (docs/LAYOUT.md has the bytes). On a little-endian machine a struct has
 * the bytes of its layout, so its address can be handed over:
 *
 *     avarezhu_gradient g;
 *     reply = avarezhu_read(text, length, (uint8_t *)&g, sizeof g);
 *
 * To fill one yourself, start from zeros (memset): every field without a meaning, and every place
 * past the last stop, must be 0. Lengths are in thousandths of a px, percentages in thousandths of a
 * percent, angles in thousandths of a degree: 45.25deg is 45250.
 *
 * On a machine that is not little-endian they would be other bytes: there the header is refused, unless
 * AVAREZHU_NO_STRUCTS is defined before it is included, which leaves the structs out.
 */
#ifndef AVAREZHU_NO_STRUCTS

#if defined(__BYTE_ORDER__) && defined(__ORDER_LITTLE_ENDIAN__) && __BYTE_ORDER__ != __ORDER_LITTLE_ENDIAN__
#error "avarezhu.h: the structs have the bytes of their layouts on little-endian machines only; define AVAREZHU_NO_STRUCTS"
#endif

/* shape */
enum { AVAREZHU_LINEAR = 0, AVAREZHU_CIRCLE = 1 };

/* direction */
enum {
    AVAREZHU_TO_TOP = 0,
    AVAREZHU_TO_RIGHT = 1,
    AVAREZHU_TO_BOTTOM = 2,
    AVAREZHU_TO_LEFT = 3,
    AVAREZHU_TO_TOP_LEFT = 4,
    AVAREZHU_TO_TOP_RIGHT = 5,
    AVAREZHU_TO_BOTTOM_LEFT = 6,
    AVAREZHU_TO_BOTTOM_RIGHT = 7,
    AVAREZHU_ANGLE = 8
};

/* extent */
enum {
    AVAREZHU_CLOSEST_SIDE = 0,
    AVAREZHU_CLOSEST_CORNER = 1,
    AVAREZHU_FARTHEST_SIDE = 2,
    AVAREZHU_FARTHEST_CORNER = 3
};

/* unit, size_unit, x_unit, y_unit */
enum { AVAREZHU_NONE = 0, AVAREZHU_LENGTH = 1, AVAREZHU_PERCENTAGE = 2 };

/* A color stop as the text gives it. The color is not premultiplied. */
typedef struct avarezhu_stop {
    uint8_t red;
    uint8_t green;
    uint8_t blue;
    uint8_t alpha;
    uint32_t unit;     /* AVAREZHU_NONE without a position */
    int32_t position;  /* 0 without a position */
    int32_t position2; /* reserved, 0 */
} avarezhu_stop;

typedef struct avarezhu_gradient {
    uint32_t count;      /* of stops, 2 to 16 */
    uint32_t shape;
    uint32_t repeating;  /* 1 if the stops are repeated, else 0 */
    uint32_t direction;  /* linear; 0 in a circle */
    int32_t angle;       /* if direction is AVAREZHU_ANGLE, else 0 */
    uint32_t extent;     /* circle; 0 if the size is a length */
    uint32_t size_unit;  /* circle; AVAREZHU_NONE (by the extent) or AVAREZHU_LENGTH */
    int32_t size;        /* the radius, if size_unit is AVAREZHU_LENGTH, else 0 */
    uint32_t size2_unit; /* reserved, 0 */
    int32_t size2;       /* reserved, 0 */
    uint32_t x_unit;     /* circle; AVAREZHU_LENGTH or AVAREZHU_PERCENTAGE */
    int32_t x;           /* the center from the left edge */
    int32_t x2;          /* reserved, 0 */
    uint32_t y_unit;     /* circle; AVAREZHU_LENGTH or AVAREZHU_PERCENTAGE */
    int32_t y;           /* the center from the top edge */
    int32_t y2;          /* reserved, 0 */
    avarezhu_stop stops[AVAREZHU_STOPS_MAX];
} avarezhu_gradient;

/* A color stop that has its place. The color is not premultiplied. */
typedef struct avarezhu_placed_stop {
    uint8_t red;
    uint8_t green;
    uint8_t blue;
    uint8_t alpha;
    int32_t position; /* in 1/64 px from the start of the line, -33,554,432 to 33,554,432 */
} avarezhu_placed_stop;

/* Positions never fall from one stop to the next. */
typedef struct avarezhu_stops {
    uint8_t count; /* of stops, 2 to 16 */
    uint8_t zero[3];
    avarezhu_placed_stop stops[AVAREZHU_STOPS_MAX];
} avarezhu_stops;

#if defined(__cplusplus) && __cplusplus >= 201103L
#define AVAREZHU_CHECK(fact) static_assert(fact, #fact)
#elif !defined(__cplusplus) && defined(__STDC_VERSION__) && __STDC_VERSION__ >= 201112L
#define AVAREZHU_CHECK(fact) _Static_assert(fact, #fact)
#endif
#ifdef AVAREZHU_CHECK
AVAREZHU_CHECK(sizeof(avarezhu_gradient) == AVAREZHU_GRADIENT_SIZE);
AVAREZHU_CHECK(sizeof(avarezhu_stop) == 16);
AVAREZHU_CHECK(offsetof(avarezhu_gradient, stops) == 64);
AVAREZHU_CHECK(sizeof(avarezhu_stops) == AVAREZHU_STOPS_SIZE);
AVAREZHU_CHECK(sizeof(avarezhu_placed_stop) == 8);
AVAREZHU_CHECK(offsetof(avarezhu_stops, stops) == 4);
#undef AVAREZHU_CHECK
#endif

#endif /* AVAREZHU_NO_STRUCTS */

#ifdef __cplusplus
}
#endif

#endif
