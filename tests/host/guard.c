/*
 * Calls the nine exports with every slice in a mapping of its own, between two pages that may not be
 * touched. What must come back is known from the rules and docs/LAYOUT.md, since the texts and boxes
 * were chosen so; nothing is computed with the library. Ends with status 1 at the first difference.
 */
#define _DEFAULT_SOURCE
#include "avarezhu.h"
#include "png.h"

#include <signal.h>
#include <stdbool.h>
#include <stdio.h>
#include <stdlib.h>
#include <string.h>
#include <sys/mman.h>
#include <unistd.h>

#define COUNT(array) (sizeof(array) / sizeof *(array))

enum export { READ, PLACE, PLACE_GRADIENT, DRAW, DRAW_GRADIENT, DRAW_ROWS, DRAW_GRADIENT_ROWS, DRAW_STOPS, PNG, EXPORTS };
static const char *const export_names[EXPORTS] = {
    "avarezhu_read",          "avarezhu_place",     "avarezhu_place_gradient",     "avarezhu_draw",
    "avarezhu_draw_gradient", "avarezhu_draw_rows", "avarezhu_draw_gradient_rows", "avarezhu_draw_stops",
    "avarezhu_png",
};
static const int replies[] = {0, 1, 2, 3, 4, 5, 6, 8};

/* Where a slice stands. The last two are for slices of 0 bytes only. */
enum spot { FRONT, BACK, ODD, NOWHERE, INSIDE_GUARD, SPOTS };
static const char *const spot_names[SPOTS] = {
    "right after the front guard page", "right before the back guard page", "at an odd address",
    "NULL", "inside a guard page",
};

struct bytes {
    const uint8_t *at;
    size_t length;
};

/* One call and what it must give. The answer is expected only with reply 0. */
struct call {
    enum export export;
    struct bytes in;    /* text or gradient */
    struct bytes stops; /* for DRAW_STOPS */
    size_t width, height;
    size_t first, end; /* for DRAW_ROWS and DRAW_GRADIENT_ROWS */
    size_t lent;
    uint32_t reply;
    struct bytes answer;
};

/* A mapping: guard page, inner pages, guard page; the slice lies in the inner pages. */
struct region {
    const char *name;
    uint8_t *inner;
    size_t inner_length;
    uint8_t *slice;
    size_t length;
    uint8_t paint;
};

static size_t page;
static const struct call *current;
static enum spot current_spot;
static struct region regions[3];
static size_t region_count;
static unsigned long made[EXPORTS][9];

/* ---- Reporting ---- */

static void print_text(struct bytes b)
{
    fprintf(stderr, "  text, %zu bytes: ", b.length);
    for (size_t i = 0; i < b.length && i < 100; i++) {
        if (b.at[i] >= 32 && b.at[i] < 127)
            fputc(b.at[i], stderr);
        else
            fprintf(stderr, "\\x%02x", b.at[i]);
    }
    fputs(b.length > 100 ? "...\n" : "\n", stderr);
}

static void print_layout(const char *name, struct bytes b)
{
    fprintf(stderr, "  %s, %zu bytes, those that are not 0:", name, b.length);
    for (size_t i = 0; i < b.length; i++)
        if (b.at[i] != 0)
            fprintf(stderr, " [%zu]=%u", i, b.at[i]);
    fputc('\n', stderr);
}

static bool takes_gradient(enum export e)
{
    return e == PLACE_GRADIENT || e == DRAW_GRADIENT || e == DRAW_GRADIENT_ROWS || e == DRAW_STOPS;
}

static bool draws_rows(enum export e)
{
    return e == DRAW_ROWS || e == DRAW_GRADIENT_ROWS;
}

static _Noreturn void fail(const char *what)
{
    fprintf(stderr, "guard: %s: %s\n", current ? export_names[current->export] : "header", what);
    if (current) {
        if (takes_gradient(current->export))
            print_layout("gradient", current->in);
        else
            print_text(current->in);
        if (current->export == DRAW_STOPS)
            print_layout("stops", current->stops);
        if (current->export != READ)
            fprintf(stderr, "  box: %zu by %zu\n", current->width, current->height);
        if (draws_rows(current->export))
            fprintf(stderr, "  rows: %zu up to %zu\n", current->first, current->end);
        fprintf(stderr, "  lent: %zu bytes\n", current->lent);
        fprintf(stderr, "  slices: %s\n", spot_names[current_spot]);
    }
    _exit(1);
}

/* What it means that this address was touched. */
static void explain(const uint8_t *at, char *out, size_t room)
{
    for (size_t i = 0; i < region_count; i++) {
        const struct region *r = &regions[i];
        if (at < r->inner - page || at >= r->inner + r->inner_length + page)
            continue;
        if (r->length == 0)
            snprintf(out, room, "followed the pointer of %s, which has 0 bytes", r->name);
        else if (at < r->slice)
            snprintf(out, room, "touched %s %td before its start", r->name, r->slice - at);
        else if (at >= r->slice + r->length)
            snprintf(out, room, "touched %s %td past its end", r->name, at - r->slice - (ptrdiff_t)r->length + 1);
        else
            snprintf(out, room, "wrote byte %td of %s", at - r->slice, r->name);
        return;
    }
    snprintf(out, room, "touched address %p", (const void *)at);
}

static void on_fault(int signal, siginfo_t *info, void *context)
{
    char what[160];
    (void)signal, (void)context;
    explain(info->si_addr, what, sizeof what);
    fail(what);
}

static void catch_faults(void)
{
    struct sigaction action = {.sa_flags = SA_SIGINFO | SA_ONSTACK};
    action.sa_sigaction = on_fault;
    sigaction(SIGSEGV, &action, NULL);
    sigaction(SIGBUS, &action, NULL);
}

/* ---- Slices between guard pages ---- */

static uint8_t *in_region(const struct region *r, enum spot spot)
{
    switch (spot) {
    case FRONT: return r->inner;
    case BACK: return r->inner + r->inner_length - r->length;
    case ODD: return r->inner + 1;
    case NOWHERE: return NULL;
    default: return r->inner - page / 2;
    }
}

/* Maps a slice. With bytes to hold it is made read-only, else it is painted. */
static struct region *map(const char *name, const uint8_t *bytes, size_t length, enum spot spot)
{
    struct region *r = &regions[region_count++];
    r->name = name;
    r->length = length;
    r->paint = spot == FRONT ? 0xa5 : 0x5a;
    r->inner_length = (length / page + 1) * page;
    uint8_t *all = mmap(NULL, r->inner_length + 2 * page, PROT_NONE, MAP_PRIVATE | MAP_ANONYMOUS, -1, 0);
    if (all == MAP_FAILED || mprotect(all + page, r->inner_length, PROT_READ | PROT_WRITE) != 0) {
        perror("guard: mmap");
        exit(1);
    }
    r->inner = all + page;
    memset(r->inner, r->paint, r->inner_length);
    r->slice = in_region(r, length > 0 && spot >= NOWHERE ? BACK : spot);
    if (bytes != NULL && length > 0)
        memcpy(r->slice, bytes, length);
    if (bytes != NULL)
        mprotect(r->inner, r->inner_length, PROT_READ);
    return r;
}

static void unmap_all(void)
{
    while (region_count > 0) {
        struct region *r = &regions[--region_count];
        munmap(r->inner - page, r->inner_length + 2 * page);
    }
}

/* ---- One call ---- */

static uint32_t make(const struct call *c, const struct region *in, const struct region *stops,
                     const struct region *lent)
{
    const char *text = (const char *)in->slice;
    switch (c->export) {
    case READ:
        return avarezhu_read(text, in->length, lent->slice, lent->length);
    case PLACE:
        return avarezhu_place(text, in->length, c->width, c->height, lent->slice, lent->length);
    case PLACE_GRADIENT:
        return avarezhu_place_gradient(in->slice, in->length, c->width, c->height, lent->slice, lent->length);
    case DRAW:
        return avarezhu_draw(text, in->length, c->width, c->height, lent->slice, lent->length);
    case DRAW_GRADIENT:
        return avarezhu_draw_gradient(in->slice, in->length, c->width, c->height, lent->slice, lent->length);
    case DRAW_ROWS:
        return avarezhu_draw_rows(text, in->length, c->width, c->height, c->first, c->end, lent->slice, lent->length);
    case DRAW_GRADIENT_ROWS:
        return avarezhu_draw_gradient_rows(in->slice, in->length, c->width, c->height, c->first, c->end, lent->slice,
                                           lent->length);
    case DRAW_STOPS:
        return avarezhu_draw_stops(in->slice, in->length, stops->slice, stops->length, c->width, c->height,
                                   lent->slice, lent->length);
    default:
        return avarezhu_png(text, in->length, c->width, c->height, lent->slice, lent->length);
    }
}

static void check_lent(const struct call *c, const struct region *r)
{
    char what[160];
    size_t answer = c->reply == 0 ? c->answer.length : 0;
    for (size_t i = 0; i < r->length; i++) {
        uint8_t right = i < answer ? c->answer.at[i] : 0;
        if (r->slice[i] != right) {
            snprintf(what, sizeof what, "reply %u, byte %zu of the lent slice is %u, not %u", c->reply, i,
                     r->slice[i], right);
            fail(what);
        }
    }
    for (const uint8_t *at = r->inner; at < r->inner + r->inner_length; at++) {
        bool inside = r->length > 0 && at >= r->slice && at < r->slice + r->length;
        if (!inside && *at != r->paint)
            fail(at < r->slice ? "wrote before the lent slice" : "wrote past the lent slice");
    }
}

static void try_at(const struct call *c, enum spot spot)
{
    char what[80];
    const char *name = takes_gradient(c->export) ? "the gradient" : "the text";
    struct region *in = map(name, c->in.at, c->in.length, spot);
    struct region *stops = NULL;
    if (c->export == DRAW_STOPS)
        stops = map("the stops", c->stops.at, c->stops.length, spot);
    struct region *lent = map("the lent slice", NULL, c->lent, spot);
    current = c;
    current_spot = spot;
    uint32_t reply = make(c, in, stops, lent);
    if (reply != c->reply) {
        snprintf(what, sizeof what, "reply %u, not %u", reply, c->reply);
        fail(what);
    }
    check_lent(c, lent);
    current = NULL;
    unmap_all();
    made[c->export][reply]++;
}

static void try_call(const struct call *c)
{
    bool empty = c->in.length == 0 || c->lent == 0 || (c->export == DRAW_STOPS && c->stops.length == 0);
    for (int spot = 0; spot < (empty ? SPOTS : NOWHERE); spot++)
        try_at(c, (enum spot)spot);
}

/* ---- Charts known in every box ---- */

/*
 * The first `edge` pixels of each row, or the first rows, have the bytes `before`, the others `after`;
 * where `period` is not 0, so have those of each `period` pixels or rows. Stops and gradient are the
 * same bytes in every box.
 */
struct chart {
    const char *text;
    uint8_t gradient[AVAREZHU_GRADIENT_SIZE];
    uint8_t stops[AVAREZHU_STOPS_SIZE];
    size_t edge;
    uint8_t before[4], after[4];
    size_t period;
};

/* 90deg has vector (16384, 0): pixel i lies at 64i + 32, both stops at 128. */
static const struct chart angled = {
    "linear-gradient(90deg, red 2px, blue 2px)",
    {
        [0] = 2, [12] = 8, [16] = 0x90, 0x5f, 0x01, 0x00,                                /* 90000 */
        [64] = 255, 0, 0, 255, 1, 0, 0, 0, 0xd0, 0x07, 0, 0, 0, 0, 0, 0,                 /* 2000 */
        [80] = 0, 0, 255, 255, 1, 0, 0, 0, 0xd0, 0x07, 0, 0, 0, 0, 0, 0,
    },
    {[0] = 2, [4] = 255, 0, 0, 255, 128, 0, 0, 0, 0, 0, 255, 255, 128, 0, 0, 0},
    2, {255, 0, 0, 255}, {0, 0, 255, 255}, 0,
};

/* 180deg has vector (0, 16384): row j lies at 64j + 32. */
static const struct chart downward = {
    "linear-gradient(180deg, red 2px, blue 2px)",
    {
        [0] = 2, [12] = 8, [16] = 0x20, 0xbf, 0x02, 0x00,                                /* 180000 */
        [64] = 255, 0, 0, 255, 1, 0, 0, 0, 0xd0, 0x07, 0, 0, 0, 0, 0, 0,                 /* 2000 */
        [80] = 0, 0, 255, 255, 1, 0, 0, 0, 0xd0, 0x07, 0, 0, 0, 0, 0, 0,
    },
    {[0] = 2, [4] = 255, 0, 0, 255, 128, 0, 0, 0, 0, 0, 255, 255, 128, 0, 0, 0},
    2, {255, 0, 0, 255}, {0, 0, 255, 255}, 0,
};

/* One color, so one premultiplied color everywhere: 16·64/255 is 4, 32·64/255 is 8, 48·64/255 is 12. */
static const struct chart round_one = {
    "radial-gradient(circle 3px at 25% -1.5px, #10203040, #10203040 100%)",
    {
        [0] = 2, [4] = 1, [24] = 1, 0, 0, 0, 0xb8, 0x0b, 0, 0,                           /* 3000 */
        [40] = 2, 0, 0, 0, 0xa8, 0x61, 0, 0,                                             /* 25000 */
        [52] = 1, 0, 0, 0, 0x24, 0xfa, 0xff, 0xff,                                       /* -1500 */
        [64] = 16, 32, 48, 64,
        [80] = 16, 32, 48, 64, 2, 0, 0, 0, 0xa0, 0x86, 0x01, 0x00,                       /* 100000 */
    },
    {[0] = 2, [4] = 16, 32, 48, 64, 0, 0, 0, 0, 16, 32, 48, 64, 192, 0, 0, 0},
    0, {0, 0, 0, 0}, {4, 8, 12, 64}, 0,
};

#define BAR_STOPS                                                                                                      \
    [64] = 255, 0, 0, 255, 1, 0, 0, 0, 0x30, 0xf8, 0xff, 0xff, 0, 0, 0, 0,               /* -2000 */                   \
    [80] = 255, 0, 0, 255, 1, 0, 0, 0, 0x18, 0xfc, 0xff, 0xff, 0, 0, 0, 0,               /* -1000 */                   \
    [96] = 0, 0, 255, 255, 1, 0, 0, 0, 0x18, 0xfc, 0xff, 0xff, 0, 0, 0, 0,                                             \
    [112] = 0, 0, 255, 255, 1, 0, 0, 0
#define BAR_PLACES                                                                                                     \
    [0] = 4, [4] = 255, 0, 0, 255, 0x80, 0xff, 0xff, 0xff, 255, 0, 0, 255, 0xc0, 0xff, 0xff, 0xff,                     \
    [20] = 0, 0, 255, 255, 0xc0, 0xff, 0xff, 0xff, 0, 0, 255, 255, 0, 0, 0, 0

/* A period of 128 units that ends where the box begins: pixel i lies at 64i + 32, moved to -96 or -32. */
static const struct chart bars = {
    "repeating-linear-gradient(90deg, red -2px, red -1px, blue -1px, blue 0)",
    {[0] = 4, [8] = 1, [12] = 8, [16] = 0x90, 0x5f, 0x01, 0x00, BAR_STOPS},              /* 90000 */
    {BAR_PLACES},
    1, {255, 0, 0, 255}, {0, 0, 255, 255}, 2,
};

static const struct chart bars_down = {
    "repeating-linear-gradient(180deg, red -2px, red -1px, blue -1px, blue 0)",
    {[0] = 4, [8] = 1, [12] = 8, [16] = 0x20, 0xbf, 0x02, 0x00, BAR_STOPS},              /* 180000 */
    {BAR_PLACES},
    1, {255, 0, 0, 255}, {0, 0, 255, 255}, 2,
};

/* The smallest period, one unit: every location is moved to 0, the first stop's. */
static const struct chart one_unit = {
    "repeating-linear-gradient(90deg, red, lime 0.008px, blue 0.016px)",
    {
        [0] = 3, [8] = 1, [12] = 8, [16] = 0x90, 0x5f, 0x01, 0x00,                       /* 90000 */
        [64] = 255, 0, 0, 255,
        [80] = 0, 255, 0, 255, 1, 0, 0, 0, 8, 0, 0, 0,
        [96] = 0, 0, 255, 255, 1, 0, 0, 0, 16, 0, 0, 0,
    },
    {[0] = 3, [4] = 255, 0, 0, 255, 0, 0, 0, 0, 0, 255, 0, 255, 1, 0, 0, 0, 0, 0, 255, 255, 1, 0, 0, 0},
    0, {0, 0, 0, 0}, {255, 0, 0, 255}, 0,
};

/* A period of 0: the average, which is T-01's own case. */
static const struct chart no_period = {
    "repeating-linear-gradient(90deg, red 2px, white 2px, blue 2px)",
    {
        [0] = 3, [8] = 1, [12] = 8, [16] = 0x90, 0x5f, 0x01, 0x00,                       /* 90000 */
        [64] = 255, 0, 0, 255, 1, 0, 0, 0, 0xd0, 0x07, 0, 0, 0, 0, 0, 0,                 /* 2000 */
        [80] = 255, 255, 255, 255, 1, 0, 0, 0, 0xd0, 0x07, 0, 0, 0, 0, 0, 0,
        [96] = 0, 0, 255, 255, 1, 0, 0, 0, 0xd0, 0x07, 0, 0, 0, 0, 0, 0,
    },
    {[0] = 3, [4] = 255, 0, 0, 255, 128, 0, 0, 0, 255, 255, 255, 255, 128, 0, 0, 0, 0, 0, 255, 255, 128, 0, 0, 0},
    0, {0, 0, 0, 0}, {191, 128, 191, 255}, 0,
};

/* The circle of `round_one`, repeated: still one color. */
static const struct chart round_again = {
    "repeating-radial-gradient(circle 3px at 25% -1.5px, #10203040, #10203040 100%)",
    {
        [0] = 2, [4] = 1, [8] = 1, [24] = 1, 0, 0, 0, 0xb8, 0x0b, 0, 0,                  /* 3000 */
        [40] = 2, 0, 0, 0, 0xa8, 0x61, 0, 0,                                             /* 25000 */
        [52] = 1, 0, 0, 0, 0x24, 0xfa, 0xff, 0xff,                                       /* -1500 */
        [64] = 16, 32, 48, 64,
        [80] = 16, 32, 48, 64, 2, 0, 0, 0, 0xa0, 0x86, 0x01, 0x00,                       /* 100000 */
    },
    {[0] = 2, [4] = 16, 32, 48, 64, 0, 0, 0, 0, 16, 32, 48, 64, 192, 0, 0, 0},
    0, {0, 0, 0, 0}, {4, 8, 12, 64}, 0,
};

static uint8_t picture[4 * AVAREZHU_SIDE_MAX * AVAREZHU_SIDE_MAX];
static uint8_t file[63 + (6 + 3 * AVAREZHU_SIDE_MAX) * AVAREZHU_SIDE_MAX];

/* The bytes in a column, or in a row, counted from 0. */
static const uint8_t *color_of(const struct chart *chart, size_t place)
{
    return (chart->period != 0 ? place % chart->period : place) < chart->edge ? chart->before : chart->after;
}

static struct bytes paint(const struct chart *chart, size_t width, size_t height)
{
    struct bytes b = {picture, 4 * width * height};
    for (size_t i = 0; i < width * height; i++)
        memcpy(picture + 4 * i, color_of(chart, i % width), 4);
    return b;
}

/* Rows of the picture of `downward` or `bars_down`. */
static struct bytes paint_rows(const struct chart *chart, size_t width, size_t first, size_t end)
{
    struct bytes b = {picture, 4 * width * (end - first)};
    for (size_t i = 0; i < width * (end - first); i++)
        memcpy(picture + 4 * i, color_of(chart, first + i / width), 4);
    return b;
}

/* The file of a picture that is known. */
static struct bytes file_of(struct bytes pixels, size_t width, size_t height)
{
    return (struct bytes){file, png_file(file, pixels.at, width, height)};
}

/* ---- Boxes and lengths ---- */

struct box {
    size_t width, height;
};

static const struct box boxes[] = {
    {1, 1}, {4, 1}, {1, 4}, {7, 5}, {2048, 1}, {1, 2048},
    {0, 1}, {1, 0}, {0, 0}, {2049, 1}, {1, 2049}, {SIZE_MAX, 1}, {1, SIZE_MAX}, {SIZE_MAX, SIZE_MAX},
    /* 4·W·H wraps to 0, to 0 and to 4 */
    {SIZE_MAX / 4 + 1, 1}, {SIZE_MAX / 2 + 1, 2}, {SIZE_MAX / 4 + 2, 1},
    /* 63 + (6 + 3·W)·H wraps to 63 */
    {SIZE_MAX - 1, 1}, {2, SIZE_MAX / 4 + 1},
#if SIZE_MAX > UINT32_MAX
    /* 1 by 1 and 4 by 1, if cut to 32 bits */
    {(size_t)UINT32_MAX + 2, 1}, {(size_t)UINT32_MAX + 5, (size_t)UINT32_MAX + 2},
#endif
};

static bool box_fits(struct box b)
{
    return b.width >= 1 && b.width <= 2048 && b.height >= 1 && b.height <= 2048;
}

/* The lower of two replies, where 0 stands for none. */
static uint32_t lower(uint32_t a, uint32_t b)
{
    return a == 0 || (b != 0 && b < a) ? b : a;
}

/* The size of the answer; in a box that does not fit, some number. */
static size_t needed(enum export e, struct box box)
{
    switch (e) {
    case READ: return 320;
    case PLACE:
    case PLACE_GRADIENT: return 132;
    case PNG: return box_fits(box) ? 63 + (6 + 3 * box.width) * box.height : 63;
    default: return box_fits(box) ? 4 * box.width * box.height : 16;
    }
}

/* Tries a call in a box with each length lent; `own` is the reply to what is handed in. */
static void try_lengths(struct call c, struct box box, uint32_t own)
{
    size_t need = needed(c.export, box);
    bool fits = c.export == READ || box_fits(box);
    const size_t lengths[] = {0, 1, need - 1, need, need + 1};
    c.width = box.width;
    c.height = box.height;
    for (size_t i = 0; i < COUNT(lengths); i++) {
        c.lent = lengths[i];
        c.reply = !fits ? 1 : lower(c.lent < need ? 2 : 0, own);
        try_call(&c);
    }
}

/* ---- Texts ---- */

static uint8_t at_most[1024], one_more[1025], long_text[5000], late_fault[1024], late_range[1024];

struct text {
    struct bytes bytes;
    uint32_t own;
    const struct chart *chart;
};

#define TEXT(literal) {(const uint8_t *)(literal), sizeof(literal) - 1}
#define EIGHT "red, lime, red, lime, red, lime, red, lime"

static const struct text texts[] = {
    {TEXT(""), 4, NULL},
    {TEXT(" "), 4, NULL},
    {TEXT("l"), 4, NULL},
    {TEXT(")"), 4, NULL},
    {TEXT("\0"), 4, NULL},
    {TEXT("\xff"), 4, NULL},
    {TEXT("linear-gradient(90deg, red 2px, blue 2px)"), 0, &angled},
    {TEXT("\f\r\n\t Linear-GRADIENT( 90.DEG0 , red 2px , blue 2px ) "), 4, NULL},
    {TEXT("\f\r\n\t Linear-GRADIENT( 90.0DEG , Red 2.000PX , #0000FF +2px ) "), 0, &angled},
    {TEXT("radial-gradient(circle 3px at 25% -1.5px, #10203040, #10203040 100%)"), 0, &round_one},
    {TEXT("radial-gradient(3px at 25% -1.5px, #10203040, #10203040 100%)"), 0, &round_one},
    {TEXT("repeating-linear-gradient(90deg, red -2px, red -1px, blue -1px, blue 0)"), 0, &bars},
    {TEXT("\tREPEATING-Linear-Gradient(90DEG,#f00 -2px,Red -1px,Blue -1.0px,#00F 0)\n"), 0, &bars},
    {TEXT("repeating-linear-gradient(90deg, red, lime 0.008px, blue 0.016px)"), 0, &one_unit},
    {TEXT("repeating-linear-gradient(90deg, red 2px, white 2px, blue 2px)"), 0, &no_period},
    {TEXT("repeating-radial-gradient(circle 3px at 25% -1.5px, #10203040, #10203040 100%)"), 0, &round_again},
    {TEXT("repeating-linear-gradient(90deg, red 2px, white 2px, blue 2px"), 4, NULL},
    {TEXT("repeating- linear-gradient(90deg, red 2px, white 2px, blue 2px)"), 4, NULL},
    {TEXT("repeating-radial-gradient(red 2px, white 2px)"), 4, NULL},
    {TEXT("repeating-radial-gradient(circle -1px, red, blue)"), 5, NULL},
    {TEXT("repeating-linear-gradient(" EIGHT ", " EIGHT ", red)"), 6, NULL},
    {TEXT("linear-gradient(90deg, red 2px, blue 2px)\0"), 4, NULL},
    {TEXT("linear-gradient(90deg, red 2px, blue 2px"), 4, NULL},
    {TEXT("linear-gradient(red)"), 4, NULL},
    {TEXT("linear-gradient(red, blue,)"), 4, NULL},
    {TEXT("linear-gradient(to left right, red, blue)"), 4, NULL},
    {TEXT("radial-gradient(circle at top 20px, red, blue)"), 4, NULL},
    {TEXT("linear-gradient(45.1deg, red, blue)"), 5, NULL},
    {TEXT("linear-gradient(red, blue 8192.001px)"), 5, NULL},
    {TEXT("linear-gradient(red, blue 99999999999999999999999999%)"), 5, NULL},
    {TEXT("radial-gradient(circle -1px, red, blue)"), 5, NULL},
    {TEXT("linear-gradient(" EIGHT ", " EIGHT ", red)"), 6, NULL},
    {TEXT("linear-gradient(" EIGHT ", " EIGHT ", red"), 4, NULL},
    {TEXT("linear-gradient(" EIGHT ", " EIGHT ", red 1000.001%)"), 5, NULL},
    {TEXT("linear-gradient(3600.25deg, red, blue,)"), 4, NULL},
    {{at_most, sizeof at_most}, 0, &angled},
    {{one_more, sizeof one_more}, 3, NULL},
    {{long_text, sizeof long_text}, 3, NULL},
    {{late_fault, sizeof late_fault}, 4, NULL},
    {{late_range, sizeof late_range}, 5, NULL},
};

static struct bytes of_text(const char *text)
{
    return (struct bytes){(const uint8_t *)text, strlen(text)};
}

static void pad(uint8_t *out, size_t length, const char *text)
{
    memset(out, ' ', length);
    memcpy(out, text, strlen(text));
}

static void fill_texts(void)
{
    pad(at_most, sizeof at_most, angled.text);
    pad(one_more, sizeof one_more, angled.text);
    memset(long_text, '(', sizeof long_text);
    pad(late_fault, sizeof late_fault, angled.text);
    late_fault[sizeof late_fault - 1] = ',';
    pad(late_range, sizeof late_range, "linear-gradient(45.1deg, red, blue)");
}

static void try_reading(struct text t)
{
    struct call c = {.export = READ, .in = t.bytes};
    if (t.chart)
        c.answer = (struct bytes){t.chart->gradient, AVAREZHU_GRADIENT_SIZE};
    try_lengths(c, (struct box){0, 0}, t.own);
}

static void try_boxed(struct text t, struct box box)
{
    struct call c = {.export = PLACE, .in = t.bytes};
    if (t.chart)
        c.answer = (struct bytes){t.chart->stops, AVAREZHU_STOPS_SIZE};
    try_lengths(c, box, t.own);
    c.export = DRAW;
    if (t.chart && box_fits(box))
        c.answer = paint(t.chart, box.width, box.height);
    try_lengths(c, box, t.own);
    c.export = PNG;
    if (t.chart && box_fits(box))
        c.answer = file_of(c.answer, box.width, box.height);
    try_lengths(c, box, t.own);
}

static void try_texts(void)
{
    fill_texts();
    for (size_t i = 0; i < COUNT(texts); i++) {
        try_reading(texts[i]);
        for (size_t k = 0; k < COUNT(boxes); k++)
            try_boxed(texts[i], boxes[k]);
    }
}

/* Without its last byte, the closing bracket, no text is in the grammar. */
static void try_prefixes(void)
{
    static const struct bytes whole[] = {
        TEXT("linear-gradient(90deg, red 2px, blue 2px)"),
        TEXT("radial-gradient(circle 3px at 25% -1.5px, #10203040, #10203040 100%)"),
        TEXT("linear-gradient( to bottom left , #abc 10% , transparent , #12345678 +.5px )"),
        TEXT("radial-gradient(closest-corner circle at right center, fuchsia, gray 0, navy -8192px)"),
        TEXT("linear-gradient(-3600.0deg,red,blue -1000.000%)"),
        TEXT("linear-gradient(45.1deg, red, blue 8192.001px)"),
        TEXT("linear-gradient(" EIGHT ", " EIGHT ", red)"),
        TEXT("RADIAL-GRADIENT(\tCIRCLE\n,\rWHITE\f0PX,SILVER 100%\t)"),
        TEXT("repeating-linear-gradient(90deg, red -2px, red -1px, blue -1px, blue 0)"),
        TEXT("Repeating-Radial-Gradient(5px, navy, teal 0.016px)"),
    };
    static const enum export exports[] = {READ, PLACE, DRAW, DRAW_ROWS, PNG};
    for (size_t i = 0; i < COUNT(whole); i++)
        for (size_t length = 0; length < whole[i].length; length++)
            for (size_t e = 0; e < COUNT(exports); e++) {
                struct call c = {.export = exports[e], .in = {whole[i].at, length}, .width = 7, .height = 5, .end = 5};
                c.lent = needed(exports[e], (struct box){7, 5});
                c.reply = 4;
                try_call(&c);
            }
}

/* ---- Strips ---- */

struct rows {
    size_t first, end;
};

static bool rows_fit(struct rows r, size_t height)
{
    return r.first < r.end && r.end <= height;
}

/* One strip with each length lent. For rows that are refused these are lengths about the picture's. */
static void try_strip(struct call c, const struct chart *chart, struct rows rows, uint32_t own)
{
    struct box box = {c.width, c.height};
    bool sound = box_fits(box) && rows_fit(rows, c.height);
    size_t need = !box_fits(box) ? 16 : 4 * c.width * (sound ? rows.end - rows.first : c.height);
    const size_t lengths[] = {need, 0, 1, need - 1, need + 1, 4 * c.width};
    c.first = rows.first;
    c.end = rows.end;
    if (sound)
        c.answer = paint_rows(chart, c.width, c.first, c.end);
    for (size_t i = 0; i < (box_fits(box) ? COUNT(lengths) : 2); i++) {
        c.lent = lengths[i];
        uint32_t room = c.lent < need ? 2 : 0;
        c.reply = !box_fits(box) ? 1 : !sound ? 8 : lower(room, own);
        try_call(&c);
    }
}

/* Rows at the edges of a picture, past them, and with numbers that wrap. */
static void try_rows(struct call c, const struct chart *chart, uint32_t own)
{
    const size_t h = c.height, half = SIZE_MAX / 2 + 1, quarter = SIZE_MAX / 4 + 1;
    const struct rows list[] = {
        {0, 1}, {0, h}, {1, 2}, {1, h}, {2, h}, {h / 2, h}, {h - 1, h}, {h - 2, h - 1}, {0, h - 1},
        {0, 0}, {1, 1}, {h, h}, {1, 0}, {h, 0}, {h, h - 1}, {h + 1, h},
        {0, h + 1}, {h - 1, h + 1}, {h, h + 1}, {h + 1, h + 2}, {0, SIZE_MAX}, {h, SIZE_MAX},
        {SIZE_MAX, 0}, {SIZE_MAX, 1}, {SIZE_MAX, h}, {SIZE_MAX, SIZE_MAX}, {SIZE_MAX - 1, SIZE_MAX},
        /* 4 * width * rows wraps to 0, or to a row */
        {0, quarter}, {0, half}, {1, quarter + 1}, {0, quarter + 1}, {1, half + 2}, {half, 0}, {quarter + 1, 1},
#if SIZE_MAX > UINT32_MAX
        /* row 0, if cut to 32 bits */
        {0, (size_t)UINT32_MAX + 2}, {(size_t)UINT32_MAX + 1, (size_t)UINT32_MAX + 2}, {(size_t)UINT32_MAX + 1, 1},
#endif
    };
    for (size_t i = 0; i < COUNT(list); i++)
        try_strip(c, chart, list[i], own);
}

/* The rows of a chart; of no chart where the text is refused. */
static void try_text_rows(struct box box, struct bytes text, const struct chart *chart, uint32_t own)
{
    struct call c = {.export = DRAW_ROWS, .in = text, .width = box.width, .height = box.height};
    try_rows(c, chart != NULL ? chart : &downward, own);
}

static void try_chart_rows(struct box box, const struct chart *chart)
{
    struct call c = {.export = DRAW_GRADIENT_ROWS, .width = box.width, .height = box.height};
    c.in = (struct bytes){chart->gradient, AVAREZHU_GRADIENT_SIZE};
    try_rows(c, chart, 0);
    try_text_rows(box, of_text(chart->text), chart, 0);
}

/* The gradient of `downward` with another count and angle, and as a slice of another length. */
static void try_gradient_rows(struct box box, uint8_t count, uint8_t angle, size_t length, uint32_t own)
{
    static uint8_t gradient[400];
    struct call c = {.export = DRAW_GRADIENT_ROWS, .in = {gradient, length}, .width = box.width, .height = box.height};
    memset(gradient, 0, sizeof gradient);
    memcpy(gradient, downward.gradient, sizeof downward.gradient);
    gradient[0] = count;
    gradient[16] = angle;
    try_rows(c, &downward, own);
}

/* In every box what is drawn, in three of them what is refused. An angle of 180,001 thousandths is out of its range. */
static void try_strips(void)
{
    static const struct box few[] = {{7, 5}, {4, 1}, {2049, 3}};
    static const struct text refused[] = {
        {{one_more, sizeof one_more}, 3, NULL},
        {TEXT(""), 4, NULL},
        {TEXT("linear-gradient(180deg, red 2px, blue 2px"), 4, NULL},
        {{late_fault, sizeof late_fault}, 4, NULL},
        {TEXT("linear-gradient(45.1deg, red, blue)"), 5, NULL},
        {TEXT("linear-gradient(" EIGHT ", " EIGHT ", red)"), 6, NULL},
        {TEXT("repeating-linear-gradient(" EIGHT ", " EIGHT ", red)"), 6, NULL},
    };
    static const size_t lengths[] = {0, 1, 319, 321, 400};
    for (size_t k = 0; k < COUNT(boxes); k++) {
        try_chart_rows(boxes[k], &downward);
        try_chart_rows(boxes[k], &bars_down);
        try_chart_rows(boxes[k], &no_period);
    }
    for (size_t k = 0; k < COUNT(few); k++) {
        for (size_t i = 0; i < COUNT(refused); i++)
            try_text_rows(few[k], refused[i].bytes, NULL, refused[i].own);
        for (size_t i = 0; i < COUNT(lengths); i++)
            try_gradient_rows(few[k], 2, 0x20, lengths[i], 4);
        try_gradient_rows(few[k], 1, 0x21, AVAREZHU_GRADIENT_SIZE, 4);
        try_gradient_rows(few[k], 17, 0x21, AVAREZHU_GRADIENT_SIZE, 5);
        try_gradient_rows(few[k], 17, 0x20, AVAREZHU_GRADIENT_SIZE, 6);
    }
}

/* ---- Layouts handed in ---- */

/* Gradient and stops need not belong together: the picture is that of the stops. */
static void try_slices(struct box box, const struct chart *g, size_t g_length, const struct chart *s, size_t s_length)
{
    static uint8_t longer[2][400];
    memset(longer, 0, sizeof longer);
    memcpy(longer[0], g->gradient, AVAREZHU_GRADIENT_SIZE);
    memcpy(longer[1], s->stops, AVAREZHU_STOPS_SIZE);
    uint32_t own = g_length == AVAREZHU_GRADIENT_SIZE ? 0 : 4;
    struct call c = {.export = PLACE_GRADIENT, .in = {longer[0], g_length}, .stops = {longer[1], s_length}};
    c.answer = (struct bytes){g->stops, AVAREZHU_STOPS_SIZE};
    try_lengths(c, box, own);
    c.export = DRAW_GRADIENT;
    if (box_fits(box))
        c.answer = paint(g, box.width, box.height);
    try_lengths(c, box, own);
    c.export = DRAW_STOPS;
    if (box_fits(box))
        c.answer = paint(s, box.width, box.height);
    try_lengths(c, box, s_length == AVAREZHU_STOPS_SIZE ? own : 4);
}

/* The circle's stops have one color, so along the line of `angled` they give the same picture. */
static void try_layouts(void)
{
    static const size_t gradients[] = {0, 1, 319, 320, 321, 400};
    static const size_t stops[] = {0, 1, 131, 132, 133, 400};
    for (size_t k = 0; k < COUNT(boxes); k++) {
        for (size_t i = 0; i < COUNT(gradients); i++)
            try_slices(boxes[k], &angled, gradients[i], &round_one, AVAREZHU_STOPS_SIZE);
        for (size_t i = 0; i < COUNT(stops); i++)
            try_slices(boxes[k], &round_one, AVAREZHU_GRADIENT_SIZE, &round_one, stops[i]);
        try_slices(boxes[k], &angled, AVAREZHU_GRADIENT_SIZE, &angled, AVAREZHU_STOPS_SIZE);
        try_slices(boxes[k], &angled, 0, &angled, 0);
        try_slices(boxes[k], &bars, AVAREZHU_GRADIENT_SIZE, &bars, AVAREZHU_STOPS_SIZE);
        try_slices(boxes[k], &one_unit, AVAREZHU_GRADIENT_SIZE, &bars, AVAREZHU_STOPS_SIZE);
        try_slices(boxes[k], &bars, AVAREZHU_GRADIENT_SIZE, &no_period, AVAREZHU_STOPS_SIZE);
        try_slices(boxes[k], &round_again, AVAREZHU_GRADIENT_SIZE, &no_period, AVAREZHU_STOPS_SIZE);
    }
}

/*
 * Whether stops are repeated is the gradient's to say. Without it the bars' stops end before the box:
 * blue. With it the stops of `angled`, all in one place, are the average of red and blue, 127.5 each.
 */
static void try_whether(void)
{
    static const uint8_t blue[] = {0, 0, 255, 255, 0, 0, 255, 255}, purple[] = {128, 0, 128, 255, 128, 0, 128, 255};
    struct call c = {.export = DRAW_STOPS, .width = 2, .height = 1, .lent = 11};
    c.in = (struct bytes){angled.gradient, AVAREZHU_GRADIENT_SIZE};
    c.stops = (struct bytes){bars.stops, AVAREZHU_STOPS_SIZE};
    c.answer = (struct bytes){blue, sizeof blue};
    try_call(&c);
    c.in = (struct bytes){bars.gradient, AVAREZHU_GRADIENT_SIZE};
    c.stops = (struct bytes){angled.stops, AVAREZHU_STOPS_SIZE};
    c.answer = (struct bytes){purple, sizeof purple};
    try_call(&c);
}

/* ---- Layouts that are not sound ---- */

/* Words put over those of a sound gradient; from the second on, offset 0 with word 0 stands for none. */
struct change {
    size_t offset;
    uint32_t word;
};
struct damage {
    uint32_t own;
    struct change changes[3];
};

#define MINUS(n) (UINT32_MAX - (n) + 1)

static const struct damage of_angled[] = {
    {4, {{0, 0}}}, {4, {{0, 1}}}, {6, {{0, 17}}}, {6, {{0, UINT32_MAX}}}, {6, {{0, 2 + 256}}},
    {4, {{4, 1}}}, {4, {{4, 2}}}, {4, {{12, 9}}}, {4, {{12, 2}}}, {4, {{12, UINT32_MAX}}},
    {5, {{16, 90100}}}, {5, {{16, 3600250}}}, {5, {{16, MINUS(3600250)}}}, {5, {{16, 0x80000000}}},
    {5, {{0, 17}, {16, 90100}}}, {4, {{0, 1}, {16, 90100}}}, {4, {{0, 17}, {12, 9}}}, {4, {{16, 90100}, {8, 2}}},
    {4, {{8, 2}}}, {4, {{8, 3}}}, {4, {{8, 256}}}, {4, {{8, 257}}}, {4, {{8, 0x1000000}}}, {4, {{8, 0x80000001}}},
    {4, {{8, UINT32_MAX}}}, {4, {{0, 17}, {8, 2}}}, {5, {{8, 1}, {16, 90100}}}, {6, {{0, 17}, {8, 1}}},
    {4, {{68, 0}}}, {4, {{68, 3}}}, {5, {{68, 2}, {72, 1000001}}}, {5, {{72, 8192001}}},
    {5, {{72, MINUS(8192001)}}}, {5, {{72, 8192001}, {0, 17}}}, {4, {{72, 8192001}, {300, 1}}},
};

static const struct damage of_round[] = {
    {4, {{0, 0}}}, {6, {{0, 17}}}, {4, {{4, 0}}}, {4, {{12, 1}}}, {4, {{12, 8}}}, {4, {{16, 250}}},
    {4, {{20, 4}, {24, 0}, {28, 0}}}, {4, {{20, 1}}}, {4, {{24, 0}}}, {4, {{24, 2}}}, {4, {{24, 3}}},
    {5, {{28, MINUS(1)}}}, {5, {{28, 8192001}}}, {5, {{28, 0x80000000}}},
    {4, {{40, 0}}}, {4, {{40, 3}}}, {5, {{44, 1000001}}}, {5, {{44, MINUS(1000001)}}},
    {4, {{52, 0}}}, {4, {{52, 3}}}, {5, {{56, 8192001}}}, {5, {{56, MINUS(8192001)}}},
    {4, {{72, 1}}}, {5, {{68, 2}, {72, 1000001}}}, {4, {{56, 8192001}, {52, 3}}},
    {4, {{8, 2}}}, {4, {{8, 256}}}, {5, {{8, 1}, {44, 1000001}}}, {6, {{8, 1}, {0, 17}}},
    /* sound ones, at the ends of the ranges, some of them repeating: still one color */
    {0, {{8, 1}}}, {0, {{8, 1}, {28, 0}}}, {0, {{8, 1}, {28, 8192000}}}, {0, {{8, 1}, {84, 1}, {88, 16}}},
    {0, {{28, 8192000}}}, {0, {{28, 0}}}, {0, {{44, 1000000}}}, {0, {{44, MINUS(1000000)}}}, {0, {{40, 1}}},
    {0, {{56, 8192000}}}, {0, {{56, MINUS(8192000)}}}, {0, {{52, 2}}}, {0, {{24, 0}, {28, 0}}},
    {0, {{20, 1}, {24, 0}, {28, 0}}}, {0, {{20, 2}, {24, 0}, {28, 0}}}, {0, {{20, 3}, {24, 0}, {28, 0}}},
    {0, {{88, 1000000}}}, {0, {{88, MINUS(1000000)}}}, {0, {{84, 1}, {88, 8192000}}}, {0, {{84, 0}, {88, 0}}},
};

static void put(uint8_t *at, uint32_t word)
{
    for (int i = 0; i < 4; i++)
        at[i] = (uint8_t)(word >> 8 * i);
}

/* The four exports that take a gradient, in 4 by 1 pixels; a sound one has the color of `round_one`. */
static void try_gradient(const uint8_t *gradient, uint32_t own)
{
    struct call c = {.in = {gradient, AVAREZHU_GRADIENT_SIZE}, .width = 4, .height = 1, .end = 1, .reply = own};
    c.stops = (struct bytes){round_one.stops, AVAREZHU_STOPS_SIZE};
    c.answer = paint(&round_one, 4, 1);
    c.export = DRAW_GRADIENT;
    c.lent = 16;
    try_call(&c);
    c.export = DRAW_GRADIENT_ROWS;
    try_call(&c);
    c.export = DRAW_STOPS;
    try_call(&c);
    c.export = PLACE_GRADIENT;
    c.lent = AVAREZHU_STOPS_SIZE;
    if (own != 0)
        try_call(&c);
}

static void try_damage(const struct chart *chart, const struct damage *list, size_t count)
{
    uint8_t gradient[AVAREZHU_GRADIENT_SIZE];
    for (size_t i = 0; i < count; i++) {
        memcpy(gradient, chart->gradient, sizeof gradient);
        for (size_t k = 0; k < COUNT(list[i].changes); k++) {
            struct change change = list[i].changes[k];
            if (k == 0 || change.offset != 0 || change.word != 0)
                put(gradient + change.offset, change.word);
        }
        try_gradient(gradient, list[i].own);
    }
}

/*
 * Every bit of every word that must be 0 in `angled`: reserved, of a circle, or of a blank place; and
 * every bit but the lowest of the word that says whether it repeats.
 */
static void try_zero_words(void)
{
    uint8_t gradient[AVAREZHU_GRADIENT_SIZE];
    for (size_t offset = 8; offset < AVAREZHU_GRADIENT_SIZE; offset++) {
        bool zero = offset < 12 || (offset >= 20 && offset < 64) || (offset >= 76 && offset < 80) || offset >= 92;
        for (int bit = offset == 8 ? 1 : 0; zero && bit < 8; bit++) {
            memcpy(gradient, angled.gradient, sizeof gradient);
            gradient[offset] = (uint8_t)(1 << bit);
            try_gradient(gradient, 4);
        }
    }
}

/* Placed stops in words: the count, then color and position of the first stops. */
struct list {
    uint32_t words[7];
    uint32_t own;
};

static const struct list lists[] = {
    {{2, 0x40302010, 0, 0x40302010, 192}, 0},
    {{2, 0x40302010, MINUS(33554432), 0x40302010, 33554432}, 0},
    {{3, 0x40302010, 5, 0x40302010, 5, 0x40302010, 5}, 0},
    {{2, 0x40302010, 5, 0x40302010, 6}, 0},
    {{2, 0x40302010, MINUS(33554432), 0x40302010, MINUS(33554431)}, 0},
    {{3, 0x40302010, 33554431, 0x40302010, 33554431, 0x40302010, 33554432}, 0},
    {{0}, 4},
    {{0, 0x40302010, 0, 0x40302010, 192}, 4},
    {{1, 0x40302010, 0}, 4},
    {{1, 0x40302010, 0, 0x40302010, 192}, 4},
    {{2, 0x40302010, 1, 0x40302010, 0}, 4},
    {{2, 0x40302010, 0, 0x40302010, MINUS(1)}, 4},
    {{3, 0x40302010, 0, 0x40302010, 7, 0x40302010, 6}, 4},
    {{2, 0x40302010, 0, 0x40302010, 192, 1, 0}, 4},
    {{2, 0x40302010, 0, 0x40302010, 192, 0, 192}, 4},
    {{2 + 256, 0x40302010, 0, 0x40302010, 192}, 4},
    {{2 + 65536, 0x40302010, 0, 0x40302010, 192}, 4},
    {{0x80000002, 0x40302010, 0, 0x40302010, 192}, 4},
    {{2, 0x40302010, 0, 0x40302010, 33554433}, 5},
    {{2, 0x40302010, MINUS(33554433), 0x40302010, 0}, 5},
    {{2, 0x40302010, 0x80000000, 0x40302010, 0x7fffffff}, 5},
    {{2, 0x40302010, 33554433, 0x40302010, 0}, 4},
    {{17, 0x40302010, MINUS(9), 0x40302010, 0}, 6},
    {{255, 0x40302010, MINUS(9), 0x40302010, 0}, 6},
    {{17, 0x40302010, 0, 0x40302010, 192}, 4},
    {{17, 0x40302010, MINUS(33554433), 0x40302010, 0}, 5},
};

/* Each list beside a sound gradient and beside one for each refusal; the lower reply is given. */
static void try_lists(void)
{
    static const struct damage beside[] = {
        {0, {{4, 0}}}, {0, {{8, 1}}}, {4, {{4, 2}}}, {4, {{8, 2}}}, {5, {{16, 90100}}}, {6, {{0, 17}}},
    };
    uint8_t gradient[AVAREZHU_GRADIENT_SIZE], stops[AVAREZHU_STOPS_SIZE];
    struct call c = {.export = DRAW_STOPS, .width = 4, .height = 1, .lent = 17};
    c.in = (struct bytes){gradient, sizeof gradient};
    c.stops = (struct bytes){stops, sizeof stops};
    c.answer = paint(&round_one, 4, 1);
    for (size_t i = 0; i < COUNT(lists); i++)
        for (size_t k = 0; k < COUNT(beside); k++) {
            memcpy(gradient, angled.gradient, sizeof gradient);
            put(gradient + beside[k].changes[0].offset, beside[k].changes[0].word);
            memset(stops, 0, sizeof stops);
            for (size_t w = 0; w < COUNT(lists[i].words); w++)
                put(stops + 4 * w, lists[i].words[w]);
            c.reply = lower(beside[k].own, lists[i].own);
            try_call(&c);
        }
}

/* ---- Worked cases of the rules ---- */

struct worked {
    const char *text;
    size_t width, height;
    uint8_t pixels[16];
};

static const struct worked drawn[] = {
    {"linear-gradient(to right, black, white)", 4, 1,
     {32, 32, 32, 255, 96, 96, 96, 255, 159, 159, 159, 255, 223, 223, 223, 255}},        /* P1 */
    {"linear-gradient(to right, red, transparent)", 2, 1, {191, 0, 0, 191, 64, 0, 0, 64}}, /* P2 */
    {"radial-gradient(circle at 0.5px 0.5px, red -50px, yellow 100px)", 1, 1, {255, 85, 0, 255}}, /* P9 */
    {"repeating-linear-gradient(red 0, white 0, blue 0)", 1, 1, {191, 128, 191, 255}},   /* T-01 */
    /* 32 and 96 of 128 units, twice: 63.75 and 191.25 */
    {"repeating-linear-gradient(to right, black, white 2px)", 4, 1,
     {64, 64, 64, 255, 191, 191, 191, 255, 64, 64, 64, 255, 191, 191, 191, 255}},
    /* the second pixel lies where the last stop meets the first */
    {"repeating-linear-gradient(to right, red -1.5px, black 1.5px)", 2, 1, {85, 0, 0, 255, 255, 0, 0, 255}},
    {"repeating-radial-gradient(0px, red, #0f00)", 1, 2, {128, 0, 0, 128, 128, 0, 0, 128}}, /* 127.5 twice */
    /* 45 units from the center, and 101, 5 more than two periods of 48: 239.06 and 26.56 */
    {"repeating-radial-gradient(circle at 0 0, black, white 0.75px)", 2, 1, {239, 239, 239, 255, 27, 27, 27, 255}},
};

/* P4 and P5, in 200 by 1 pixels: a line of 12,800 units. */
static const uint8_t p4[AVAREZHU_STOPS_SIZE] = {
    4, 0, 0, 0,
    255, 0, 0, 255, 0x00, 0x14, 0, 0,      /* 5120 */
    255, 255, 255, 255, 0x00, 0x1e, 0, 0,  /* 7680 */
    0, 0, 0, 255, 0x00, 0x28, 0, 0,        /* 10240 */
    0, 0, 255, 255, 0x00, 0x32, 0, 0,      /* 12800 */
};
static const uint8_t p5[AVAREZHU_STOPS_SIZE] = {
    3, 0, 0, 0,
    255, 0, 0, 255, 0x00, 0xe7, 0xff, 0xff, /* -6400 */
    255, 255, 255, 255, 0x80, 0x0c, 0, 0,   /* 3200 */
    0, 0, 255, 255, 0x00, 0x32, 0, 0,       /* 12800 */
};

/* One red pixel, 1 by 1; the zlib stream was made by zlib itself. */
static const uint8_t red_dot[72] = {
    137, 80, 78, 71, 13, 10, 26, 10,
    0, 0, 0, 13, 'I', 'H', 'D', 'R', 0, 0, 0, 1, 0, 0, 0, 1, 8, 2, 0, 0, 0, 144, 119, 83, 222,
    0, 0, 0, 15, 'I', 'D', 'A', 'T', 120, 1, 1, 4, 0, 251, 255, 0, 255, 0, 0, 3, 1, 1, 0, 141, 29, 229, 130,
    0, 0, 0, 0, 'I', 'E', 'N', 'D', 174, 66, 96, 130,
};

static void try_worked(void)
{
    struct call c = {.width = 0};
    for (size_t i = 0; i < COUNT(drawn); i++) {
        struct box box = {drawn[i].width, drawn[i].height};
        c.in = of_text(drawn[i].text);
        c.answer = (struct bytes){drawn[i].pixels, 4 * box.width * box.height};
        c.export = DRAW;
        try_lengths(c, box, 0);
        c.export = DRAW_ROWS;
        c.end = box.height;
        try_lengths(c, box, 0);
        c.answer = file_of(c.answer, box.width, box.height);
        c.export = PNG;
        try_lengths(c, box, 0);
    }
    c.in = of_text("linear-gradient(red, red)");
    c.answer = (struct bytes){red_dot, sizeof red_dot};
    try_lengths(c, (struct box){1, 1}, 0);
    c.export = PLACE;
    c.in = of_text("linear-gradient(to right, red 40%, white, black, blue)");
    c.answer = (struct bytes){p4, sizeof p4};
    try_lengths(c, (struct box){200, 1}, 0);
    c.in = of_text("linear-gradient(to right, red -50%, white, blue)");
    c.answer = (struct bytes){p5, sizeof p5};
    try_lengths(c, (struct box){200, 1}, 0);
}

/* With room for the answer, and with a byte less. */
static void try_room(struct call c)
{
    c.lent = c.answer.length;
    try_call(&c);
    c.lent--;
    c.reply = 2;
    try_call(&c);
}

/* The largest picture, whole and its last 64 rows. */
static void try_largest_of(const char *text, const struct chart *chart)
{
    struct call c = {.export = DRAW, .in = of_text(text), .width = 2048, .height = 2048};
    c.answer = paint(chart, 2048, 2048);
    try_room(c);
    c.export = PNG;
    c.answer = file_of(c.answer, 2048, 2048);
    try_room(c);
    c.export = DRAW_ROWS;
    c.first = 1984, c.end = 2048;
    c.answer = paint(chart, 2048, 64);
    try_room(c);
}

/* Red up to the middle, then blue; bars of 3 and 4 px, whose stops lie past the box; one color. */
static void try_largest(void)
{
    struct chart half = angled, wide = bars;
    half.edge = 1024;
    wide.edge = 3, wide.period = 7;
    try_largest_of("linear-gradient(90deg, red 1024px, blue 1024px)", &half);
    try_largest_of("repeating-linear-gradient(90deg, red 7000px, red 7003px, blue 7003px, blue 7007px)", &wide);
    try_largest_of(no_period.text, &no_period);
}

/* ---- The header's structs ---- */

static void check_structs(void)
{
    avarezhu_gradient g = {.count = 2, .shape = AVAREZHU_CIRCLE, .size_unit = AVAREZHU_LENGTH, .size = 3000};
    g.x_unit = AVAREZHU_PERCENTAGE, g.x = 25000, g.y_unit = AVAREZHU_LENGTH, g.y = -1500;
    g.stops[0] = (avarezhu_stop){.red = 16, .green = 32, .blue = 48, .alpha = 64, .unit = AVAREZHU_NONE};
    g.stops[1] = (avarezhu_stop){16, 32, 48, 64, AVAREZHU_PERCENTAGE, 100000, 0};
    if (memcmp(&g, round_one.gradient, sizeof g) != 0)
        fail("avarezhu_gradient does not overlay a circle's layout");
    avarezhu_gradient a = {.count = 2, .shape = AVAREZHU_LINEAR, .direction = AVAREZHU_ANGLE, .angle = 90000};
    a.stops[0] = (avarezhu_stop){255, 0, 0, 255, AVAREZHU_LENGTH, 2000, 0};
    a.stops[1] = (avarezhu_stop){0, 0, 255, 255, AVAREZHU_LENGTH, 2000, 0};
    if (memcmp(&a, angled.gradient, sizeof a) != 0)
        fail("avarezhu_gradient does not overlay a linear layout");
    avarezhu_gradient b = {.count = 4, .repeating = 1, .direction = AVAREZHU_ANGLE, .angle = 90000};
    b.stops[0] = (avarezhu_stop){255, 0, 0, 255, AVAREZHU_LENGTH, -2000, 0};
    b.stops[1] = (avarezhu_stop){255, 0, 0, 255, AVAREZHU_LENGTH, -1000, 0};
    b.stops[2] = (avarezhu_stop){0, 0, 255, 255, AVAREZHU_LENGTH, -1000, 0};
    b.stops[3] = (avarezhu_stop){0, 0, 255, 255, AVAREZHU_LENGTH, 0, 0};
    if (memcmp(&b, bars.gradient, sizeof b) != 0)
        fail("avarezhu_gradient does not overlay a repeating layout");
    avarezhu_stops s = {.count = 3};
    s.stops[0] = (avarezhu_placed_stop){255, 0, 0, 255, -6400};
    s.stops[1] = (avarezhu_placed_stop){255, 255, 255, 255, 3200};
    s.stops[2] = (avarezhu_placed_stop){.blue = 255, .alpha = 255, .position = 12800};
    if (memcmp(&s, p5, sizeof s) != 0)
        fail("avarezhu_stops does not overlay its layout");
}

/* Reading knows no box, only texts are too long, and only strips have rows. */
static bool may_reply(enum export e, int reply)
{
    switch (reply) {
    case 1: return e != READ;
    case 3: return !takes_gradient(e);
    case 8: return draws_rows(e);
    default: return true;
    }
}

/* Answers whether every reply was given. */
static bool print_counts(void)
{
    unsigned long all = 0;
    bool complete = true;
    printf("%-28s", "calls by reply");
    for (size_t i = 0; i < COUNT(replies); i++)
        printf("%7d", replies[i]);
    for (int e = 0; e < EXPORTS; e++) {
        printf("\n%-28s", export_names[e]);
        for (size_t i = 0; i < COUNT(replies); i++) {
            unsigned long count = made[e][replies[i]];
            printf("%7lu", count);
            all += count;
            complete &= count > 0 || !may_reply((enum export)e, replies[i]);
        }
    }
    printf("\n%lu calls, every byte as expected\n", all);
    return complete;
}

int main(void)
{
    page = (size_t)sysconf(_SC_PAGESIZE);
    catch_faults();
    check_structs();
    try_worked();
    try_texts();
    try_prefixes();
    try_strips();
    try_layouts();
    try_whether();
    try_damage(&angled, of_angled, COUNT(of_angled));
    try_damage(&round_one, of_round, COUNT(of_round));
    try_zero_words();
    try_lists();
    try_largest();
    if (print_counts())
        return 0;
    fputs("guard: a reply was never given\n", stderr);
    return 1;
}
