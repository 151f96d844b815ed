/*
 * Times a picture drawn in strips beside the same picture drawn whole, and its strips on one thread and on
 * two. All write to the same memory, a strip to its place in the picture, and must leave the same bytes.
 */
#define _POSIX_C_SOURCE 200809L
#include "bench.h"

#include "avarezhu.h"

#include <pthread.h>
#include <stdatomic.h>
#include <stdlib.h>
#include <string.h>

#define TURN_NS 40e6 /* for each round: a slow draw gets as many as begin within all of this time */

static const size_t rows_of[WAYS] = {[ROWS_64] = 64, [ROWS_16] = 16, [ROWS_1] = 1};

static const struct picture *shown;
static uint8_t *target, *reference;
static size_t size, rows;

static void begin(const struct picture *picture, uint8_t *pixels, uint8_t *whole) {
    shown = picture;
    target = pixels;
    reference = whole;
    size = AVAREZHU_PIXELS_SIZE(picture->width, picture->height);
    library_painter.begin(picture, pixels);
}

static void draw_strip(size_t first) {
    size_t end = first + rows;
    uint8_t *place = target + AVAREZHU_PIXELS_SIZE(shown->width, first);
    uint32_t reply = avarezhu_draw_rows(shown->text, shown->text_length, shown->width, shown->height, first,
                                        end, place, AVAREZHU_PIXELS_SIZE(shown->width, rows));
    if (reply == AVAREZHU_DONE)
        return;
    fprintf(stderr, "reply %u to rows %zu up to %zu of %.*s\n", (unsigned)reply, first, end,
            (int)shown->text_length, shown->text);
    exit(1);
}

static void draw_strips(void) {
    for (size_t first = 0; first < shown->height; first += rows)
        draw_strip(first);
}

/* What the strips left must be the whole picture. */
static void check(const char *where) {
    size_t k = 0;
    if (memcmp(target, reference, size) == 0)
        return;
    while (target[k] == reference[k])
        k++;
    fprintf(stderr, "strips of %zu row%s%s draw another picture than the whole, from row %zu on: %.*s\n",
            rows, rows > 1 ? "s" : "", where, k / AVAREZHU_PIXELS_SIZE(shown->width, 1),
            (int)shown->text_length, shown->text);
    exit(1);
}

/* The memory is cleared before each turn, so that no way can pass for another that wrote there before. */
static double take_turn(double least, int way) {
    memset(target, 0, size);
    if (way == ALL_ROWS) {
        least = least_of_round(least, library_painter.draw, 1);
        memcpy(reference, target, size);
        return least;
    }
    rows = rows_of[way];
    least = least_of_round(least, draw_strips, 1);
    check("");
    return least;
}

void time_strips(const struct picture *picture, uint8_t *pixels, uint8_t *whole, int rounds,
                 double per_pixel[WAYS]) {
    double ns[WAYS] = {0};
    begin(picture, pixels, whole);
    for (int round = 0; round < rounds; round++)
        for (int way = 0; way < WAYS; way++)
            if (round * ns[way] <= rounds * TURN_NS)
                ns[way] = take_turn(ns[way], way);
    for (int way = 0; way < WAYS; way++)
        per_pixel[way] = ns[way] / (double)(picture->width * picture->height);
    library_painter.end();
}

static pthread_attr_t thread_kind;
static atomic_size_t next_row; /* the first that no thread has taken */

static void *take_strips(void *unused) {
    (void)unused;
    for (;;) {
        size_t first = atomic_fetch_add(&next_row, rows);
        if (first >= shown->height)
            return NULL;
        draw_strip(first);
    }
}

static void draw_on(int count) {
    pthread_t threads[THREADS];
    atomic_store(&next_row, 0);
    for (int k = 0; k < count; k++)
        if (pthread_create(&threads[k], &thread_kind, take_strips, NULL) != 0)
            fail("no thread");
    for (int k = 0; k < count; k++)
        if (pthread_join(threads[k], NULL) != 0)
            fail("a thread is lost");
}

static void draw_on_one(void) {
    draw_on(1);
}

static void draw_on_two(void) {
    draw_on(2);
}

void time_threads(const struct picture *picture, uint8_t *pixels, uint8_t *whole, int rounds,
                  double per_pixel[THREADS]) {
    static void (*const draw[THREADS])(void) = {draw_on_one, draw_on_two};
    double ns[THREADS] = {0};
    if (pthread_attr_init(&thread_kind) != 0 ||
        pthread_attr_setstacksize(&thread_kind, AVAREZHU_THREAD_STACK) != 0)
        fail("no stack for a thread");
    begin(picture, pixels, whole);
    library_painter.draw();
    memcpy(reference, target, size);
    rows = rows_of[ROWS_64];
    for (int round = 0; round < rounds; round++)
        for (int k = 0; k < THREADS; k++) {
            memset(target, 0, size);
            ns[k] = least_of_wall_round(ns[k], draw[k], 1);
            check(k == 0 ? " on one thread" : " on two threads");
        }
    for (int k = 0; k < THREADS; k++)
        per_pixel[k] = ns[k] / (double)(picture->width * picture->height);
    library_painter.end();
    pthread_attr_destroy(&thread_kind);
}
