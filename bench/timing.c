/*
 * Times the library, memset, cairo and Qt on the same pictures, repeated ones beside the same not repeated,
 * the reading of texts, and drawing in strips.
 * They take turns, in every other round in reverse: each round times all of them once, and the least of the
 * rounds is kept for each.
 *
 *     timing full|quick COUNTS JSON    COUNTS holds the names of count.c, each with its instructions
 */
#define _GNU_SOURCE
#include "bench.h"

#include "avarezhu.h"

#include <sched.h>
#include <stdlib.h>
#include <string.h>

#define MEAN_MAX 2.0 /* more than this and it is not the same picture */

enum { FULL_ROUNDS = 15, QUICK_ROUNDS = 3 };

#ifdef WITH_CAIRO
#define CAIRO_PAINTER &cairo_painter
#else
#define CAIRO_PAINTER NULL
#endif
#ifdef WITH_QT
#define QT_PAINTER &qt_painter
#else
#define QT_PAINTER NULL
#endif
const struct painter *const painters[PAINTERS] = {
    &library_painter,
    &once_painter,
    &memset_painter,
    CAIRO_PAINTER,
    QT_PAINTER,
};

static uint8_t *pixels, *reference;
static cpu_set_t processors; /* all that there are for the process, before it stays on one */

void fail(const char *why) {
    fprintf(stderr, "timing: %s\n", why);
    exit(1);
}

static uint8_t *pixel_memory(void) {
    size_t size = AVAREZHU_PIXELS_SIZE(AVAREZHU_SIDE_MAX, AVAREZHU_SIDE_MAX);
    uint8_t *memory = aligned_alloc(4096, size);
    if (memory == NULL)
        fail("no memory");
    return memset(memory, 1, size);
}

/* A painter that spreads its work over threads gets one processor, as the others do. */
static void stay_on_one_processor(void) {
    cpu_set_t set;
    int here = sched_getcpu();
    if (sched_getaffinity(0, sizeof processors, &processors) != 0)
        CPU_ZERO(&processors);
    CPU_ZERO(&set);
    if (here >= 0)
        CPU_SET(here, &set);
    if (here < 0 || sched_setaffinity(0, sizeof set, &set) != 0)
        fputs("timing: not bound to one processor\n", stderr);
}

/* Back to all processors; false if there is only one. */
static bool spread_out(void) {
    return CPU_COUNT(&processors) > 1 && sched_setaffinity(0, sizeof processors, &processors) == 0;
}

/* Whether a painter was built and has a part in pictures of this kind. */
static bool takes_turns(int painter, const struct picture *p) {
    static const bool asked[KINDS][PAINTERS] = {
        [PLAIN] = {[LIBRARY] = true, [MEMSET] = true, [CAIRO] = true, [QT] = true},
        [REPEATED] = {[LIBRARY] = true, [ONCE] = true, [CAIRO] = true, [QT] = true},
        [ONE_COLOR] = {[LIBRARY] = true, [MEMSET] = true},
    };
    return painters[painter] != NULL && asked[p->kind][painter];
}

/* The library takes locations down to 1/64 px, the others do not. Where a period is not many times that, they
 * draw other colors. */
static bool must_agree(const struct picture *p) {
    return p->period == NULL || p->period->units >= periods[FORTY_PX].units;
}

static struct difference compare(const struct picture *p, bool blue_first) {
    static const int straight[4] = {0, 1, 2, 3}, swapped[4] = {2, 1, 0, 3};
    const int *order = blue_first ? swapped : straight;
    struct difference off = {0, 0};
    size_t area = p->width * p->height;
    for (int channel = 0; channel < 4; channel++) {
        long long sum = 0;
        for (size_t k = 0; k < area; k++) {
            int d = abs(pixels[4 * k + (size_t)order[channel]] - reference[4 * k + (size_t)channel]);
            sum += d;
            if (d > off.greatest)
                off.greatest = d;
        }
        double mean = (double)sum / (double)area;
        if (mean > off.mean)
            off.mean = mean;
    }
    return off;
}

/* Each painter draws once, and the others' pictures are held against the library's. */
static void check(struct line *line) {
    const struct picture *p = line->picture;
    size_t size = AVAREZHU_PIXELS_SIZE(p->width, p->height);
    painters[LIBRARY]->draw();
    memcpy(reference, pixels, size);
    for (int k = CAIRO; k < PAINTERS; k++) {
        if (!takes_turns(k, p))
            continue;
        memset(pixels, 0, size);
        painters[k]->draw();
        line->off[k] = compare(p, painters[k]->blue_first);
        if (line->off[k].mean <= MEAN_MAX || !must_agree(p))
            continue;
        fprintf(stderr, "%s draws another picture: mean difference %.2f in %zux%zu, %.*s\n",
                painters[k]->name, line->off[k].mean, p->width, p->height, (int)p->text_length, p->text);
        exit(1);
    }
}

static struct line time_picture(const struct picture *p, int rounds) {
    struct line line = {.picture = p};
    long batch[PAINTERS];
    for (int k = 0; k < PAINTERS; k++)
        if (takes_turns(k, p))
            painters[k]->begin(p, pixels);
    check(&line);
    for (int k = 0; k < PAINTERS; k++)
        if (takes_turns(k, p))
            batch[k] = batch_for(painters[k]->draw);
    for (int round = 0; round < rounds; round++)
        for (int turn = 0; turn < PAINTERS; turn++) {
            int k = round % 2 == 0 ? turn : PAINTERS - 1 - turn;
            if (takes_turns(k, p))
                line.per_pixel[k] = least_of_round(line.per_pixel[k], painters[k]->draw, batch[k]);
        }
    for (int k = 0; k < PAINTERS; k++) {
        if (takes_turns(k, p))
            painters[k]->end();
        line.per_pixel[k] /= (double)(p->width * p->height);
    }
    return line;
}

static struct times time_box(struct report *report, struct box box, bool opaque, int rounds) {
    static struct times times;
    for (int direction = 0; direction < DIRECTIONS; direction++)
        for (int stops = 2; stops <= STOPS_MAX; stops += STOPS_MAX - 2) {
            struct picture p = make_picture(box.width, box.height, direction, stops, opaque);
            struct line line = time_picture(&p, rounds);
            report_line(report, &line);
            memcpy(times.of[direction][stops], line.per_pixel, sizeof line.per_pixel);
        }
    return times;
}

/* The stops must be placed one period apart. */
static void check_period(const struct picture *p) {
    avarezhu_stops placed;
    uint32_t reply =
        avarezhu_place(p->text, p->text_length, p->width, p->height, (uint8_t *)&placed, sizeof placed);
    if (reply != AVAREZHU_DONE ||
        placed.stops[placed.count - 1].position - placed.stops[0].position != p->period->units)
        fail("the stops of a repeated picture are not one period apart");
}

static void time_repeated(struct report *report, struct box box, int direction, int stops, int period,
                          int rounds) {
    struct picture p = make_repeated(box.width, box.height, direction, stops, period);
    check_period(&p);
    struct line line = time_picture(&p, rounds);
    report_repeated(report, &line);
}

/* Toward a corner also with all stops: there the library has no table, and goes from stop to stop. */
static void time_all_repeated(struct report *report, int rounds) {
    report_repeated_heading(report);
    for (int box = MIDDLE; box <= WHOLE; box += WHOLE - MIDDLE)
        for (int direction = TO_RIGHT; direction <= CIRCLE; direction++) {
            for (int period = 0; period < PERIODS; period++)
                time_repeated(report, boxes[box], direction, 2, period, rounds);
            if (direction == TO_CORNER)
                time_repeated(report, boxes[box], direction, STOPS_MAX, FORTY_PX, rounds);
        }
}

/* Red, white and blue, averaged over equal distances: half of each end, and all of the middle. */
static void check_average(const struct picture *p) {
    static const uint8_t average[4] = {191, 128, 191, 255};
    for (size_t k = 0; k < p->width * p->height; k++)
        if (memcmp(reference + 4 * k, average, sizeof average) != 0)
            fail("a picture of one color is not of the average color");
}

static void time_one_colors(struct report *report, int rounds) {
    report_one_color_heading(report);
    for (int box = MIDDLE; box <= WHOLE; box += WHOLE - MIDDLE)
        for (int direction = BY_ANGLE; direction <= CIRCLE; direction += CIRCLE - BY_ANGLE) {
            struct picture p = make_one_color(boxes[box].width, boxes[box].height, direction);
            struct line line = time_picture(&p, rounds);
            check_average(&p);
            report_one_color(report, &line);
        }
}

static void time_all_strips(struct report *report, struct measured *measured, int rounds) {
    struct picture repeated = make_repeated(boxes[WHOLE].width, boxes[WHOLE].height, BY_ANGLE, 2, FORTY_PX);
    double of_repeated[WAYS];
    report_strips_heading(report);
    for (int direction = 0; direction < DIRECTIONS; direction++)
        for (int stops = 2; stops <= STOPS_MAX; stops += STOPS_MAX - 2) {
            struct picture p = make_picture(boxes[WHOLE].width, boxes[WHOLE].height, direction, stops, true);
            double *per_pixel = measured->ways[direction][stops];
            time_strips(&p, pixels, reference, rounds, per_pixel);
            report_strips(report, &p, per_pixel);
        }
    time_strips(&repeated, pixels, reference, rounds, of_repeated);
    report_strips(report, &repeated, of_repeated);
}

static void time_all_threads(struct report *report, int rounds) {
    static const int drawn[] = {BY_ANGLE, CIRCLE};
    bool left_out = !spread_out();
    report_threads_heading(report, left_out);
    if (left_out)
        return;
    for (size_t k = 0; k < sizeof drawn / sizeof *drawn; k++) {
        struct picture p = make_picture(boxes[WHOLE].width, boxes[WHOLE].height, drawn[k], 2, true);
        double per_pixel[THREADS];
        time_threads(&p, pixels, reference, rounds, per_pixel);
        report_threads(report, &p, per_pixel);
    }
}

static const struct reading *being_read;
static size_t being_read_length;

static void read_once(void) {
    uint8_t gradient[AVAREZHU_GRADIENT_SIZE];
    if (avarezhu_read(being_read->text, being_read_length, gradient, sizeof gradient) != being_read->reply)
        fail("a reading has another reply than was expected");
}

static void time_readings(double *ns, int rounds) {
    for (int round = 0; round < rounds; round++)
        for (int k = 0; k < READINGS; k++) {
            being_read = &readings[k];
            being_read_length = strlen(readings[k].text);
            ns[k] = least_of_round(ns[k], read_once, batch_for(read_once));
        }
}

static struct counts load_counts(const char *path) {
    static struct counts counts;
    char line[128];
    FILE *file = fopen(path, "r");
    if (file == NULL)
        fail("no file of counts");
    while (fgets(line, sizeof line, file) != NULL) {
        int direction, stops, which;
        long long n;
        if (sscanf(line, "draw %d %d %lld", &direction, &stops, &n) == 3 && direction >= 0 &&
            direction < DIRECTIONS && stops >= 0 && stops <= STOPS_MAX)
            counts.draw[direction][stops] = n;
        else if (sscanf(line, "read %d %lld", &which, &n) == 2 && which >= 0 && which < READINGS)
            counts.read[which] = n;
        else
            fail("a line of counts is odd");
    }
    fclose(file);
    return counts;
}

static void time_all(struct report *report, bool quick, const char *counts_path) {
    static struct measured measured;
    int rounds = quick ? QUICK_ROUNDS : FULL_ROUNDS, half = (rounds + 1) / 2;
    struct counts counts = load_counts(counts_path);
    double ns[READINGS] = {0};
    report_machine(report, rounds);
    report_heading(report);
    for (int k = 0; k < BOXES; k++)
        measured.boxes[k] = time_box(report, boxes[k], true, rounds);
    if (!quick)
        time_box(report, boxes[MIDDLE], false, rounds);
    report_means(report, MEAN_MAX);
    time_all_repeated(report, half);
    time_one_colors(report, half);
    report_counts(report, &counts);
    time_readings(ns, rounds);
    report_readings(report, ns, &counts);
    time_all_strips(report, &measured, rounds);
    time_all_threads(report, rounds);
    report_goals(report, &measured);
}

int main(int argc, char **argv) {
    if (argc != 4)
        fail("usage: timing full|quick COUNTS JSON");
    struct report report = {.json = fopen(argv[3], "w")};
    if (report.json == NULL)
        fail("the JSON file cannot be written");
    stay_on_one_processor();
    pixels = pixel_memory();
    reference = pixel_memory();
    time_all(&report, strcmp(argv[1], "quick") == 0, argv[2]);
    free(pixels);
    free(reference);
    return fclose(report.json) != 0;
}
