/* What the parts of the bench share. */
#ifndef BENCH_H
#define BENCH_H

#include <stdbool.h>
#include <stddef.h>
#include <stdint.h>
#include <stdio.h>

#ifdef __cplusplus
extern "C" {
#endif

enum { STOPS_MAX = 16, TEXT_ROOM = 512, READINGS = 4 };
enum { TO_RIGHT, TO_BOTTOM, BY_ANGLE, TO_CORNER, CIRCLE, CIRCLE_ASIDE, DIRECTIONS };
enum { SMALL, MIDDLE, FLAT, WHOLE, BOXES };
enum { PLAIN, REPEATED, ONE_COLOR, KINDS };
enum { FORTY_PX, ONE_PX, ONE_UNIT, PERIODS };
enum { COUNT_WIDTH = 640, COUNT_HEIGHT = 480 }; /* the box in which instructions are counted */

/* The text of a repeated picture begins with this. The rest of it is the same picture with its stops once. */
#define REPEATING "repeating-"

struct color {
    uint8_t red, green, blue, alpha;
};

/* How far it is from the first stop to the last: as the text has it, and in 1/64 px. */
struct period {
    const char *text;
    int units;
};

/* One gradient in one box: as text for the library, in numbers for the others. */
struct picture {
    int kind;
    size_t width, height;
    const char *direction;
    const struct period *period; /* of a repeated picture, else NULL */
    bool opaque;
    char text[TEXT_ROOM];
    size_t text_length;
    bool circle;
    double x0, y0, x1, y1; /* the ends of the line; a circle has its center in x0, y0 */
    double radius;         /* repeated, the line or the radius is one period long */
    int count; /* of stops, which stand evenly from 0 to 1 */
    struct color stops[STOPS_MAX];
};

/* cases.c */
struct box {
    size_t width, height;
};
extern const struct box boxes[BOXES];
extern const char *const directions[DIRECTIONS];
extern const struct period periods[PERIODS];
struct picture make_picture(size_t width, size_t height, int direction, int count, bool opaque);
struct picture make_repeated(size_t width, size_t height, int direction, int count, int period);
struct picture make_one_color(size_t width, size_t height, int direction);

struct reading {
    const char *name, *text;
    uint32_t reply;
};
extern const struct reading readings[READINGS];

/* Something that fills a picture. `begin` comes before the draws that are timed and `end` after. */
struct painter {
    const char *name;
    bool blue_first; /* bytes go blue, green, red, alpha; else red, green, blue, alpha */
    void (*begin)(const struct picture *picture, uint8_t *pixels);
    void (*draw)(void);
    void (*end)(void);
    const char *(*version)(void); /* NULL for none to tell */
};
extern const struct painter library_painter, once_painter, memset_painter, cairo_painter, qt_painter;

/* The painters in the order of the tables. One that was not built is NULL. */
enum { LIBRARY, ONCE, MEMSET, CAIRO, QT, PAINTERS };
extern const struct painter *const painters[PAINTERS];

/* clock.c */
double least_of_round(double least, void (*work)(void), long batch);
double least_of_wall_round(double least, void (*work)(void), long batch);
long batch_for(void (*work)(void));

/* timing.c */
void fail(const char *why);

/* strips.c: ns per pixel of a picture that is drawn whole and in strips of some rows, and in strips by one
 * thread and by two. `whole` is memory for another picture. */
enum { ALL_ROWS, ROWS_64, ROWS_16, ROWS_1, WAYS };
enum { THREADS = 2 };
void time_strips(const struct picture *picture, uint8_t *pixels, uint8_t *whole, int rounds,
                 double per_pixel[WAYS]);
void time_threads(const struct picture *picture, uint8_t *pixels, uint8_t *whole, int rounds,
                  double per_pixel[THREADS]);

/* How far a painter's picture is from the library's. */
struct difference {
    int greatest; /* over all bytes */
    double mean;  /* of the channel where it is greatest */
};

/* One line of a table. */
struct line {
    const struct picture *picture;
    double per_pixel[PAINTERS]; /* ns; 0 without the painter */
    struct difference off[PAINTERS];
};

/* ns per pixel in one box, by direction, number of stops and painter; 0 without the painter. */
struct times {
    double of[DIRECTIONS][STOPS_MAX + 1][PAINTERS];
};

/* All that goals are made from. */
struct measured {
    struct times boxes[BOXES];
    double ways[DIRECTIONS][STOPS_MAX + 1][WAYS]; /* ns per pixel in the largest box */
};

/* Instructions of one call, as counted before; 0 if they were not. */
struct counts {
    long long draw[DIRECTIONS][STOPS_MAX + 1]; /* by direction and number of stops */
    long long read[READINGS];
};

/* goals.c: ratios of the library's times to the others' in the largest and the smallest box, to its own in
 * the largest, and of strips of 64 rows to the whole. */
enum { TO_QT, TO_CAIRO, TO_MEMSET, SMALL_TO_QT, MIDDLE_TO_WHOLE, FLAT_TO_WHOLE, STRIPS_TO_WHOLE, GOALS };
struct goal {
    double ratio; /* 0 without the painter */
    double most;  /* that it should be; 0 for no goal */
};
struct goal make_goal(const struct measured *measured, int direction, int stops, int which);
struct goal line_goal(const struct line *line, int painter); /* of a repeated picture or one of one color */
bool missed(struct goal goal);

/* report.c: the table to stdout, the same as JSON to a file if there is one. */
struct report {
    FILE *json;
    bool later;                  /* past the first item of a JSON list */
    double worst_mean[PAINTERS]; /* over all lines */
    int misses;                  /* of goals, so far */
};
void report_machine(struct report *report, int rounds);
void report_heading(struct report *report);
void report_line(struct report *report, const struct line *line);
void report_means(struct report *report, double allowed);
void report_repeated_heading(struct report *report);
void report_repeated(struct report *report, const struct line *line);
void report_one_color_heading(struct report *report);
void report_one_color(struct report *report, const struct line *line);
void report_counts(struct report *report, const struct counts *counts);
void report_readings(struct report *report, const double *ns, const struct counts *counts);
void report_strips_heading(struct report *report);
void report_strips(struct report *report, const struct picture *picture, const double per_pixel[WAYS]);
void report_threads_heading(struct report *report, bool left_out);
void report_threads(struct report *report, const struct picture *picture, const double per_pixel[THREADS]);
void report_goals(struct report *report, const struct measured *measured);

#ifdef __cplusplus
}
#endif

#endif
