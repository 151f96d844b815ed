/* The table, and the same as JSON. */
#include "bench.h"

#include <stdarg.h>
#include <string.h>

__attribute__((format(printf, 2, 3))) static void json(const struct report *report, const char *format, ...) {
    if (report->json == NULL)
        return;
    va_list list;
    va_start(list, format);
    vfprintf(report->json, format, list);
    va_end(list);
}

static void json_item(struct report *report) {
    json(report, report->later ? ",\n    " : "\n    ");
    report->later = true;
}

static void json_list(struct report *report, const char *name) {
    json(report, ",\n  \"%s\": [", name);
    report->later = false;
}

/* A figure, or null where there is none. */
static void json_figure(const struct report *report, const char *name, double figure) {
    if (figure > 0)
        json(report, "\"%s\": %.4f", name, figure);
    else
        json(report, "\"%s\": null", name);
}

/* With the period, where there is one. */
static void json_period(const struct report *report, const struct picture *p) {
    if (p->period != NULL)
        json(report, ", \"period\": \"%s\"", p->period->text);
}

/* A figure in its column, or a dash. */
static void column(int width, double figure) {
    if (figure > 0)
        printf("%*.2f", width, figure);
    else
        printf("%*s", width, "-");
}

static double ratio(const struct line *line, int painter) {
    double other = line->per_pixel[painter];
    return other > 0 ? line->per_pixel[LIBRARY] / other : 0;
}

static const char *version(int painter) {
    return painters[painter] == NULL ? "left out" : painters[painter]->version();
}

/* The processor's name with all that could hurt in JSON left out. */
static void processor(char *name, size_t room) {
    char line[256];
    FILE *file = fopen("/proc/cpuinfo", "r");
    snprintf(name, room, "unknown");
    while (file != NULL && fgets(line, sizeof line, file) != NULL) {
        char *colon = strchr(line, ':');
        if (strncmp(line, "model name", 10) != 0 || colon == NULL)
            continue;
        size_t length = 0;
        for (char *c = colon + 1 + strspn(colon + 1, " "); *c >= ' ' && length + 1 < room; c++)
            if (*c != '"' && *c != '\\')
                name[length++] = *c;
        name[length] = '\0';
        break;
    }
    if (file != NULL)
        fclose(file);
}

void report_machine(struct report *report, int rounds) {
    char name[128];
    processor(name, sizeof name);
    const char *compiler = __VERSION__, *family = "gcc";
#ifdef __clang__
    family = "clang";
#endif
    printf("%s; %s %s -O2; cairo %s; Qt %s\n", name, family, compiler, version(CAIRO), version(QT));
    printf("processor time of the process (CLOCK_PROCESS_CPUTIME_ID), least of %d rounds of 20 ms or more\n",
           rounds);
    json(report, "{\n  \"machine\": {\"processor\": \"%s\", \"compiler\": \"%s %s\", \"flags\": \"-O2\", ",
         name, family, compiler);
    json(report, "\"cairo\": \"%s\", \"qt\": \"%s\", ", version(CAIRO), version(QT));
    json(report, "\"clock\": \"CLOCK_PROCESS_CPUTIME_ID\", \"rounds\": %d}", rounds);
}

void report_heading(struct report *report) {
    printf("\n%-36s%34s%25s%21s\n", "DRAWING", "ns per pixel", "ratio library to", "greatest difference");
    printf("%-11s%-14s%5s%6s", "box", "direction", "stops", "");
    printf("%10s%8s%8s%8s", "library", "memset", "cairo", "Qt");
    printf("%9s%8s%8s%14s%7s\n", "memset", "cairo", "Qt", "cairo", "Qt");
    json_list(report, "draw");
}

/* Up to the end of the item, which is left open. */
static void json_line(struct report *report, const struct line *line) {
    static const char *const names[PAINTERS] = {"library", "once", "memset", "cairo", "qt"};
    const struct picture *p = line->picture;
    json_item(report);
    json(report, "{\"width\": %zu, \"height\": %zu, \"direction\": \"%s\", \"stops\": %d, \"opaque\": %s",
         p->width, p->height, p->direction, p->count, p->opaque ? "true" : "false");
    json_period(report, p);
    json(report, ", \"ns_per_pixel\": {");
    for (int k = 0; k < PAINTERS; k++) {
        json(report, k > 0 ? ", " : "");
        json_figure(report, names[k], line->per_pixel[k]);
    }
    json(report, "}, \"library_over\": {");
    for (int k = ONCE; k < PAINTERS; k++) {
        json(report, k > ONCE ? ", " : "");
        json_figure(report, names[k], ratio(line, k));
    }
    json(report, "}, \"difference\": {");
    for (int k = CAIRO; k < PAINTERS; k++) {
        json(report, "%s\"%s\": ", k > CAIRO ? ", " : "", names[k]);
        if (line->per_pixel[k] > 0)
            json(report, "{\"greatest\": %d, \"mean\": %.4f}", line->off[k].greatest, line->off[k].mean);
        else
            json(report, "null");
    }
    json(report, "}");
}

void report_line(struct report *report, const struct line *line) {
    const struct picture *p = line->picture;
    char box[32];
    snprintf(box, sizeof box, "%zux%zu", p->width, p->height);
    printf("%-11s%-14s%5d%6s", box, p->direction, p->count, p->opaque ? "" : "alpha");
    column(10, line->per_pixel[LIBRARY]);
    for (int k = MEMSET; k < PAINTERS; k++)
        column(8, line->per_pixel[k]);
    column(9, ratio(line, MEMSET));
    column(8, ratio(line, CAIRO));
    column(8, ratio(line, QT));
    for (int k = CAIRO; k < PAINTERS; k++) {
        int width = k == CAIRO ? 14 : 7;
        if (painters[k] != NULL)
            printf("%*d", width, line->off[k].greatest);
        else
            printf("%*s", width, "-");
        if (line->off[k].mean > report->worst_mean[k])
            report->worst_mean[k] = line->off[k].mean;
    }
    printf("\n");
    fflush(stdout);
    json_line(report, line);
    json(report, "}");
}

void report_means(struct report *report, double allowed) {
    json(report, "\n  ]");
    for (int k = CAIRO; k < PAINTERS; k++)
        if (painters[k] != NULL)
            printf("mean difference from %s, worst picture and channel: %.2f levels (%.2f allowed)\n",
                   painters[k]->name, report->worst_mean[k], allowed);
}

static void column_goal(struct goal goal) {
    column(8, goal.ratio);
    if (goal.most > 0 && goal.ratio > 0)
        printf("%s of %.2f", missed(goal) ? "!" : " ", goal.most);
    else
        printf("%9s", "");
}

static void json_goal(struct report *report, const char *name, struct goal goal) {
    json(report, ", \"%s\": {", name);
    json_figure(report, "ratio", goal.ratio);
    json(report, ", ");
    json_figure(report, "most", goal.most);
    json(report, ", \"missed\": %s}", missed(goal) ? "true" : "false");
}

/* A goal with its column, counted where it is missed. */
static void report_goal(struct report *report, const char *name, struct goal goal) {
    column_goal(goal);
    json_goal(report, name, goal);
    report->misses += missed(goal);
}

void report_repeated_heading(struct report *report) {
    json_list(report, "repeated");
    printf("\nREPEATED, beside the same picture not repeated (once); ratios, each of the most that it should "
           "be; ! where it is more\n");
    printf("%-39s%32s%41s%26s\n", "", "ns per pixel", "ratio library to", "mean difference");
    printf("%-11s%-14s%5s%9s%8s%8s%8s%8s", "box", "direction", "stops", "period", "library", "once", "cairo",
           "Qt");
    printf("%8s%17s%17s%17s%8s\n", "once", "cairo", "Qt", "cairo", "Qt");
}

void report_repeated(struct report *report, const struct line *line) {
    const struct picture *p = line->picture;
    char box[32];
    snprintf(box, sizeof box, "%zux%zu", p->width, p->height);
    printf("%-11s%-14s%5d%9s", box, p->direction, p->count, p->period->text);
    column(8, line->per_pixel[LIBRARY]);
    column(8, line->per_pixel[ONCE]);
    column(8, line->per_pixel[CAIRO]);
    column(8, line->per_pixel[QT]);
    json_line(report, line);
    report_goal(report, "to once", line_goal(line, ONCE));
    report_goal(report, "to cairo", line_goal(line, CAIRO));
    report_goal(report, "to qt", line_goal(line, QT));
    for (int k = CAIRO; k < PAINTERS; k++)
        if (line->per_pixel[k] > 0)
            printf("%8.2f", line->off[k].mean);
        else
            printf("%8s", "-");
    printf("\n");
    fflush(stdout);
    json(report, "}");
}

void report_one_color_heading(struct report *report) {
    json(report, "\n  ]");
    json_list(report, "one_color");
    printf("\nONE COLOR: repeated stops at one place\n");
    printf("%-30s%16s%19s\n", "", "ns per pixel", "ratio library to");
    printf("%-11s%-14s%5s%8s%8s%8s\n", "box", "direction", "stops", "library", "memset", "memset");
}

void report_one_color(struct report *report, const struct line *line) {
    const struct picture *p = line->picture;
    char box[32];
    snprintf(box, sizeof box, "%zux%zu", p->width, p->height);
    printf("%-11s%-14s%5d", box, p->direction, p->count);
    column(8, line->per_pixel[LIBRARY]);
    column(8, line->per_pixel[MEMSET]);
    json_line(report, line);
    report_goal(report, "to memset", line_goal(line, MEMSET));
    printf("\n");
    fflush(stdout);
    json(report, "}");
}

void report_counts(struct report *report, const struct counts *counts) {
    const double area = COUNT_WIDTH * COUNT_HEIGHT;
    json(report, "\n  ]");
    json_list(report, "instructions_per_pixel");
    printf("\nINSTRUCTIONS per pixel of the library at %dx%d, as callgrind counts\n", COUNT_WIDTH,
           COUNT_HEIGHT);
    printf("%-20s%12s%12s\n", "direction", "2 stops", "16 stops");
    for (int direction = 0; direction < DIRECTIONS; direction++) {
        double two = (double)counts->draw[direction][2] / area;
        double most = (double)counts->draw[direction][STOPS_MAX] / area;
        printf("%-20s", directions[direction]);
        column(12, two);
        column(12, most);
        printf("\n");
        json_item(report);
        json(report, "{\"direction\": \"%s\", ", directions[direction]);
        json_figure(report, "2 stops", two);
        json(report, ", ");
        json_figure(report, "16 stops", most);
        json(report, "}");
    }
}

void report_readings(struct report *report, const double *ns, const struct counts *counts) {
    json(report, "\n  ]");
    json_list(report, "read");
    printf("\nREADING a text (avarezhu_read)\n");
    printf("%-20s%8s%12s%8s%14s\n", "text", "bytes", "ns", "reply", "instructions");
    for (int k = 0; k < READINGS; k++) {
        unsigned reply = (unsigned)readings[k].reply;
        size_t length = strlen(readings[k].text);
        printf("%-20s%8zu%12.2f%8u", readings[k].name, length, ns[k], reply);
        if (counts->read[k] > 0)
            printf("%14lld\n", counts->read[k]);
        else
            printf("%14s\n", "-");
        json_item(report);
        json(report, "{\"text\": \"%s\", \"bytes\": %zu, \"ns\": %.2f, \"reply\": %u, ", readings[k].name,
             length, ns[k], reply);
        json_figure(report, "instructions", (double)counts->read[k]);
        json(report, "}");
    }
    json(report, "\n  ]");
}

static const char *const ways[WAYS] = {"whole", "64 rows", "16 rows", "1 row"};

static void json_picture(struct report *report, const struct picture *p) {
    json_item(report);
    json(report, "{\"width\": %zu, \"height\": %zu, \"direction\": \"%s\", \"stops\": %d", p->width,
         p->height, p->direction, p->count);
    json_period(report, p);
}

void report_strips_heading(struct report *report) {
    json_list(report, "strips");
    printf("\nSTRIPS of %zux%zu (avarezhu_draw_rows), beside the picture drawn whole (avarezhu_draw)\n",
           boxes[WHOLE].width, boxes[WHOLE].height);
    printf("%-27s%40s%32s\n", "", "ns per pixel", "ratio strips to whole");
    printf("%-14s%5s%8s", "direction", "stops", "period");
    for (int way = 0; way < WAYS; way++)
        printf("%10s", ways[way]);
    for (int way = ROWS_64; way < WAYS; way++)
        printf("%*s", way == ROWS_64 ? 12 : 10, ways[way]);
    printf("\n");
}

void report_strips(struct report *report, const struct picture *picture, const double per_pixel[WAYS]) {
    printf("%-14s%5d%8s", picture->direction, picture->count, picture->period ? picture->period->text : "");
    json_picture(report, picture);
    json(report, ", \"ns_per_pixel\": {");
    for (int way = 0; way < WAYS; way++) {
        column(10, per_pixel[way]);
        json(report, way > 0 ? ", " : "");
        json_figure(report, ways[way], per_pixel[way]);
    }
    json(report, "}, \"over_whole\": {");
    for (int way = ROWS_64; way < WAYS; way++) {
        double ratio = per_pixel[way] / per_pixel[ALL_ROWS];
        column(way == ROWS_64 ? 12 : 10, ratio);
        json(report, way > ROWS_64 ? ", " : "");
        json_figure(report, ways[way], ratio);
    }
    printf("\n");
    fflush(stdout);
    json(report, "}}");
}

void report_threads_heading(struct report *report, bool left_out) {
    json(report, "\n  ]");
    json_list(report, "threads");
    printf("\nTHREADS: %zux%zu in strips of 64 rows, wall time (CLOCK_MONOTONIC)\n", boxes[WHOLE].width,
           boxes[WHOLE].height);
    if (left_out) {
        printf("left out: there is only one processor\n");
        return;
    }
    printf("%-19s%24s%18s\n", "", "ns per pixel", "ratio one to two");
    printf("%-14s%5s%12s%12s\n", "direction", "stops", "1 thread", "2 threads");
}

void report_threads(struct report *report, const struct picture *picture, const double per_pixel[THREADS]) {
    double gain = per_pixel[0] / per_pixel[1];
    printf("%-14s%5d", picture->direction, picture->count);
    column(12, per_pixel[0]);
    column(12, per_pixel[1]);
    column(18, gain);
    printf("\n");
    fflush(stdout);
    json_picture(report, picture);
    json(report, ", \"rows\": 64, \"clock\": \"CLOCK_MONOTONIC\", \"ns_per_pixel\": {");
    json_figure(report, "1 thread", per_pixel[0]);
    json(report, ", ");
    json_figure(report, "2 threads", per_pixel[1]);
    json(report, "}, ");
    json_figure(report, "one_over_two", gain);
    json(report, "}");
}

/* One line of the goals. */
static void report_goals_of(struct report *report, const struct measured *measured, int direction,
                            int stops) {
    static const char *const names[GOALS] = {
        "to qt",
        "to cairo",
        "to memset",
        "64x64 to qt",
        "640x480 to 2048x2048",
        "2048x64 to 2048x2048",
        "64 rows to whole",
    };
    printf("%-14s%5d", directions[direction], stops);
    json_item(report);
    json(report, "{\"direction\": \"%s\", \"stops\": %d", directions[direction], stops);
    for (int which = 0; which < GOALS; which++)
        report_goal(report, names[which], make_goal(measured, direction, stops, which));
    printf("\n");
    json(report, "}");
}

void report_goals(struct report *report, const struct measured *measured) {
    json(report, "\n  ]");
    json_list(report, "goals");
    printf(
        "\nGOALS: ratios of the library's times, each of the most that it should be; ! where it is more\n");
    printf("%-19s%-51s%-17s%-34s%s\n", "", "    at 2048x2048, to the others", "    at 64x64",
           "  ns per pixel, to 2048x2048", "strips, to whole");
    printf("%-14s%5s%8s%17s%17s", "direction", "stops", "Qt", "cairo", "memset");
    printf("%17s%17s%17s%17s\n", "Qt", "640x480", "2048x64", "64 rows");
    for (int direction = 0; direction < DIRECTIONS; direction++) {
        report_goals_of(report, measured, direction, 2);
        report_goals_of(report, measured, direction, STOPS_MAX);
    }
    printf("missed, with those of repeated pictures and of one color: %d\n", report->misses);
    json(report, "\n  ]\n}\n");
}
