/* How fast it should be. */
#include "bench.h"

/* A ratio is the library's time in a box over a painter's, in the same box or another. That of the strips is
 * not here: it goes by the whole picture that took turns with them. */
static const struct {
    int box, painter, painter_box;
} ratios[STRIPS_TO_WHOLE] = {
    [TO_QT] = {WHOLE, QT, WHOLE},
    [TO_CAIRO] = {WHOLE, CAIRO, WHOLE},
    [TO_MEMSET] = {WHOLE, MEMSET, WHOLE},
    [SMALL_TO_QT] = {SMALL, QT, SMALL},
    [MIDDLE_TO_WHOLE] = {MIDDLE, LIBRARY, WHOLE},
    [FLAT_TO_WHOLE] = {FLAT, LIBRARY, WHOLE},
};

/* 0 for no goal. In the largest box the sides go by memset, all else goes by Qt. */
static double most(int direction, int which) {
    bool side = direction == TO_RIGHT || direction == TO_BOTTOM;
    switch (which) {
    case TO_QT:
        return side ? 0 : 1;
    case TO_CAIRO:
    case SMALL_TO_QT:
        return 1;
    case TO_MEMSET:
        return side ? 1.5 : 0;
    case STRIPS_TO_WHOLE:
        return direction == CIRCLE || direction == CIRCLE_ASIDE ? 1.5 : 1.25;
    default:
        return 1.5;
    }
}

static double ratio(const struct measured *measured, int direction, int stops, int which) {
    const struct times *times = measured->boxes;
    const double *ways = measured->ways[direction][stops];
    if (which == STRIPS_TO_WHOLE)
        return ways[ROWS_64] / ways[ALL_ROWS];
    double library = times[ratios[which].box].of[direction][stops][LIBRARY];
    double other = times[ratios[which].painter_box].of[direction][stops][ratios[which].painter];
    return other > 0 ? library / other : 0;
}

struct goal make_goal(const struct measured *measured, int direction, int stops, int which) {
    return (struct goal){ratio(measured, direction, stops, which), most(direction, which)};
}

/* Repeated, a picture goes by the same with its stops once, and by cairo and Qt; of one color, by memset. */
struct goal line_goal(const struct line *line, int painter) {
    static const double most_of[PAINTERS] = {[ONCE] = 1.1, [MEMSET] = 1.5, [CAIRO] = 1, [QT] = 1};
    double other = line->per_pixel[painter];
    return (struct goal){other > 0 ? line->per_pixel[LIBRARY] / other : 0, most_of[painter]};
}

bool missed(struct goal goal) {
    return goal.most > 0 && goal.ratio > goal.most;
}
