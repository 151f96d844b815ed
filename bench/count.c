/*
 * Run under callgrind: makes each call once and has its instructions written out under the call's name,
 * `draw DIRECTION STOPS` or `read TEXT`, by number.
 */
#include "bench.h"

#include "avarezhu.h"

#include <stdlib.h>
#include <string.h>
#include <valgrind/callgrind.h>

static uint8_t pixels[4 * COUNT_WIDTH * COUNT_HEIGHT];

static void expect(const char *name, uint32_t reply, uint32_t wanted) {
    if (reply == wanted)
        return;
    fprintf(stderr, "%s: reply %u\n", name, (unsigned)reply);
    exit(1);
}

static void count_draw(int direction, int stops) {
    struct picture p = make_picture(COUNT_WIDTH, COUNT_HEIGHT, direction, stops, true);
    char name[32];
    snprintf(name, sizeof name, "draw %d %d", direction, stops);
    CALLGRIND_TOGGLE_COLLECT;
    uint32_t reply = avarezhu_draw(p.text, p.text_length, p.width, p.height, pixels, sizeof pixels);
    CALLGRIND_TOGGLE_COLLECT;
    CALLGRIND_DUMP_STATS_AT(name);
    expect(name, reply, AVAREZHU_DONE);
}

static void count_read(int which) {
    const char *text = readings[which].text;
    size_t length = strlen(text);
    uint8_t gradient[AVAREZHU_GRADIENT_SIZE];
    char name[32];
    snprintf(name, sizeof name, "read %d", which);
    CALLGRIND_TOGGLE_COLLECT;
    uint32_t reply = avarezhu_read(text, length, gradient, sizeof gradient);
    CALLGRIND_TOGGLE_COLLECT;
    CALLGRIND_DUMP_STATS_AT(name);
    expect(name, reply, readings[which].reply);
}

int main(void) {
    for (int direction = 0; direction < DIRECTIONS; direction++) {
        count_draw(direction, 2);
        count_draw(direction, STOPS_MAX);
    }
    for (int which = 0; which < READINGS; which++)
        count_read(which);
    return 0;
}
