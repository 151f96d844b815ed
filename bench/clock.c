/* Timing. The clock is the processor time of the whole process, so threads of a painter count too; or
 * wall time, where threads are to save some. */
#define _POSIX_C_SOURCE 200809L
#include "bench.h"

#include <stdlib.h>
#include <time.h>

#define ROUND_NS 20e6 /* a round takes at least this long */
#define BATCH_NS 1e6  /* and looks at the clock about this often */

static double now(clockid_t clock) {
    struct timespec t;
    if (clock_gettime(clock, &t) != 0)
        abort();
    return (double)t.tv_sec * 1e9 + (double)t.tv_nsec;
}

static double run(clockid_t clock, void (*work)(void), long batch) {
    double start = now(clock);
    for (long k = 0; k < batch; k++)
        work();
    return now(clock) - start;
}

/* Warms up, too. */
long batch_for(void (*work)(void)) {
    long batch = 1;
    run(CLOCK_PROCESS_CPUTIME_ID, work, 1);
    while (run(CLOCK_PROCESS_CPUTIME_ID, work, batch) < BATCH_NS)
        batch *= 2;
    return batch;
}

/* One round: the ns that each call took, or `least` if that is less. */
static double least_by(clockid_t clock, double least, void (*work)(void), long batch) {
    double spent = 0;
    long calls = 0;
    while (spent < ROUND_NS) {
        spent += run(clock, work, batch);
        calls += batch;
    }
    double each = spent / (double)calls;
    return least > 0 && least < each ? least : each;
}

double least_of_round(double least, void (*work)(void), long batch) {
    return least_by(CLOCK_PROCESS_CPUTIME_ID, least, work, batch);
}

double least_of_wall_round(double least, void (*work)(void), long batch) {
    return least_by(CLOCK_MONOTONIC, least, work, batch);
}
