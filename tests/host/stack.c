/*
 * Measures how much stack each export uses: it runs on a thread whose stack was painted, and the
 * lowest byte that lost its paint tells how deep the call went. Fails if that is more than
 * AVAREZHU_STACK. Then makes every call again, on no paint, with AVAREZHU_STACK and a small margin
 * to run in, and at last the largest pictures on a thread as a host makes it, with
 * AVAREZHU_THREAD_STACK. Every reply must be the right one.
 */
#define _DEFAULT_SOURCE
#include "avarezhu.h"

#include <pthread.h>
#include <signal.h>
#include <stdbool.h>
#include <stdio.h>
#include <stdlib.h>
#include <string.h>
#include <sys/mman.h>
#include <unistd.h>

#define COUNT(array) (sizeof(array) / sizeof *(array))

enum {
    FULL = 1 << 20, /* bytes of stack to measure in */
    MARGIN = 8192,  /* bytes beside AVAREZHU_STACK: the thread's own record and first frames */
    NEAR = 512,     /* bytes below the caller's frame that stay unpainted: the painting runs there */
    LARGE = 1 << 20 /* pixels of a picture that takes long: it is measured on one paint only */
};

enum paint { NO_PAINT, PAINT = 0x5a, OTHER_PAINT = 0xa5 };

enum export { READ, PLACE, PLACE_GRADIENT, DRAW, DRAW_GRADIENT, DRAW_ROWS, DRAW_GRADIENT_ROWS, DRAW_STOPS, PNG, EXPORTS };
static const char *const export_names[EXPORTS] = {
    "avarezhu_read",          "avarezhu_place",     "avarezhu_place_gradient",     "avarezhu_draw",
    "avarezhu_draw_gradient", "avarezhu_draw_rows", "avarezhu_draw_gradient_rows", "avarezhu_draw_stops",
    "avarezhu_png",
};

#define FOUR(a) a ", " a ", " a ", " a
#define SIXTEEN FOUR("red 3%, lime, #0000ff80, white 2px")
#define UNPLACED FOUR("red, lime, #0000ff80, white")

/* Texts with their replies; a text shorter than `length` is filled up with blanks. */
static const struct recipe {
    const char *kind, *text;
    size_t length;
    uint32_t reply;
} recipes[] = {
    {"a general angle, 2 stops", "linear-gradient(37.25deg, red, #0000ff80)", 0, 0},
    {"a general angle, 16 stops", "linear-gradient(-1234.75deg, " SIXTEEN ")", 0, 0},
    {"a corner, 2 stops", "linear-gradient(to top left, red 10%, #0000ff80)", 0, 0},
    {"a corner, 16 stops", "linear-gradient(to right bottom, " SIXTEEN ")", 0, 0},
    {"a side, 2 stops", "linear-gradient(to left, red, transparent)", 0, 0},
    {"a side, 16 stops", "linear-gradient(" SIXTEEN ")", 0, 0},
    {"to bottom", "linear-gradient(to bottom, red, #0000ff80)", 0, 0},
    {"45 degrees", "linear-gradient(45deg, red, #0000ff80)", 0, 0},
    {"a circle, 2 stops", "radial-gradient(circle, red, #0000ff80)", 0, 0},
    {"a circle, 16 stops", "radial-gradient(farthest-side circle at top, " SIXTEEN ")", 0, 0},
    {"a circle off the middle", "radial-gradient(circle at 30.3% 41.7%, red, #0000ff80)", 0, 0},
    {"a circle off the middle, 16 stops", "radial-gradient(circle at 30.3% 41.7%, " SIXTEEN ")", 0, 0},
    {"a circle by its corner", "radial-gradient(circle closest-corner at 33.333% 0, red, lime)", 0, 0},
    {"a circle of a length", "radial-gradient(8192px at -8192px 1000%, red -1000%, blue 1000%)", 0, 0},
    {"a circle far outside", "radial-gradient(circle at 1000% -8192px, " SIXTEEN ")", 0, 0},
    {"a circle of no radius", "radial-gradient(0px at 10.5px 7px, red, lime, #0000ff80)", 0, 0},
    {"bars", "repeating-linear-gradient(90deg, red -3px, red 2px, #0000ff80 2px, #0000ff80 9.5px)", 0, 0},
    {"a repeating angle, 16 stops", "repeating-linear-gradient(-1234.75deg, " UNPLACED " 40px)", 0, 0},
    {"a repeating corner", "repeating-linear-gradient(to top left, red -8192px, #0000ff80 -8100.3px)", 0, 0},
    {"a repeating side", "repeating-linear-gradient(red 300px, transparent 340px)", 0, 0},
    {"rings", "repeating-radial-gradient(circle, red, #0000ff80 7px, lime 40px)", 0, 0},
    {"rings off the middle, 16 stops", "repeating-radial-gradient(circle at 30.3% 41.7%, " UNPLACED " 40px)", 0, 0},
    {"rings far outside", "repeating-radial-gradient(circle at 1000% -8192px, red, blue 40px)", 0, 0},
    {"a period of a unit", "repeating-linear-gradient(37.25deg, red, lime 0.008px, blue 0.016px)", 0, 0},
    {"rings of a unit", "repeating-radial-gradient(circle at 30.3% 41.7%, red, blue 0.016px)", 0, 0},
    {"one color", "repeating-linear-gradient(37.25deg, red 2px, white 2px, #0000ff80 2px)", 0, 0},
    {"one color of 16, a circle", "repeating-radial-gradient(0px, " UNPLACED ")", 0, 0},
    {"seventeen repeating stops", "repeating-radial-gradient(circle, " SIXTEEN ", red)", 0, 6},
    {"a text of 1,024 bytes", "linear-gradient(37.25deg, " SIXTEEN ")", 1024, 0},
    {"a text of 1,025 bytes", "linear-gradient(37.25deg, " SIXTEEN ")", 1025, 3},
    {"an empty text", "", 0, 4},
    {"a text not in the grammar", "linear-gradient(37.25deg, " SIXTEEN ",)", 0, 4},
    {"a number out of its range", "linear-gradient(45.1deg, " SIXTEEN ")", 0, 5},
    {"seventeen stops", "radial-gradient(circle, " SIXTEEN ", red)", 0, 6},
};

static const struct box {
    size_t width, height;
} boxes[] = {
    {1, 1},     {16, 9},   {64, 64},     {640, 480}, {2048, 1},            {2048, 7},
    {2048, 64}, {3, 2048}, {2048, 2048}, {0, 1},     {SIZE_MAX, SIZE_MAX},
};

/* One call, and how deep it went. */
struct job {
    enum export export;
    const char *kind;
    struct box box;
    char text[AVAREZHU_TEXT_MAX + 1];
    size_t text_length;
    uint32_t own; /* the reply to the text */
    uint8_t gradient[AVAREZHU_GRADIENT_SIZE];
    uint8_t stops[AVAREZHU_STOPS_SIZE];
    size_t first, end; /* rows, for a strip */
    size_t lent;
    enum paint paint;
    uint8_t *low;
    uint32_t reply;
    size_t below, above; /* stack used below and above the frame that makes the call */
};

static uint8_t lent[4 * 2048 * 2048];
static uint8_t *stack;
static size_t usable;
static const struct job *current;
static size_t deepest[EXPORTS], most_above;
static const char *where[EXPORTS];

static uint32_t call(const struct job *j)
{
    size_t width = j->box.width, height = j->box.height;
    switch (j->export) {
    case READ:
        return avarezhu_read(j->text, j->text_length, lent, j->lent);
    case PLACE:
        return avarezhu_place(j->text, j->text_length, width, height, lent, j->lent);
    case PLACE_GRADIENT:
        return avarezhu_place_gradient(j->gradient, sizeof j->gradient, width, height, lent, j->lent);
    case DRAW:
        return avarezhu_draw(j->text, j->text_length, width, height, lent, j->lent);
    case DRAW_GRADIENT:
        return avarezhu_draw_gradient(j->gradient, sizeof j->gradient, width, height, lent, j->lent);
    case DRAW_ROWS:
        return avarezhu_draw_rows(j->text, j->text_length, width, height, j->first, j->end, lent, j->lent);
    case DRAW_GRADIENT_ROWS:
        return avarezhu_draw_gradient_rows(j->gradient, sizeof j->gradient, width, height, j->first, j->end, lent,
                                           j->lent);
    case DRAW_STOPS:
        return avarezhu_draw_stops(j->gradient, sizeof j->gradient, j->stops, sizeof j->stops, width, height, lent,
                                   j->lent);
    default:
        return avarezhu_png(j->text, j->text_length, width, height, lent, j->lent);
    }
}

static bool takes_text(enum export e)
{
    return e == READ || e == PLACE || e == DRAW || e == DRAW_ROWS || e == PNG;
}

static bool draws_rows(enum export e)
{
    return e == DRAW_ROWS || e == DRAW_GRADIENT_ROWS;
}

static bool fits(struct box b)
{
    return b.width >= 1 && b.width <= 2048 && b.height >= 1 && b.height <= 2048;
}

/* The bytes that a call needs, a strip for the lower two thirds; in a box that does not fit, some number. */
static size_t needed(enum export e, struct box b)
{
    switch (e) {
    case READ: return AVAREZHU_GRADIENT_SIZE;
    case PLACE:
    case PLACE_GRADIENT: return AVAREZHU_STOPS_SIZE;
    case DRAW_ROWS:
    case DRAW_GRADIENT_ROWS: return fits(b) ? AVAREZHU_PIXELS_SIZE(b.width, b.height - b.height / 3) : 16;
    case PNG: return fits(b) ? AVAREZHU_PNG_SIZE(b.width, b.height) : 80;
    default: return fits(b) ? AVAREZHU_PIXELS_SIZE(b.width, b.height) : 16;
    }
}

/* Gradient and stops are zeros where the text was refused, which gets 4. */
static uint32_t right_reply(const struct job *j)
{
    if (j->export != READ && !fits(j->box))
        return AVAREZHU_BAD_BOX;
    if (draws_rows(j->export) && (j->first >= j->end || j->end > j->box.height))
        return AVAREZHU_BAD_ROWS;
    if (j->lent < needed(j->export, j->box))
        return AVAREZHU_NO_ROOM;
    return takes_text(j->export) || j->own == AVAREZHU_DONE ? j->own : AVAREZHU_MALFORMED;
}

static void check(const struct job *j, uint32_t reply)
{
    if (reply == right_reply(j))
        return;
    fprintf(stderr, "stack: %s, %s, %zu by %zu, %zu bytes lent: reply %u, not %u\n", export_names[j->export], j->kind,
            j->box.width, j->box.height, j->lent, (unsigned)reply, (unsigned)right_reply(j));
    exit(1);
}

static void on_fault(int signal, siginfo_t *info, void *context)
{
    (void)signal, (void)context;
    fprintf(stderr, "stack: %s, %s, %zu by %zu: fault at %p with %zu bytes of stack\n",
            export_names[current->export], current->kind, current->box.width, current->box.height,
            info->si_addr, usable);
    _exit(1);
}

/* The first byte from `at` on that lost its paint. Words come first, for speed. */
static uint8_t *unpainted(uint8_t *at, enum paint paint)
{
    uint64_t painted, word;
    memset(&painted, paint, sizeof painted);
    for (;; at += sizeof word) {
        memcpy(&word, at, sizeof word);
        if (word != painted)
            break;
    }
    while (*at == paint)
        at++;
    return at;
}

static void *thread(void *argument)
{
    static uint8_t alternate[1 << 16];
    struct job *j = argument;
    volatile uint8_t here = 0;
    uint8_t *frame = (uint8_t *)&here;
    sigaltstack(&(stack_t){.ss_sp = alternate, .ss_size = sizeof alternate}, NULL);
    if (j->paint != NO_PAINT)
        memset(j->low, j->paint, (size_t)(frame - j->low) - NEAR);
    j->reply = call(j);
    if (j->paint != NO_PAINT)
        j->below = (size_t)(frame - unpainted(j->low, j->paint));
    j->above = (size_t)(stack + FULL - frame);
    return NULL;
}

static void need(int error, const char *what)
{
    if (error != 0) {
        fprintf(stderr, "stack: %s: %s\n", what, strerror(error));
        exit(1);
    }
}

/* Only the upper `usable` bytes of the stack can be touched. */
static void run(struct job *j)
{
    pthread_t id;
    pthread_attr_t attributes;
    current = j;
    j->low = stack + FULL - usable;
    j->below = 0;
    need(pthread_attr_init(&attributes), "pthread_attr_init");
    need(pthread_attr_setstack(&attributes, stack, FULL), "pthread_attr_setstack");
    need(pthread_create(&id, &attributes, thread, j), "pthread_create");
    need(pthread_join(id, NULL), "pthread_join");
    pthread_attr_destroy(&attributes);
    check(j, j->reply);
    if (j->below > deepest[j->export]) {
        deepest[j->export] = j->below;
        where[j->export] = j->kind;
    }
    if (j->above > most_above)
        most_above = j->above;
}

/* An export with the bytes that it needs; for a strip, the lower two thirds of the rows. */
static void set_export(struct job *j, enum export e)
{
    j->export = e;
    j->first = j->box.height / 3;
    j->end = j->box.height;
    j->lent = needed(e, j->box);
}

/*
 * The exports from this one on with this text and box, with room enough and with 1 byte; strips also with
 * a row too many, and of the last row alone.
 */
static unsigned run_all(struct job *j, enum export first)
{
    unsigned runs = 0;
    for (int e = (int)first; e < EXPORTS; e++)
        for (int k = 0; k < (draws_rows((enum export)e) ? 4 : 2); k++, runs++) {
            set_export(j, (enum export)e);
            if (k == 1)
                j->lent = 1;
            if (k == 2)
                j->end++;
            if (k == 3)
                j->first = j->end - 1;
            run(j);
        }
    return runs;
}

/* Gradient and stops are zeros where the text or the box is refused. */
static void prepare(struct job *j, const struct recipe *r, struct box box)
{
    j->kind = r->kind;
    j->box = box;
    memset(j->text, ' ', sizeof j->text);
    memcpy(j->text, r->text, strlen(r->text));
    j->text_length = r->length != 0 ? r->length : strlen(r->text);
    j->own = r->reply;
    j->export = READ;
    j->lent = sizeof j->gradient;
    check(j, avarezhu_read(j->text, j->text_length, j->gradient, j->lent));
    j->export = PLACE;
    j->lent = sizeof j->stops;
    check(j, avarezhu_place(j->text, j->text_length, box.width, box.height, j->stops, j->lent));
}

/* Reading knows no box: it is run in the first only. */
static unsigned run_recipes(enum paint paint)
{
    static struct job job;
    unsigned runs = 0;
    job.paint = paint;
    for (size_t i = 0; i < COUNT(recipes); i++)
        for (size_t k = 0; k < COUNT(boxes); k++) {
            if (paint == OTHER_PAINT && boxes[k].width * boxes[k].height >= LARGE)
                continue;
            prepare(&job, &recipes[i], boxes[k]);
            runs += run_all(&job, k == 0 ? READ : PLACE);
        }
    return runs;
}

/* Symbols of shared libraries are looked up at their first use, which takes stack of its own. */
static void warm_up(void)
{
    struct job j;
    prepare(&j, &recipes[0], boxes[0]);
    for (int e = 0; e < EXPORTS; e++) {
        set_export(&j, (enum export)e);
        check(&j, call(&j));
    }
}

/* ---- A thread as a host makes it ---- */

/* Every export with every recipe, in the largest box. */
static void *all_calls(void *argument)
{
    static uint8_t alternate[1 << 16];
    static struct job j;
    unsigned *runs = argument;
    sigaltstack(&(stack_t){.ss_sp = alternate, .ss_size = sizeof alternate}, NULL);
    current = &j;
    for (size_t i = 0; i < COUNT(recipes); i++) {
        prepare(&j, &recipes[i], (struct box){2048, 2048});
        for (int e = 0; e < EXPORTS; e++, ++*runs) {
            set_export(&j, (enum export)e);
            check(&j, call(&j));
        }
    }
    return NULL;
}

/* The stack comes from the C library, which takes its own part of it. */
static unsigned run_on_thread(size_t bytes)
{
    pthread_t id;
    pthread_attr_t attributes;
    unsigned runs = 0;
    usable = bytes;
    need(pthread_attr_init(&attributes), "pthread_attr_init");
    need(pthread_attr_setstacksize(&attributes, bytes), "pthread_attr_setstacksize");
    need(pthread_create(&id, &attributes, all_calls, &runs), "pthread_create");
    need(pthread_join(id, NULL), "pthread_join");
    pthread_attr_destroy(&attributes);
    return runs;
}

static void make_stack(void)
{
    struct sigaction action = {.sa_flags = SA_SIGINFO | SA_ONSTACK};
    action.sa_sigaction = on_fault;
    sigaction(SIGSEGV, &action, NULL);
    sigaction(SIGBUS, &action, NULL);
    stack = mmap(NULL, FULL, PROT_READ | PROT_WRITE, MAP_PRIVATE | MAP_ANONYMOUS, -1, 0);
    if (stack == MAP_FAILED) {
        perror("stack: mmap");
        exit(1);
    }
}

static void use(size_t bytes)
{
    size_t page = (size_t)sysconf(_SC_PAGESIZE);
    usable = (bytes + page - 1) / page * page;
    if (usable >= FULL || mprotect(stack, FULL - usable, PROT_NONE) != 0) {
        fprintf(stderr, "stack: no stack of %zu bytes\n", usable);
        exit(1);
    }
}

int main(void)
{
    int failed = 0;
    make_stack();
    warm_up();
    use(FULL - (size_t)sysconf(_SC_PAGESIZE));
    unsigned runs = run_recipes(PAINT);
    runs += run_recipes(OTHER_PAINT);
    printf("stack in bytes, the most of %u calls\n", runs);
    for (int e = 0; e < EXPORTS; e++) {
        printf("%-28s %7zu  %s\n", export_names[e], deepest[e], where[e]);
        failed |= deepest[e] > AVAREZHU_STACK;
    }
    if (failed) {
        fprintf(stderr, "stack: more than AVAREZHU_STACK, %d\n", AVAREZHU_STACK);
        return 1;
    }
    use(AVAREZHU_STACK + MARGIN);
    runs = run_recipes(NO_PAINT);
    printf("%u calls again within AVAREZHU_STACK = %d and a margin of %zu, %zu of it for the thread itself\n", runs,
           AVAREZHU_STACK, usable - AVAREZHU_STACK, most_above);
    runs = run_on_thread(AVAREZHU_THREAD_STACK);
    printf("%u calls in 2,048 by 2,048 pixels on a thread of AVAREZHU_THREAD_STACK = %d\n", runs,
           AVAREZHU_THREAD_STACK);
    return 0;
}
