/*
 * Draws on eight threads at once, each with a stack of AVAREZHU_THREAD_STACK: first the strips of one
 * picture, into the parts of one buffer, then strips of different texts, some of them refused, into
 * buffers of their own. The bytes must be those of the whole pictures, which were drawn before, one
 * after the other. Ends with status 1 if they are not. With an argument only small pictures are drawn,
 * for a tool that watches every access.
 */
#define _DEFAULT_SOURCE
#include "avarezhu.h"

#include <errno.h>
#include <pthread.h>
#include <stdbool.h>
#include <stdio.h>
#include <stdlib.h>
#include <string.h>

#define COUNT(array) (sizeof(array) / sizeof *(array))
#define FOUR(a) a ", " a ", " a ", " a
#define SIXTEEN FOUR("red 3%, lime, #0000ff80, white 2px")

enum { THREADS = 8, ROUNDS = 40, FEW_ROUNDS = 2, SMALL = 2 };

static const struct recipe {
    const char *kind, *text;
    uint32_t reply;
} recipes[] = {
    {"to the right", "linear-gradient(to right, red, #0000ff80)", 0},
    {"downward, 16 stops", "linear-gradient(" SIXTEEN ")", 0},
    {"slanted", "linear-gradient(37.25deg, red, transparent 30%, blue)", 0},
    {"slanted, 16 stops", "linear-gradient(-1234.75deg, " SIXTEEN ")", 0},
    {"to a corner", "linear-gradient(to top left, red 10%, #0000ff80)", 0},
    {"a circle", "radial-gradient(circle, red, #0000ff80, lime)", 0},
    {"a circle off the middle, 16 stops", "radial-gradient(circle at 30.3% 41.7%, " SIXTEEN ")", 0},
    {"a circle far outside", "radial-gradient(circle at 1000% -8192px, red, blue)", 0},
    {"bars", "repeating-linear-gradient(to right, red -3px, red 2px, #0000ff80 2px, #0000ff80 9.5px)", 0},
    {"slanted bars", "repeating-linear-gradient(37.25deg, red, transparent 30px, blue 50px)", 0},
    {"rings", "repeating-radial-gradient(circle at 30.3% 41.7%, red -5px, #0000ff80 7px, lime 40px)", 0},
    {"a period of a unit", "repeating-linear-gradient(-1234.75deg, red, lime 0.008px, blue 0.016px)", 0},
    {"one color", "repeating-radial-gradient(circle, red 2px, white 2px, #0000ff80 2px)", 0},
    {"not in the grammar", "linear-gradient(37.25deg, " SIXTEEN ",)", 4},
    {"out of range", "linear-gradient(45.1deg, red, blue)", 5},
    {"seventeen stops", "radial-gradient(circle, " SIXTEEN ", red)", 6},
};

/* Boxes for every recipe, and the rows of a strip but the last. The first SMALL are small. */
static const struct format {
    size_t width, height, rows;
} formats[] = {{97, 61, 1}, {97, 61, 3}, {640, 480, 7}, {2048, 2048, 64}};

/* A picture: the right one, and the one that the threads draw. A picture that is refused is zeros. */
struct picture {
    const struct recipe *recipe;
    struct format format;
    uint8_t gradient[AVAREZHU_GRADIENT_SIZE];
    uint8_t *right, *drawn;
};

struct worker {
    pthread_t id;
    unsigned number, rounds;
    struct picture *picture;          /* the strips of one */
    struct picture *pictures;         /* strips of all */
    unsigned long calls, differences; /* what came of it */
};

static pthread_barrier_t start;

static void need(int error, const char *what)
{
    if (error != 0) {
        fprintf(stderr, "threads: %s: %s\n", what, strerror(error));
        exit(1);
    }
}

static size_t size_of(struct format f)
{
    return AVAREZHU_PIXELS_SIZE(f.width, f.height);
}

static uint8_t *room_for(size_t size)
{
    uint8_t *room = malloc(size);
    need(room == NULL ? ENOMEM : 0, "malloc");
    return room;
}

static void fill(struct picture *p, const struct recipe *recipe, struct format format)
{
    *p = (struct picture){.recipe = recipe, .format = format};
    size_t length = strlen(recipe->text), size = size_of(format);
    p->right = room_for(size);
    p->drawn = room_for(size);
    memset(p->drawn, 0xa5, size);
    uint32_t reply = avarezhu_draw(recipe->text, length, format.width, format.height, p->right, size);
    uint32_t read = avarezhu_read(recipe->text, length, p->gradient, sizeof p->gradient);
    if (reply != recipe->reply || read != recipe->reply) {
        fprintf(stderr, "threads: %s: reply %u, not %u\n", recipe->kind, (unsigned)reply, (unsigned)recipe->reply);
        exit(1);
    }
}

static void empty(struct picture *p)
{
    free(p->right);
    free(p->drawn);
}

/*
 * One strip; half of the threads hand in the text, half the gradient. A gradient that was not read is
 * zeros, which gets 4.
 */
static void draw_strip(struct worker *w, const struct picture *p, size_t first, size_t end, uint8_t *out)
{
    const char *text = p->recipe->text;
    size_t width = p->format.width, height = p->format.height, size = AVAREZHU_PIXELS_SIZE(width, end - first);
    uint32_t reply, right = p->recipe->reply;
    if (w->number % 2 == 0) {
        reply = avarezhu_draw_rows(text, strlen(text), width, height, first, end, out, size);
    } else {
        reply = avarezhu_draw_gradient_rows(p->gradient, sizeof p->gradient, width, height, first, end, out, size);
        right = right == AVAREZHU_DONE ? AVAREZHU_DONE : AVAREZHU_MALFORMED;
    }
    w->calls++;
    w->differences += reply != right;
}

static size_t lesser(size_t a, size_t b)
{
    return a < b ? a : b;
}

/* Every eighth strip, so that neighbors in the buffer are drawn by different threads. */
static void *draw_every_eighth(void *argument)
{
    struct worker *w = argument;
    const struct picture *p = w->picture;
    size_t step = p->format.rows;
    pthread_barrier_wait(&start);
    for (size_t first = w->number * step; first < p->format.height; first += THREADS * step)
        draw_strip(w, p, first, lesser(first + step, p->format.height), p->drawn + 4 * p->format.width * first);
    return NULL;
}

/* Strips of all pictures, in an order of its own, into a buffer of its own; each is compared at once. */
static void *draw_all(void *argument)
{
    struct worker *w = argument;
    uint8_t *own = room_for(size_of(w->pictures[0].format));
    pthread_barrier_wait(&start);
    for (size_t k = 0; k < w->rounds * COUNT(recipes); k++) {
        const struct picture *p = &w->pictures[(k + w->number * k) % COUNT(recipes)];
        size_t first = (7 * k + w->number) % p->format.height;
        size_t end = lesser(first + 1 + k % 16, p->format.height), row = 4 * p->format.width;
        memset(own, 0x5a, size_of(p->format));
        draw_strip(w, p, first, end, own);
        w->differences += memcmp(own, p->right + row * first, row * (end - first)) != 0;
    }
    free(own);
    return NULL;
}

/* Runs eight workers and adds up what came of them. */
static struct worker run(struct worker model, void *(*work)(void *))
{
    struct worker workers[THREADS];
    pthread_attr_t attributes;
    need(pthread_barrier_init(&start, NULL, THREADS), "pthread_barrier_init");
    need(pthread_attr_init(&attributes), "pthread_attr_init");
    need(pthread_attr_setstacksize(&attributes, AVAREZHU_THREAD_STACK), "pthread_attr_setstacksize");
    for (unsigned i = 0; i < THREADS; i++) {
        workers[i] = model;
        workers[i].number = i;
        need(pthread_create(&workers[i].id, &attributes, work, &workers[i]), "pthread_create");
    }
    for (unsigned i = 0; i < THREADS; i++) {
        need(pthread_join(workers[i].id, NULL), "pthread_join");
        model.calls += workers[i].calls;
        model.differences += workers[i].differences;
    }
    pthread_attr_destroy(&attributes);
    pthread_barrier_destroy(&start);
    return model;
}

/* One picture in strips; adds to the calls, and answers whether it is right. */
static bool try_picture(const struct recipe *recipe, struct format f, unsigned long *calls)
{
    struct picture p;
    fill(&p, recipe, f);
    struct worker sum = run((struct worker){.picture = &p}, draw_every_eighth);
    bool same = memcmp(p.right, p.drawn, size_of(f)) == 0;
    if (!same || sum.differences != 0)
        fprintf(stderr, "threads: %s, %zu by %zu in strips of %zu rows: %s bytes, %lu wrong replies\n", recipe->kind,
                f.width, f.height, f.rows, same ? "right" : "wrong", sum.differences);
    *calls += sum.calls;
    empty(&p);
    return same && sum.differences == 0;
}

/* Every recipe in each of the first formats. Answers how many pictures are not right. */
static unsigned try_pictures(size_t count)
{
    unsigned wrong = 0;
    unsigned long calls = 0;
    for (size_t i = 0; i < COUNT(recipes); i++)
        for (size_t k = 0; k < count; k++)
            wrong += !try_picture(&recipes[i], formats[k], &calls);
    printf("%zu pictures in %lu strips, each picture on %d threads at once\n", COUNT(recipes) * count, calls, THREADS);
    return wrong;
}

/* Strips of different recipes at once. */
static unsigned try_texts(unsigned rounds)
{
    struct picture pictures[COUNT(recipes)];
    for (size_t i = 0; i < COUNT(recipes); i++)
        fill(&pictures[i], &recipes[i], formats[0]);
    struct worker sum = run((struct worker){.pictures = pictures, .rounds = rounds}, draw_all);
    for (size_t i = 0; i < COUNT(recipes); i++)
        empty(&pictures[i]);
    printf("%lu strips of %zu recipes, on %d threads at once\n", sum.calls, COUNT(recipes), THREADS);
    if (sum.differences != 0)
        fprintf(stderr, "threads: strips of different recipes: %lu wrong replies or strips\n", sum.differences);
    return sum.differences != 0;
}

int main(int count, char **words)
{
    (void)words;
    unsigned wrong = try_pictures(count > 1 ? SMALL : COUNT(formats));
    wrong += try_texts(count > 1 ? FEW_ROUNDS : ROUNDS);
    return wrong != 0;
}
