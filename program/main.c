/*
 * Draws the gradient of a CSS text to a file, says whether a text is right, and compares frames with the picture
 * that a text calls for.
 */
#define _POSIX_C_SOURCE 200809L

#include "avarezhu.h"

#include "compare.h"
#include "drawing.h"
#include "input.h"
#include "output.h"
#include "refusal.h"
#include "say.h"
#include "status.h"

#include <signal.h>
#include <stdio.h>
#include <stdlib.h>
#include <string.h>
#include <sys/resource.h>
#include <unistd.h>

static const char usage[] =
    "usage: avarezhu draw WIDTH HEIGHT OUT [RECIPE] [--raw]\n"
    "       avarezhu check [RECIPE]\n"
    "       avarezhu compare WIDTH HEIGHT FRAME.raw [RECIPE] [--tolerance N]\n"
    "       avarezhu --help | --version\n";

static const char help[] =
    "\n"
    "draw     draws a CSS gradient in a box of WIDTH by HEIGHT pixels, 1 to 2048 each. OUT is a PNG file with the picture\n"
    "         over a checkerboard, for people. If its name ends in .raw, or with --raw, it is the exact picture: red,\n"
    "         green, blue and alpha of each pixel, a byte each, premultiplied, row by row from the top.\n"
    "check    says whether the text of a gradient is right, and if not, where and why.\n"
    "compare  draws the picture and compares FRAME.raw with it, which holds such bytes. It prints PASS or FAIL. With\n"
    "         --tolerance, a byte may be off by N, 0 to 255. A picture of zeros never passes: a camera that sends\n"
    "         nothing would match it.\n"
    "\n"
    "RECIPE is a file with the text, at most 1024 bytes. Without it, or for -, standard input is read.\n"
    "FRAME.raw as - is standard input too. OUT as - is standard output. Words after -- are no options.\n"
    "\n"
    "What happens to OUT: a file of that name is removed first, before RECIPE is read. The new one is written beside it\n"
    "and gets the name when all of it is there. So whatever goes wrong, no file of the name OUT is left. A link is\n"
    "followed; a device or a FIFO is written to and never replaced. A file that is RECIPE itself, or that holds the\n"
    "text of a gradient, is left as it was, and so is every file where the command line is not understood.\n"
    "\n"
    "status: 0 done or PASS, 1 FAIL, 2 the text or the box was refused, 3 the command line or a file\n";

/* The words after the command. */
struct request {
    int count;
    const char *words[5]; /* one more than any command takes; NULL where there is none */
    int is_raw;
    unsigned tolerance;
};

/* One byte more than a text can have is enough to be refused for. */
static char text[AVAREZHU_TEXT_MAX + 1];

static enum status misuse(const char *word, const char *wrong)
{
    say("%s: %s", word, wrong);
    fputs(usage, stderr);
    return TROUBLE;
}

/* ---- numbers */

/* Digits only. A number that is too large stays too large. */
static int read_number(const char *word, size_t *number)
{
    *number = 0;
    if (word[0] == '\0' || word[strspn(word, "0123456789")] != '\0')
        return 0;
    for (; *word != '\0'; word++)
        *number = *number > (SIZE_MAX - 9) / 10 ? SIZE_MAX - 9 : *number * 10 + (size_t)(*word - '0');
    return 1;
}

static int read_tolerance(const char *word, unsigned *tolerance)
{
    size_t number;
    if (!read_number(word, &number) || number > 255)
        return 0;
    *tolerance = (unsigned)number;
    return 1;
}

/* ---- pictures */

/* The largest pictures need some stack. The system ends a program that has too little without a word. */
static int is_stack_enough(void)
{
    struct rlimit limit;
    rlim_t needed = AVAREZHU_THREAD_STACK + AVAREZHU_THREAD_STACK / 4;
    if (getrlimit(RLIMIT_STACK, &limit) != 0 || limit.rlim_cur == RLIM_INFINITY || limit.rlim_cur >= needed)
        return 1;
    say("drawing needs a stack of %lu KiB; allow it with: ulimit -s %lu", (unsigned long)(needed / 1024),
        (unsigned long)(needed / 1024));
    return 0;
}

static enum status read_box(const struct request *r, FILE *answers, struct drawing *d)
{
    uint32_t reply;
    if (!read_number(r->words[0], &d->width))
        return misuse(r->words[0], "this is not a number of pixels");
    if (!read_number(r->words[1], &d->height))
        return misuse(r->words[1], "this is not a number of pixels");
    reply = avarezhu_draw(NULL, 0, d->width, d->height, NULL, 0);
    if (reply != AVAREZHU_BAD_BOX)
        return DONE;
    explain_box(answers, reply, r->words[0], r->words[1]);
    return REFUSED;
}

/* Begins to draw the text in the box that the first two words give. What is refused is told to `answers`. */
static enum status begin_drawing(const struct request *r, const char *name, FILE *answers, struct drawing *d)
{
    enum status status = read_box(r, answers, d);
    uint32_t reply;
    if (status != DONE)
        return status;
    d->text.at = text;
    if (!is_stack_enough() || !read_input(name, text, sizeof text, &d->text.length) || !draw_first(d, &reply))
        return TROUBLE;
    if (reply == AVAREZHU_DONE)
        return DONE;
    explain_text(answers, reply, d->text, input_name(name));
    return REFUSED;
}

/* ---- commands */

/* Writes what is drawn, and goes on until there is no more. */
static enum status write_drawing(struct drawing *d, struct output *out)
{
    int good = 1;
    if (!open_output(out))
        return TROUBLE;
    while (good && d->length > 0)
        good = write_output(out, d->bytes, d->length) && draw_next(d);
    return close_output(out, good) ? DONE : TROUBLE;
}

static enum status run_draw(const struct request *r)
{
    static struct output out;
    struct drawing d = {0};
    const char *name = r->words[2];
    enum status status;
    if (!clear_output(&out, name, r->words[3]))
        return TROUBLE;
    d.is_raw = r->is_raw || ends_with(slice_of(name), ".raw");
    status = begin_drawing(r, r->words[3], stderr, &d);
    if (status == DONE)
        status = write_drawing(&d, &out);
    free(d.bytes);
    return status;
}

static enum status run_check(const struct request *r)
{
    avarezhu_gradient gradient;
    const char *name = r->words[0];
    size_t length;
    uint32_t reply;
    if (!read_input(name, text, sizeof text, &length))
        return TROUBLE;
    reply = avarezhu_read(text, length, (uint8_t *)&gradient, sizeof gradient);
    if (reply == AVAREZHU_DONE) {
        printf("accepted: %lu stops%s\n", (unsigned long)gradient.count, gradient.repeating ? ", repeating" : "");
        return DONE;
    }
    explain_text(stdout, reply, between(text, text + length), input_name(name));
    return REFUSED;
}

/* Reads the frame along with what is drawn. It has as many bytes as the picture and no more. */
static enum status compare_frame(int file, const char *name, struct drawing *d, unsigned tolerance)
{
    static uint8_t frame[STRIP_SIZE + 1];
    struct comparison c = {.width = d->width, .height = d->height, .tolerance = tolerance};
    size_t n, length = 0, size = AVAREZHU_PIXELS_SIZE(d->width, d->height);
    while (d->length > 0) {
        /* with the last strip, one byte that should not be there */
        if (!read_part(file, name, frame, d->length + (d->end == d->height), &n))
            return TROUBLE;
        length += n;
        if (n < d->length)
            break;
        compare_strip(&c, d->bytes, frame, d->length / 4);
        if (!draw_next(d))
            return TROUBLE;
    }
    if (length == size)
        return give_verdict(&c);
    say("%s: this frame has %s%zu bytes; the picture has %zu", input_name(name), length > size ? "at least " : "", length,
        size);
    return TROUBLE;
}

static enum status run_compare(const struct request *r)
{
    struct drawing d = {0};
    enum status status;
    int file;
    if (is_standard_input(r->words[2]) && is_standard_input(r->words[3]))
        return misuse("-", "standard input cannot be both the frame and the recipe");
    d.is_raw = 1;
    status = begin_drawing(r, r->words[3], stdout, &d);
    if (status == DONE) {
        file = open_input(r->words[2]);
        status = file < 0 ? TROUBLE : compare_frame(file, r->words[2], &d, r->tolerance);
        close_input(file);
    }
    free(d.bytes);
    return status;
}

/* ---- the command line */

struct command {
    const char *name;
    enum status (*run)(const struct request *);
    int least;
    int most;
    const char *option; /* the one that it takes */
};

static const struct command commands[] = {
    {"draw", run_draw, 3, 4, "--raw"},
    {"check", run_check, 0, 1, ""},
    {"compare", run_compare, 3, 4, "--tolerance"},
};

static enum status say_help(void)
{
    fputs(usage, stdout);
    fputs(help, stdout);
    return DONE;
}

/* Takes in option `*i`, which may have its value in the next word or after an equals sign. */
static enum status read_option(const struct command *c, struct request *r, char **words, int *i)
{
    static const char value[] = "--tolerance=";
    const char *word = words[*i];
    const char *tolerance = strncmp(word, value, strlen(value)) == 0 ? word + strlen(value) : NULL;
    if (strcmp(word, "--raw") == 0 && strcmp(c->option, "--raw") == 0) {
        r->is_raw = 1;
        return DONE;
    }
    if (strcmp(c->option, "--tolerance") != 0 || (tolerance == NULL && strcmp(word, "--tolerance") != 0))
        return misuse(word, "this is not an option of the command");
    if (tolerance == NULL)
        tolerance = words[++*i];
    if (tolerance == NULL)
        return misuse(word, "a number, 0 to 255, must follow");
    return read_tolerance(tolerance, &r->tolerance) ? DONE : misuse(tolerance, "this is not a tolerance, 0 to 255");
}

/* Runs a command with the words after it, which a NULL ends. */
static enum status run(const struct command *c, char **words)
{
    struct request r = {0, {NULL, NULL, NULL, NULL, NULL}, 0, 0};
    int i, are_options_over = 0;
    for (i = 0; words[i] != NULL; i++) {
        if (are_options_over || words[i][0] != '-' || words[i][1] == '\0') {
            if (r.count == c->most)
                return misuse(words[i], "this word is one too many");
            r.words[r.count++] = words[i];
        } else if (strcmp(words[i], "--") == 0) {
            are_options_over = 1;
        } else if (strcmp(words[i], "--help") == 0) {
            return say_help();
        } else if (read_option(c, &r, words, &i) != DONE) {
            return TROUBLE;
        }
    }
    return r.count < c->least ? misuse(c->name, "words are missing") : c->run(&r);
}

static enum status run_named(char **words)
{
    size_t i;
    if (words[0] == NULL) {
        fputs(usage, stderr);
        return TROUBLE;
    }
    if (strcmp(words[0], "--help") == 0 || strcmp(words[0], "help") == 0)
        return say_help();
    if (strcmp(words[0], "--version") == 0) {
        puts("avarezhu " AVAREZHU_VERSION_STRING);
        return DONE;
    }
    for (i = 0; i < sizeof commands / sizeof *commands; i++)
        if (strcmp(words[0], commands[i].name) == 0)
            return run(&commands[i], words + 1);
    return misuse(words[0], "this is not a command");
}

int main(int count, char **words)
{
    enum status status;
    if (!open_standard_files())
        return TROUBLE;
    /* Writing to a closed pipe, or past the greatest size of a file, is an error like any other. */
    signal(SIGPIPE, SIG_IGN);
    signal(SIGXFSZ, SIG_IGN);
    status = run_named(count > 0 ? words + 1 : words);
    return close_standard_output() ? (int)status : TROUBLE;
}
