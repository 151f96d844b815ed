/*
 * Draws the frame that a recipe calls for and compares it with the frame that a camera gave back.
 *
 *     cc -Iinclude examples/station.c target/staticlib/libavarezhu.a -o station
 */
#include "avarezhu.h"

#include <errno.h>
#include <stdio.h>
#include <stdlib.h>
#include <string.h>

enum status { PASS = 0, FAIL = 1, REFUSED = 2, TROUBLE = 3 };

static const char usage[] =
    "usage: station RECIPE.txt WIDTH HEIGHT FRAME.raw\n"
    "Draws the CSS gradient in RECIPE.txt and compares it with FRAME.raw, which holds\n"
    "premultiplied red, green, blue and alpha of each pixel, row by row from the top.\n"
    "status: 0 PASS, 1 FAIL, 2 the recipe or the box was refused, 3 usage or a file\n";

/* One byte more than a recipe or a frame can have: a file that is too long is never taken for one
 * that is not. Of a long recipe 1,025 bytes are handed over, which is enough for reply 3. */
static char recipe[AVAREZHU_TEXT_MAX + 1];
static uint8_t grabbed[AVAREZHU_PIXELS_SIZE(AVAREZHU_SIDE_MAX, AVAREZHU_SIDE_MAX) + 1];
static uint8_t expected[AVAREZHU_PIXELS_SIZE(AVAREZHU_SIDE_MAX, AVAREZHU_SIDE_MAX)];

/* Reads a file, up to `room` bytes of it. Answers 0 if it cannot be read. */
static int read_file(const char *name, void *bytes, size_t room, size_t *length)
{
    FILE *file = fopen(name, "rb");
    int good = file != NULL;
    if (good) {
        *length = fread(bytes, 1, room, file);
        good = !ferror(file);
    }
    if (!good)
        fprintf(stderr, "station: %s: %s\n", name, strerror(errno));
    if (file != NULL)
        fclose(file);
    return good;
}

/* Digits only. Whether the number is a possible width or height is left to avarezhu_draw. */
static int read_number(const char *word, size_t *number)
{
    size_t digits = strspn(word, "0123456789");
    unsigned long long value;
    errno = 0;
    value = strtoull(word, NULL, 10);
    *number = (size_t)value;
    if (digits > 0 && word[digits] == '\0' && errno == 0 && value <= SIZE_MAX)
        return 1;
    fprintf(stderr, "station: not a number of pixels: %s\n", word);
    return 0;
}

static enum status refuse(uint32_t reply)
{
    printf("REFUSED (%u): %s\n", (unsigned)reply, avarezhu_message(reply));
    return REFUSED;
}

static enum status compare(size_t width, size_t height)
{
    size_t i, first = 0, differing = 0;
    const uint8_t *e, *g;
    for (i = 0; i < width * height; i++)
        if (memcmp(expected + 4 * i, grabbed + 4 * i, 4) != 0 && differing++ == 0)
            first = i;
    if (differing == 0) {
        printf("PASS: %zu by %zu pixels\n", width, height);
        return PASS;
    }
    e = expected + 4 * first;
    g = grabbed + 4 * first;
    printf("FAIL: %zu of %zu pixels differ; the first, in column %zu of row %zu (from 0), is ", differing,
           width * height, first % width, first / width);
    printf("%d %d %d %d, not %d %d %d %d\n", g[0], g[1], g[2], g[3], e[0], e[1], e[2], e[3]);
    return FAIL;
}

int main(int count, char **words)
{
    size_t recipe_length, width, height, length, size = 0;
    uint32_t reply;
    if (count == 2 && strcmp(words[1], "--help") == 0) {
        fputs(usage, stdout);
        return EXIT_SUCCESS;
    }
    if (count != 5) {
        fputs(usage, stderr);
        return TROUBLE;
    }
    if (!read_number(words[2], &width) || !read_number(words[3], &height))
        return TROUBLE;
    if (!read_file(words[1], recipe, sizeof recipe, &recipe_length))
        return TROUBLE;
    if (width <= AVAREZHU_SIDE_MAX && height <= AVAREZHU_SIDE_MAX)
        size = AVAREZHU_PIXELS_SIZE(width, height);

    /* The reply comes first: after a refusal `expected` is zeros, and a black frame would equal it. */
    reply = avarezhu_draw(recipe, recipe_length, width, height, expected, size);
    if (reply != AVAREZHU_DONE)
        return refuse(reply);

    if (!read_file(words[4], grabbed, sizeof grabbed, &length))
        return TROUBLE;
    if (length != size) {
        fprintf(stderr, "station: %s has %s%zu bytes, %zu are right\n", words[4],
                length == sizeof grabbed ? "at least " : "", length, size);
        return TROUBLE;
    }
    return compare(width, height);
}
