/*
 * What avarezhu should write, found with the library and nothing of the program.
 *
 *     expected raw  WIDTH HEIGHT <text >bytes    the bytes of avarezhu_draw
 *     expected over WIDTH HEIGHT <text >picture  the picture over the checkerboard, as a portable pixmap (P6)
 */
#include <math.h>
#include <stdio.h>
#include <stdlib.h>
#include <string.h>

#include "avarezhu.h"

/* Squares of 8 by 8 pixels: white at the top left, light gray beside it. */
static int gray(size_t i, size_t j)
{
    return (i / 8) % 2 == (j / 8) % 2 ? 255 : 204;
}

static void over(const uint8_t *pixels, size_t w, size_t h)
{
    printf("P6\n%zu %zu\n255\n", w, h);
    for (size_t j = 0; j < h; j++)
        for (size_t i = 0; i < w; i++) {
            const uint8_t *p = pixels + 4 * (j * w + i);
            for (int c = 0; c < 3; c++)
                putchar((int)lround(p[c] + gray(i, j) * (255 - p[3]) / 255.0));
        }
}

int main(int argc, char **argv)
{
    static char text[4096];
    if (argc != 4)
        return 2;
    size_t w = strtoul(argv[2], NULL, 10), h = strtoul(argv[3], NULL, 10);
    size_t size = AVAREZHU_PIXELS_SIZE(w, h);
    uint8_t *pixels = malloc(size);
    size_t n = fread(text, 1, sizeof text, stdin);
    uint32_t reply = avarezhu_draw(text, n, w, h, pixels, size);
    if (reply != AVAREZHU_DONE) {
        fprintf(stderr, "expected: reply %u\n", (unsigned)reply);
        return 1;
    }
    if (strcmp(argv[1], "raw") == 0)
        fwrite(pixels, 1, size, stdout);
    else
        over(pixels, w, h);
    free(pixels);
    return ferror(stdout) || fflush(stdout) != 0;
}
