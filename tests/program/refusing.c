/*
 * Stands between the program and the library (ld --wrap), and refuses the strip that begins at the row that the environment variable
 * REFUSED_ROW names. The library itself never takes one strip of a picture and refuses another.
 */
#include <stdlib.h>
#include <string.h>

#include "avarezhu.h"

uint32_t __real_avarezhu_draw_rows(const char *text, size_t text_length, size_t width, size_t height, size_t first, size_t end, uint8_t *pixels,
                                   size_t pixels_length);
uint32_t __wrap_avarezhu_draw_rows(const char *text, size_t text_length, size_t width, size_t height, size_t first, size_t end, uint8_t *pixels,
                                   size_t pixels_length);

uint32_t __wrap_avarezhu_draw_rows(const char *text, size_t text_length, size_t width, size_t height, size_t first, size_t end, uint8_t *pixels,
                                   size_t pixels_length)
{
    const char *row = getenv("REFUSED_ROW");
    if (row == NULL || first != strtoul(row, NULL, 10))
        return __real_avarezhu_draw_rows(text, text_length, width, height, first, end, pixels, pixels_length);
    memset(pixels, 0, pixels_length);
    return AVAREZHU_BAD_ROWS;
}
