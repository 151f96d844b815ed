/*
 * The file that avarezhu_png must leave, from the PNG specification, RFC 1950 (zlib) and RFC 1951
 * (deflate): 8 bits each of red, green and blue, a stored block for each row, the picture over a
 * checkerboard. Shares nothing with the library.
 */
#include <stddef.h>
#include <stdint.h>

/* Writes the file of a premultiplied picture from `out` on and answers its length. */
size_t png_file(uint8_t *out, const uint8_t *pixels, size_t width, size_t height);
