/*
 * Reads a PNG file with libpng and writes it as a portable pixmap (P6). A warning of libpng counts as an error.
 *
 *     decoded FILE.png >picture
 */
#include <png.h>
#include <stdio.h>
#include <stdlib.h>
#include <string.h>

int main(int argc, char **argv)
{
    png_image image;
    png_bytep pixels;
    memset(&image, 0, sizeof image);
    image.version = PNG_IMAGE_VERSION;
    if (argc != 2 || !png_image_begin_read_from_file(&image, argv[1]) || image.format != PNG_FORMAT_RGB) {
        fprintf(stderr, "decoded: %s\n", image.message);
        return 1;
    }
    pixels = malloc(PNG_IMAGE_SIZE(image));
    if (pixels == NULL || !png_image_finish_read(&image, NULL, pixels, 0, NULL) || image.warning_or_error != 0) {
        fprintf(stderr, "decoded: %s\n", image.message);
        return 1;
    }
    printf("P6\n%u %u\n255\n", (unsigned)image.width, (unsigned)image.height);
    fwrite(pixels, 1, PNG_IMAGE_SIZE(image), stdout);
    free(pixels);
    return ferror(stdout) || fflush(stdout) != 0;
}
