/*
 * Hands charts to the library: requests on the standard input, answers on the standard output, until the input ends.
 *
 *   request  width, height and length of the text, 32 bits each, and the text; a width of 0 asks for reading alone
 *   answer   the reply, 32 bits; if a picture was asked for and the reply is 0, then the gradient, the placed stops and the pixels
 */
#include "avarezhu.h"

#include <stdio.h>
#include <stdlib.h>

static char text[1 << 16];
static uint8_t pixels[1 << 20];
static uint8_t gradient[AVAREZHU_GRADIENT_SIZE];
static uint8_t stops[AVAREZHU_STOPS_SIZE];

static void put(const void *bytes, size_t length)
{
    if (fwrite(bytes, 1, length, stdout) != length)
        exit(1);
}

static void draw(size_t width, size_t height, size_t length)
{
    size_t size = AVAREZHU_PIXELS_SIZE(width, height);
    uint32_t reply = avarezhu_draw(text, length, width, height, pixels, size);

    put(&reply, sizeof reply);
    if (reply != AVAREZHU_DONE)
        return;
    if (avarezhu_read(text, length, gradient, sizeof gradient) != AVAREZHU_DONE ||
        avarezhu_place(text, length, width, height, stops, sizeof stops) != AVAREZHU_DONE) {
        fputs("drawn, but not read and placed\n", stderr);
        exit(1);
    }
    put(gradient, sizeof gradient);
    put(stops, sizeof stops);
    put(pixels, size);
}

int main(void)
{
    uint32_t request[3];

    while (fread(request, sizeof request, 1, stdin) == 1) {
        if (request[2] > sizeof text || fread(text, 1, request[2], stdin) != request[2])
            return 1;
        if (request[0] == 0) {
            uint32_t reply = avarezhu_read(text, request[2], gradient, sizeof gradient);
            put(&reply, sizeof reply);
        } else if (request[0] > 2048 || request[1] > 2048 || request[0] * request[1] > sizeof pixels / 4) {
            return 1;
        } else {
            draw(request[0], request[1], request[2]);
        }
    }
    return 0;
}
