/*
 * What the header alone promises: a sentence of its own and a number for each reply, another sentence for
 * every other number, a version that is the same as number and as string, and sizes. Ends with status 1 if not.
 */
#include "avarezhu.h"

#include <stdio.h>
#include <string.h>

static int failed;

static void expect(int holds, const char *what)
{
    if (!holds) {
        fprintf(stderr, "header: %s\n", what);
        failed = 1;
    }
}

static void check_messages(void)
{
    static const uint32_t replies[] = {0, 1, 2, 3, 4, 5, 6, 8};
    static const uint32_t others[] = {7, 9, 10, 255, 256, 264, 65536, 0x7fffffff, 0x80000000, 0x80000008, 0xffffffff};
    const char *none = avarezhu_message(others[0]);
    size_t i, b;
    for (i = 0; i < sizeof replies / sizeof *replies; i++) {
        const char *sentence = avarezhu_message(replies[i]);
        printf("%u: %s\n", (unsigned)replies[i], sentence);
        expect(strlen(sentence) > 1 && sentence[strlen(sentence) - 1] == '.', "a message is no sentence");
        expect(strcmp(sentence, none) != 0, "a reply has the message of a number that is none");
        for (b = 0; b < i; b++)
            expect(strcmp(sentence, avarezhu_message(replies[b])) != 0, "two replies have the same message");
    }
    printf("others: %s\n", none);
    for (i = 0; i < sizeof others / sizeof *others; i++)
        expect(strcmp(avarezhu_message(others[i]), none) == 0, "numbers that are no replies have several messages");
}

/* A number that has been given once is never another's. */
static void check_numbers(void)
{
    expect(AVAREZHU_DONE == 0 && AVAREZHU_BAD_BOX == 1 && AVAREZHU_NO_ROOM == 2 && AVAREZHU_LONG_TEXT == 3
               && AVAREZHU_MALFORMED == 4 && AVAREZHU_OUT_OF_RANGE == 5 && AVAREZHU_TOO_MANY_STOPS == 6
               && AVAREZHU_BAD_ROWS == 8,
           "a reply has another number");
}

static void check_version(void)
{
    char string[32];
    snprintf(string, sizeof string, "%d.%d.%d", AVAREZHU_VERSION / 10000, AVAREZHU_VERSION / 100 % 100,
             AVAREZHU_VERSION % 100);
    expect(strcmp(string, AVAREZHU_VERSION_STRING) == 0, "the version is another as a string");
}

/* Sides are of any type of number: the greatest file has more bytes than 16 bits can count. */
static void check_sizes(void)
{
    const short side = 2048, first = 1984;
    const unsigned char one = 1;
    expect(AVAREZHU_PIXELS_SIZE(side, side) == 16777216 && AVAREZHU_PIXELS_SIZE(one, one + 1) == 8,
           "AVAREZHU_PIXELS_SIZE");
    expect(AVAREZHU_PIXELS_SIZE(side, side - first) == 524288, "AVAREZHU_PIXELS_SIZE of a strip");
    expect(AVAREZHU_PNG_SIZE(side, side) == 12595263 && AVAREZHU_PNG_SIZE(one, one) == 72, "AVAREZHU_PNG_SIZE");
    expect(sizeof(AVAREZHU_PIXELS_SIZE(1, 1)) == sizeof(size_t) && sizeof(AVAREZHU_PNG_SIZE(1, 1)) == sizeof(size_t),
           "a size is no size_t");
    expect(AVAREZHU_THREAD_STACK > AVAREZHU_STACK, "AVAREZHU_THREAD_STACK");
}

int main(void)
{
    check_messages();
    check_numbers();
    check_version();
    check_sizes();
    return failed;
}
