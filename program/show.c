#define _POSIX_C_SOURCE 200809L

#include "show.h"

enum {
    SHOWN = 72, /* columns of a line that is cut */
    AHEAD = 24, /* of them before the mark */
    PART = 48   /* characters of a part that is cut */
};

#define NO_CHARACTER 0xFFFFFFFFul

/* ---- characters */

/* The bytes of the character that `s` starts with, 1 if it is none. */
static size_t character(struct slice s, unsigned long *code)
{
    static const unsigned long least[] = {0, 0, 0x80, 0x800, 0x10000};
    unsigned char first = (unsigned char)s.at[0];
    size_t i, n = first < 0x80 ? 1 : first < 0xC0 ? 0 : first < 0xE0 ? 2 : first < 0xF0 ? 3 : first < 0xF8 ? 4 : 0;
    *code = NO_CHARACTER;
    if (n == 0 || n > s.length)
        return 1;
    *code = n == 1 ? first : first & (0x7Fu >> n);
    for (i = 1; i < n && ((unsigned char)s.at[i] & 0xC0) == 0x80; i++)
        *code = *code << 6 | ((unsigned char)s.at[i] & 0x3Fu);
    if (i == n && *code >= least[n] && *code <= 0x10FFFF && (*code < 0xD800 || *code > 0xDFFF))
        return n;
    *code = NO_CHARACTER;
    return 1;
}

/* Whether a terminal would show it as something else than one character: controls, marks without a width. */
static int is_hidden(unsigned long code)
{
    static const unsigned long ranges[][2] = {
        {0x00, 0x1F},     {0x7F, 0x9F},     {0xAD, 0xAD},     {0x300, 0x36F},   {0x200B, 0x200F},
        {0x2028, 0x202E}, {0x2060, 0x206F}, {0xFE00, 0xFE0F}, {0xFEFF, 0xFEFF}, {0x110000, NO_CHARACTER},
    };
    size_t i;
    for (i = 0; i < sizeof ranges / sizeof *ranges; i++)
        if (ranges[i][0] <= code && code <= ranges[i][1])
            return 1;
    return 0;
}

/* Shows the first character of `s` in one column, and moves `s` past it. */
static void show_character(FILE *to, struct slice *s)
{
    unsigned long code;
    size_t n = character(*s, &code);
    if (code == '\t' || code == '\n')
        fputc(' ', to);
    else if (is_hidden(code))
        fputc('?', to);
    else
        fwrite(s->at, 1, n, to);
    s->at += n;
    s->length -= n;
}

static size_t characters(struct slice s)
{
    unsigned long code;
    size_t count = 0, n;
    for (; s.length > 0; count++) {
        n = character(s, &code);
        s.at += n;
        s.length -= n;
    }
    return count;
}

/* ---- lines */

static struct slice line_of(struct slice text, const char *at)
{
    const char *start = at, *end = at;
    while (start > text.at && start[-1] != '\n')
        start--;
    while (end < end_of(text) && *end != '\n')
        end++;
    if (end > at && end[-1] == '\r')
        end--;
    return between(start, end);
}

struct place place_of(struct slice text, const char *at)
{
    struct place p = {1, 1};
    const char *c;
    for (c = text.at; c < at; c++)
        if (*c == '\n')
            p.line++;
    p.column += characters(between(line_of(text, at).at, at));
    return p;
}

static void show_times(FILE *to, char c, size_t times)
{
    for (; times > 0; times--)
        fputc(c, to);
}

/* Characters `from` up to `end` of a line, with dots where it is cut. */
static void show_line(FILE *to, struct slice line, size_t from, size_t end)
{
    unsigned long code;
    size_t i, n;
    for (i = 0; i < from; i++) {
        n = character(line, &code);
        line.at += n;
        line.length -= n;
    }
    fputs(from > 0 ? "  ..." : "  ", to);
    for (; i < end; i++)
        show_character(to, &line);
    fputs(line.length > 0 ? "...\n" : "\n", to);
}

void show_marked(FILE *to, struct slice text, struct slice mark)
{
    struct slice line = line_of(text, mark.at);
    const char *end = end_of(mark) < end_of(line) ? end_of(mark) : end_of(line);
    size_t total = characters(line), before = characters(between(line.at, mark.at));
    size_t marked = end > mark.at ? characters(between(mark.at, end)) : 1;
    size_t from = 0, shown = total;
    if (total > SHOWN) {
        from = before > AHEAD ? before - AHEAD : 0;
        if (from + SHOWN > total)
            from = total - SHOWN;
        shown = from + SHOWN;
        if (before + marked > shown)
            marked = before < shown ? shown - before : 1;
    }
    show_line(to, line, from, shown);
    show_times(to, ' ', (from > 0 ? 5 : 2) + before - from);
    fputc('^', to);
    show_times(to, '~', marked - 1);
    fputc('\n', to);
}

void show_part(FILE *to, struct slice part)
{
    size_t i;
    for (i = 0; i < PART && part.length > 0; i++)
        show_character(to, &part);
    if (part.length > 0)
        fputs("...", to);
}
