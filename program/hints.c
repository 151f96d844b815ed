#define _POSIX_C_SOURCE 200809L

#include "hints.h"

#include "repairs.h"
#include "show.h"

#include <string.h>

/* A part of a text, and what to say about it. To know more hints, add lines. */
struct known {
    const char *part;
    const char *words;
};

/* Bytes that come with what is pasted. */
static const struct known pasted[] = {
    {"\xFF\xFE", "the file is UTF-16; save it as plain text in UTF-8"},
    {"\xFE\xFF", "the file is UTF-16; save it as plain text in UTF-8"},
    {"\xEF\xBB\xBF", "a byte order mark stands here, which an editor adds unseen; save the file as UTF-8 without it"},
    {"\xC2\xA0", "a no-break space stands here; type a plain blank in its place"},
    {"\xE2\x80\xAF", "a no-break space stands here; type a plain blank in its place"},
    {"\xE2\x80\x8B", "a space without a width stands here, which cannot be seen; take it out"},
    {"\xE2\x80\x98", "a typographic quote stands here; the text is read without quotes"},
    {"\xE2\x80\x99", "a typographic quote stands here; the text is read without quotes"},
    {"\xE2\x80\x9A", "a typographic quote stands here; the text is read without quotes"},
    {"\xE2\x80\x9C", "a typographic quote stands here; the text is read without quotes"},
    {"\xE2\x80\x9D", "a typographic quote stands here; the text is read without quotes"},
    {"\xE2\x80\x9E", "a typographic quote stands here; the text is read without quotes"},
    {"\xC2\xAB", "a typographic quote stands here; the text is read without quotes"},
    {"\xC2\xBB", "a typographic quote stands here; the text is read without quotes"},
    {"\xE2\x88\x92", "a typographic minus stands here; type a plain - in its place"},
    {"\xE2\x80\x90", "a typographic hyphen stands here; type a plain - in its place"},
    {"\xE2\x80\x91", "a typographic hyphen stands here; type a plain - in its place"},
    {"\xE2\x80\x93", "a typographic dash stands here; type a plain - in its place"},
    {"\xE2\x80\x94", "a typographic dash stands here; type a plain - in its place"},
    {"\"", "the text is read without quotes; take them out"},
    {"'", "the text is read without quotes; take them out"},
    {"`", "the text is read without quotes; take them out"},
    {"/*", "comments are not taken; take it out"},
    {"<!--", "comments are not taken; take it out"},
};

/* Starts of what stands after the closing bracket. */
static const struct known behind[] = {
    {";", "the ; ends a line of CSS; only the gradient is read, so take it out"},
    {")", "there is one closing bracket too many"},
    {",", "one gradient is read, and not a list of them"},
};

/* Starts of functions' names. */
static const struct known functions[] = {
    {"repeating-conic-gradient", "conic gradients are not taken"},
    {"conic-gradient", "conic gradients are not taken"},
    {"-", "write the name without its prefix; directions there lacked the word to and named the side to start from"},
    {"url", "images by address are not taken"},
    {"image", "images are not taken"},
};

/* Words in items. */
static const struct known words_in_items[] = {
    {"calc(", "calc() is not taken yet; write the number that it comes to"},
    {"var(", "var() is not taken; write its value"},
    {"min(", "min() is not taken; write the number that it comes to"},
    {"max(", "max() is not taken; write the number that it comes to"},
    {"clamp(", "clamp() is not taken; write the number that it comes to"},
    {"hsl(", "hsl() is not taken; write the color as # and hex digits: #rrggbb, or #rrggbbaa with alpha"},
    {"hsla(", "hsla() is not taken; write the color as # and hex digits: #rrggbb, or #rrggbbaa with alpha"},
    {"hwb(", "hwb() is not taken; write the color as # and hex digits: #rrggbb, or #rrggbbaa with alpha"},
    {"lab(", "lab() is not taken; write the color as # and hex digits: #rrggbb, or #rrggbbaa with alpha"},
    {"lch(", "lch() is not taken; write the color as # and hex digits: #rrggbb, or #rrggbbaa with alpha"},
    {"color(", "color() is not taken; write the color as # and hex digits: #rrggbb, or #rrggbbaa with alpha"},
    {"currentcolor", "there is no page to take a color from; write the color"},
    {"ellipse", "ellipses are not taken yet; write circle"},
    {" in oklab", "only the mixing of CSS Images Level 3 is taken; leave the color space out"},
    {" in srgb", "only the mixing of CSS Images Level 3 is taken; leave the color space out"},
    {"from ", "conic gradients are not taken, and neither is from; an angle stands alone: 45deg"},
};

/* Units. */
static const struct known units[] = {
    {"em", ""},
    {"rem", ""},
    {"ex", ""},
    {"ch", ""},
    {"lh", ""},
    {"vw", ""},
    {"vh", ""},
    {"vmin", ""},
    {"vmax", ""},
    {"fr", ""},
    {"cm", "; 1cm is about 37.795px"},
    {"mm", "; 1mm is about 3.78px"},
    {"q", "; 1q is about 0.945px"},
    {"in", "; 1in is 96px"},
    {"pt", "; 3pt are 4px"},
    {"pc", "; 1pc is 16px"},
    {"rad", "; 1rad is about 57.25deg"},
    {"grad", "; 10grad are 9deg"},
    {"turn", "; 1turn is 360deg"},
};

/* Colors of CSS that have no name here, and how to write each. */
static const struct known colors[] = {
    {"beige", "#f5f5dc"},     {"brown", "#a52a2a"},     {"chocolate", "#d2691e"},  {"coral", "#ff7f50"},
    {"crimson", "#dc143c"},   {"cyan", "aqua"},         {"darkblue", "#00008b"},   {"darkcyan", "#008b8b"},
    {"darkgray", "#a9a9a9"},  {"darkgreen", "#006400"}, {"darkgrey", "#a9a9a9"},   {"darkorange", "#ff8c00"},
    {"darkred", "#8b0000"},   {"deeppink", "#ff1493"},  {"deepskyblue", "#00bfff"}, {"dimgray", "#696969"},
    {"dimgrey", "#696969"},   {"dodgerblue", "#1e90ff"}, {"firebrick", "#b22222"}, {"forestgreen", "#228b22"},
    {"gold", "#ffd700"},      {"grey", "gray"},         {"hotpink", "#ff69b4"},    {"indigo", "#4b0082"},
    {"ivory", "#fffff0"},     {"khaki", "#f0e68c"},     {"lavender", "#e6e6fa"},   {"lightblue", "#add8e6"},
    {"lightgray", "#d3d3d3"}, {"lightgreen", "#90ee90"}, {"lightgrey", "#d3d3d3"}, {"lightyellow", "#ffffe0"},
    {"limegreen", "#32cd32"}, {"magenta", "fuchsia"},   {"midnightblue", "#191970"}, {"mintcream", "#f5fffa"},
    {"orange", "#ffa500"},    {"orangered", "#ff4500"}, {"orchid", "#da70d6"},     {"pink", "#ffc0cb"},
    {"plum", "#dda0dd"},      {"rebeccapurple", "#663399"}, {"royalblue", "#4169e1"}, {"salmon", "#fa8072"},
    {"seagreen", "#2e8b57"},  {"sienna", "#a0522d"},    {"skyblue", "#87ceeb"},    {"slategray", "#708090"},
    {"slategrey", "#708090"}, {"snow", "#fffafa"},      {"steelblue", "#4682b4"},  {"tan", "#d2b48c"},
    {"tomato", "#ff6347"},    {"turquoise", "#40e0d0"}, {"violet", "#ee82ee"},     {"wheat", "#f5deb3"},
    {"whitesmoke", "#f5f5f5"},
};

#define COUNT(table) (sizeof(table) / sizeof *(table))

/* ---- tables */

static int say_hint(FILE *to, const char *words)
{
    fprintf(to, "Hint: %s.\n", words);
    return 1;
}

static int hint_of_part(FILE *to, struct slice part, const struct known *table, size_t count)
{
    size_t i;
    for (i = 0; i < count; i++)
        if (find(part, table[i].part) != NULL)
            return say_hint(to, table[i].words);
    return 0;
}

static int hint_of_start(FILE *to, struct slice part, const struct known *table, size_t count)
{
    size_t i;
    for (i = 0; i < count; i++)
        if (starts_with(part, table[i].part))
            return say_hint(to, table[i].words);
    return 0;
}

/* ---- rgb() */

/* Reads a number of at most three digits after its point, in thousandths, and moves `s` past it and what splits it
 * from the next one. */
static int take_number(struct slice *s, unsigned long *thousandths)
{
    unsigned long scale = 1000;
    size_t digits = 0;
    int is_after = 0;
    for (*thousandths = 0; s->length > 0 && (is_digit(s->at[0]) || (s->at[0] == '.' && !is_after)); s->at++, s->length--) {
        if (s->at[0] == '.') {
            is_after = 1;
            continue;
        }
        *thousandths = is_after ? *thousandths : *thousandths * 10;
        scale = is_after ? scale / 10 : scale;
        *thousandths += (unsigned long)(s->at[0] - '0') * scale;
        if (++digits > 6 || scale == 0)
            return 0;
    }
    while (s->length > 0 && (is_space(s->at[0]) || s->at[0] == ',' || s->at[0] == '/')) {
        s->at++;
        s->length--;
    }
    return digits > 0;
}

/* Prints rgb(r, g, b) or rgba(r, g, b, a) with hex digits, if its colors are whole numbers up to 255 and alpha is up
 * to 1. */
static int show_hex(FILE *to, struct slice numbers)
{
    unsigned long n[4];
    size_t count = 0, i;
    while (count < 4 && numbers.length > 0 && take_number(&numbers, &n[count]))
        count++;
    if (count < 3 || numbers.length > 0 || (count == 4 && n[3] > 1000))
        return 0;
    for (i = 0; i < 3; i++)
        if (n[i] % 1000 != 0 || n[i] > 255000)
            return 0;
    fprintf(to, "#%02lx%02lx%02lx", n[0] / 1000, n[1] / 1000, n[2] / 1000);
    if (count == 4)
        fprintf(to, "%02lx", (n[3] * 510 + 1000) / 2000);
    return 1;
}

static int hint_of_rgb(FILE *to, struct slice item)
{
    const char *start = find(item, "rgb"), *open, *close;
    struct slice rest;
    if (start == NULL)
        return 0;
    rest = between(start, end_of(item));
    open = find(rest, "(");
    close = find(rest, ")");
    if (open == NULL)
        return 0;
    fputs("Hint: rgb() is not taken; write the color as # and hex digits: ", to);
    if (close == NULL || close < open || !show_hex(to, trimmed(between(open + 1, close))))
        fputs("#rrggbb, or #rrggbbaa with alpha", to);
    fputs(".\n", to);
    return 1;
}

/* ---- words of an item */

static int hint_of_unit(FILE *to, struct slice word)
{
    size_t i;
    if (word.length == 0 || !is_in_number(word.at[0]))
        return 0;
    while (word.length > 0 && is_in_number(word.at[0])) {
        word.at++;
        word.length--;
    }
    for (i = 0; i < COUNT(units); i++)
        if (equals(word, units[i].part)) {
            fprintf(to, "Hint: %s is not taken: lengths are in px, percentages in %%, angles in deg%s.\n", units[i].part,
                    units[i].words);
            return 1;
        }
    return 0;
}

static int hint_of_color(FILE *to, struct slice word)
{
    size_t i;
    for (i = 0; i < COUNT(colors); i++)
        if (equals(word, colors[i].part)) {
            fprintf(to, "Hint: %s is not one of the names that are taken; %s is the same color.\n", colors[i].part,
                    colors[i].words);
            return 1;
        }
    return 0;
}

static int is_hex_digit(char c)
{
    return is_digit(c) || ('a' <= lower(c) && lower(c) <= 'f');
}

/* How many hex digits follow a #. */
static size_t hex_digits(struct slice word)
{
    size_t digits = 0;
    while (digits + 1 < word.length && is_hex_digit(word.at[digits + 1]))
        digits++;
    return digits;
}

static int hint_of_count(FILE *to, struct slice word)
{
    size_t digits = hex_digits(word);
    if (word.length == 0 || word.at[0] != '#' || digits + 1 < word.length)
        return 0;
    if (digits == 3 || digits == 4 || digits == 6 || digits == 8)
        return 0;
    fprintf(to, "Hint: %zu digits follow the #; 3, 4, 6 or 8 are taken: #rgb, #rgba, #rrggbb, #rrggbbaa.\n", digits);
    return 1;
}

static int hint_of_digit(FILE *to, struct slice word)
{
    size_t digits = hex_digits(word);
    if (word.length == 0 || word.at[0] != '#' || digits + 1 >= word.length)
        return 0;
    fputs("Hint: ", to);
    show_part(to, between(word.at + digits + 1, word.at + digits + 2));
    fputs(" is not a hex digit; 0 to 9 and a to f are.\n", to);
    return 1;
}

static int hint_of_words(FILE *to, struct slice item)
{
    struct slice word = first_word(item);
    while (word.length > 0) {
        if (hint_of_unit(to, word) || hint_of_color(to, word) || hint_of_count(to, word))
            return 1;
        item = rest_after(item, word);
        word = first_word(item);
    }
    return 0;
}

/* ---- all of them */

static int hint_of_surroundings(FILE *to, const struct outline *o, const struct fault *f)
{
    if (f->mark.at == o->before.at && ends_with(o->before, ":")) {
        fputs("Hint: ", to);
        show_part(to, o->before);
        fputs(" is the name of a property; only the gradient is read, so take it out.\n", to);
        return 1;
    }
    if (f->mark.at == o->after.at)
        return hint_of_start(to, o->after, behind, COUNT(behind));
    return f->mark.at == o->name.at && hint_of_start(to, o->name, functions, COUNT(functions));
}

int give_hint(FILE *to, const struct outline *o, const struct fault *f)
{
    if (f->reply != AVAREZHU_MALFORMED)
        return 0;
    if (hint_of_start(to, o->text, pasted, 3) || hint_of_part(to, f->item, pasted, COUNT(pasted)))
        return 1;
    if (o->text.length > 0 && memchr(o->text.at, '\0', o->text.length) != NULL)
        return say_hint(to, "bytes of value 0 stand in the text; save it as plain text in UTF-8");
    if (f->index == NO_ITEM)
        return hint_of_surroundings(to, o, f) || give_repair(to, o, f);
    return hint_of_part(to, f->item, words_in_items, COUNT(words_in_items)) || hint_of_rgb(to, f->item) ||
           hint_of_words(to, f->item) || give_repair(to, o, f) || hint_of_digit(to, first_word(f->item));
}
