#define _POSIX_C_SOURCE 200809L

#include "repairs.h"

#include "show.h"

#include <string.h>

/* ---- an item made anew */

/* Prints the hint if the library takes the item made anew in the place of the old one. */
static int offer(FILE *to, const struct outline *o, const struct fault *f, const char *words, const struct draft *d)
{
    if (!is_understood(reply_at(o, f->index, drafted(d))))
        return 0;
    fprintf(to, "Hint: %s: ", words);
    show_part(to, drafted(d));
    fputc('\n', to);
    return 1;
}

/* `insert` in the place of the bytes from `from` up to `end`. */
static int offer_insert(FILE *to, const struct outline *o, const struct fault *f, const char *words, const char *from,
                        const char *end, const char *insert)
{
    struct draft d = {{0}, 0};
    add(&d, between(f->item.at, from));
    add_string(&d, insert);
    add(&d, between(end, end_of(f->item)));
    return offer(to, o, f, words, &d);
}

/* `insert` in the place of each run of white space in turn. */
static int offer_at_blanks(FILE *to, const struct outline *o, const struct fault *f, const char *words, const char *insert)
{
    const char *at, *end;
    for (at = f->item.at; at < end_of(f->item); at = end + 1) {
        for (end = at; end < end_of(f->item) && is_space(*end); end++)
            ;
        if (end > at && offer_insert(to, o, f, words, at, end, insert))
            return 1;
    }
    return 0;
}

static int offer_before(FILE *to, const struct outline *o, const struct fault *f, const char *words, const char *insert)
{
    return offer_insert(to, o, f, words, f->item.at, f->item.at, insert);
}

/* ---- commas and blanks */

/* Adds the words of `s`, with `insert` in the place of all white space between them. */
static void add_joined(struct draft *d, struct slice s, const char *insert)
{
    struct slice word = first_word(s);
    while (word.length > 0) {
        s = rest_after(s, word);
        add(d, word);
        add_string(d, s.length > 0 ? insert : "");
        word = first_word(s);
    }
}

static int comma_missing(FILE *to, const struct outline *o, const struct fault *f)
{
    struct draft d = {{0}, 0};
    if (offer_at_blanks(to, o, f, "a comma is missing", ", "))
        return 1;
    add_joined(&d, f->item, ", ");
    return offer(to, o, f, "commas are missing", &d);
}

static int other_comma(FILE *to, const struct outline *o, const struct fault *f)
{
    const char *at = find(f->item, ";");
    if (at == NULL)
        return 0;
    return offer_insert(to, o, f, "a comma splits two stops", at, at + 1, ",") ||
           offer_insert(to, o, f, "take the ; out", at, at + 1, "");
}

static int blank_too_many(FILE *to, const struct outline *o, const struct fault *f)
{
    return offer_at_blanks(to, o, f, "one blank is too many", "");
}

static int blank_missing(FILE *to, const struct outline *o, const struct fault *f)
{
    const char *at;
    for (at = f->item.at + 1; at < end_of(f->item); at++)
        if (offer_insert(to, o, f, "a blank is missing", at, at, " "))
            return 1;
    return 0;
}

/* ---- numbers and their units */

static int is_bare_number(struct slice word)
{
    size_t i;
    for (i = 0; i < word.length; i++)
        if (!is_in_number(word.at[i]))
            return 0;
    return word.length > 0;
}

/* Each bare number with each unit that is taken after it. */
static int unit_missing(FILE *to, const struct outline *o, const struct fault *f)
{
    static const char *const units[] = {"px", "%", "deg"};
    struct slice rest = f->item, word = first_word(rest);
    size_t i;
    int taken = 0;
    for (; word.length > 0; rest = rest_after(rest, word), word = first_word(rest))
        for (i = 0; i < 3 && is_bare_number(word); i++) {
            struct draft d = {{0}, 0};
            add(&d, between(f->item.at, end_of(word)));
            add_string(&d, units[i]);
            add(&d, between(end_of(word), end_of(f->item)));
            if (!is_understood(reply_at(o, f->index, drafted(&d))))
                continue;
            fputs(taken++ > 0 ? " or " : "Hint: a number has its unit with it: ", to);
            show_part(to, drafted(&d));
        }
    if (taken > 0)
        fputc('\n', to);
    return taken > 0;
}

/* A number cut after three digits behind its point. */
static int digits_too_many(FILE *to, const struct outline *o, const struct fault *f)
{
    const char *point, *end;
    for (point = f->item.at; point < end_of(f->item); point++) {
        for (end = point + 1; end < end_of(f->item) && is_digit(*end); end++)
            ;
        if (*point == '.' && end > point + 4 &&
            offer_insert(to, o, f, "at most three digits stand after a point", point + 4, end, ""))
            return 1;
    }
    return 0;
}

/* ---- stops */

static int number_sign_missing(FILE *to, const struct outline *o, const struct fault *f)
{
    return offer_before(to, o, f, "a # is missing", "#");
}

/* Two neighboring words swapped. */
static int order_wrong(FILE *to, const struct outline *o, const struct fault *f)
{
    struct slice rest = f->item, word = first_word(rest), next;
    for (; rest.length > 0; word = next) {
        struct draft d = {{0}, 0};
        rest = rest_after(rest, word);
        next = first_word(rest);
        add(&d, between(f->item.at, word.at));
        add(&d, next);
        add_string(&d, " ");
        add(&d, word);
        add(&d, between(end_of(next), end_of(f->item)));
        if (next.length > 0 && offer(to, o, f, "two words are in the wrong order", &d))
            return 1;
    }
    return 0;
}

static int two_positions(FILE *to, const struct outline *o, const struct fault *f)
{
    struct draft d = {{0}, 0};
    struct slice color = first_word(f->item), rest = rest_after(f->item, color), first = first_word(rest);
    add(&d, color);
    add_string(&d, " ");
    add(&d, first);
    add_string(&d, ", ");
    add(&d, color);
    add_string(&d, " ");
    add(&d, rest_after(rest, first));
    return offer(to, o, f, "a stop has one position; write two stops", &d);
}

static int color_missing(FILE *to, const struct outline *o, const struct fault *f)
{
    struct draft d = {{0}, 0};
    add_string(&d, "red ");
    add(&d, f->item);
    if (f->index == 0 || !is_understood(reply_as_stop(o, drafted(&d))))
        return 0;
    fputs("Hint: a position alone, a color hint, is not taken; every stop has a color.\n", to);
    return 1;
}

/* ---- directions and circles */

static int belongs_first(FILE *to, const struct outline *o, const struct fault *f)
{
    if (f->index == 0 || !is_understood(reply_at(o, 0, f->item)))
        return 0;
    fprintf(to, "Hint: %s stands before the first stop, and only there.\n", o->is_linear ? "a direction" : "a circle");
    return 1;
}

static int belongs_elsewhere(FILE *to, const struct outline *o, const struct fault *f)
{
    struct draft d = {{0}, 0};
    const char *repeating = starts_with(o->name, "repeating-") ? "repeating-" : "";
    const char *other = o->is_linear ? "radial-gradient" : "linear-gradient";
    add_string(&d, repeating);
    add_string(&d, other);
    add_string(&d, "(");
    add(&d, f->item);
    add_string(&d, ",red,red)");
    if (f->index != 0 || !is_understood(reply_to(drafted(&d))) || is_understood(reply_as_stop(o, f->item)))
        return 0;
    fputs("Hint: ", to);
    show_part(to, f->item);
    fprintf(to, " belongs to %s%s.\n", repeating, other);
    return 1;
}

static int to_missing(FILE *to, const struct outline *o, const struct fault *f)
{
    return offer_before(to, o, f, "the word to is missing", "to ");
}

static int circle_missing(FILE *to, const struct outline *o, const struct fault *f)
{
    return offer_before(to, o, f, "the word circle is missing", "circle ") ||
           offer_before(to, o, f, "ellipses are not taken yet; write circle, and a comma after it", "circle, ");
}

/* ---- spelling */

enum { LONGEST = 28 }; /* the letters of the longest word that is taken, and three more */

static const char *const words_taken[] = {
    "aqua", "black", "blue", "fuchsia", "gray", "green", "lime", "maroon", "navy", "olive", "purple", "red", "silver",
    "teal", "white", "yellow", "transparent", "to", "left", "right", "top", "bottom", "center", "circle", "at",
    "closest-side", "closest-corner", "farthest-side", "farthest-corner", "linear-gradient", "radial-gradient",
    "repeating-linear-gradient", "repeating-radial-gradient",
};

static size_t least(size_t a, size_t b)
{
    return a < b ? a : b;
}

/* How many letters have to be added, dropped, exchanged or swapped with their neighbor. */
static size_t distance(struct slice a, struct slice b)
{
    size_t d[LONGEST + 1][LONGEST + 1], i, j;
    if (a.length > LONGEST || b.length > LONGEST)
        return LONGEST;
    for (i = 0; i <= a.length; i++)
        for (j = 0; j <= b.length; j++) {
            int differ = i > 0 && j > 0 && lower(a.at[i - 1]) != b.at[j - 1];
            if (i == 0 || j == 0) {
                d[i][j] = i + j;
                continue;
            }
            d[i][j] = least(d[i - 1][j - 1] + (size_t)differ, least(d[i - 1][j], d[i][j - 1]) + 1);
            if (i > 1 && j > 1 && lower(a.at[i - 1]) == b.at[j - 2] && lower(a.at[i - 2]) == b.at[j - 1])
                d[i][j] = least(d[i][j], d[i - 2][j - 2] + 1);
        }
    return d[a.length][b.length];
}

/* The nearest word to `word` that is at most `most` letters away, taken at its place. */
static int spelled(FILE *to, const struct outline *o, const struct fault *f, struct slice word, size_t most)
{
    size_t i, far;
    for (far = 1; far <= most; far++)
        for (i = 0; i < sizeof words_taken / sizeof *words_taken; i++) {
            if (distance(word, slice_of(words_taken[i])) != far)
                continue;
            if (f->index == NO_ITEM ? reply_to_name(slice_of(words_taken[i])) != AVAREZHU_DONE
                                    : !offer_insert(to, o, f, "perhaps a word is misspelled", word.at, end_of(word), words_taken[i]))
                continue;
            if (f->index == NO_ITEM)
                fprintf(to, "Hint: perhaps the name is misspelled: %s\n", words_taken[i]);
            return 1;
        }
    return 0;
}

static int misspelled(FILE *to, const struct outline *o, const struct fault *f)
{
    struct slice rest = f->item, word = first_word(rest);
    while (word.length > 0) {
        if (spelled(to, o, f, word, word.length < 5 ? 1 : 2))
            return 1;
        rest = rest_after(rest, word);
        word = first_word(rest);
    }
    return 0;
}

/* ---- names */

/* Each run of white space before the name, and in what stands there, as a hyphen. */
static int hyphen_missing(FILE *to, const struct outline *o)
{
    struct draft d = {{0}, 0};
    add_joined(&d, between(o->before.at, end_of(o->name)), "-");
    if (reply_to_name(drafted(&d)) != AVAREZHU_DONE)
        return 0;
    fputs("Hint: a hyphen is missing: ", to);
    show_part(to, drafted(&d));
    fputc('\n', to);
    return 1;
}

static int name_wrong(FILE *to, const struct outline *o, const struct fault *f)
{
    if (o->before.length > 0 && f->mark.at == o->before.at)
        return hyphen_missing(to, o);
    return f->mark.length > 0 && f->mark.at == o->name.at && spelled(to, o, f, o->name, 3);
}

/* ---- all of them, the likelier first */

int give_repair(FILE *to, const struct outline *o, const struct fault *f)
{
    static int (*const repairs[])(FILE *, const struct outline *, const struct fault *) = {
        comma_missing, other_comma,   belongs_first,  color_missing,       order_wrong,     two_positions,  unit_missing,
        misspelled,    to_missing,    circle_missing, number_sign_missing, digits_too_many, blank_too_many, belongs_elsewhere,
        blank_missing,
    };
    size_t i;
    if (f->index == NO_ITEM)
        return name_wrong(to, o, f);
    for (i = 0; i < sizeof repairs / sizeof *repairs; i++)
        if (repairs[i](to, o, f))
            return 1;
    return 0;
}
