#define _POSIX_C_SOURCE 200809L

#include "fault.h"

#include <stdio.h>
#include <string.h>

/* ---- what may stand at each place */

static const char name_allowed[] =
    "linear-gradient, radial-gradient, repeating-linear-gradient or repeating-radial-gradient,\n"
    "  and at once its bracket: linear-gradient(red, blue)";
static const char nothing_allowed[] = "nothing but white space";
static const char direction_allowed[] =
    "to left, to right, to top or to bottom, a corner as to top right, or an angle as 45deg";
static const char circle_allowed[] =
    "circle, if wanted a size (a length, closest-side, closest-corner, farthest-side or farthest-corner),\n"
    "  and if wanted at and a position: circle 20px at 30% center";
static const char color_allowed[] =
    "a color: # and 3, 4, 6 or 8 hex digits, transparent, aqua, black, blue, fuchsia, gray, green,\n"
    "  lime, maroon, navy, olive, purple, red, silver, teal, white or yellow";
static const char position_allowed[] =
    "one number, with at most 3 digits after its point, and px or % at once: 40%, or nothing";
static const char stop_allowed[] = "a color and, after a blank, if wanted a position: red, #ff8000, blue 40%, white 12.5px";
static const char first_allowed[] =
    "a direction (to right, to top left, 45deg) or the first stop, a color and if wanted a position (red 40%)";
static const char stops_allowed[] = "two stops or more, split by commas: red, blue";
static const char angle_allowed[] = "-3600deg to 3600deg, in steps of a quarter degree: 45deg, 45.25deg, 45.5deg, 45.75deg";
static const char percentage_allowed[] = "-1000% to 1000%";
static const char length_allowed[] = "-8192px to 8192px; as the size of a circle, 0px to 8192px";
static const char sixteen_allowed[] = "16 stops, and no more";

/* ---- notes */

static struct fault *note(struct findings *f, uint32_t reply, struct slice mark, const char *allowed)
{
    static struct fault other;
    struct fault *place = &other;
    f->count++;
    if (!f->is_found && reply == f->reply) {
        f->is_found = 1;
        place = &f->first;
    }
    place->reply = reply;
    place->mark = mark;
    place->item = mark;
    place->index = NO_ITEM;
    place->words[0] = '\0';
    place->allowed = allowed;
    return place;
}

static void note_words(struct findings *f, struct slice mark, const char *words, const char *allowed)
{
    struct fault *n = note(f, AVAREZHU_MALFORMED, mark, allowed);
    snprintf(n->words, sizeof n->words, "%s", words);
}

static struct fault *note_in_item(struct findings *f, uint32_t reply, struct slice mark, const char *allowed,
                                  struct slice item, size_t index)
{
    struct fault *n = note(f, reply, mark, allowed);
    n->item = item;
    n->index = index;
    return n;
}

/* ---- numbers out of range */

/* The reply with 0 in the place of the number in `word`. */
static uint32_t reply_with_zero(const struct outline *o, size_t index, struct slice item, struct slice word)
{
    struct draft d = {{0}, 0};
    const char *unit = word.at;
    while (unit < end_of(word) && is_in_number(*unit))
        unit++;
    add(&d, between(item.at, word.at));
    add_string(&d, "0");
    add(&d, between(unit, end_of(item)));
    return reply_at(o, index, drafted(&d));
}

/* The number without which the item is taken; if no single one is, the item. */
static struct slice number_at_fault(const struct outline *o, size_t index, struct slice item)
{
    struct slice rest = item, word = first_word(rest);
    while (word.length > 0) {
        if (is_in_number(word.at[0]) && reply_with_zero(o, index, item, word) != AVAREZHU_OUT_OF_RANGE)
            return word;
        rest = rest_after(rest, word);
        word = first_word(rest);
    }
    return item;
}

static void note_range(const struct outline *o, struct findings *f, size_t index, struct slice item, const char *what)
{
    struct slice mark = number_at_fault(o, index, item);
    const char *allowed = ends_with(mark, "deg") ? angle_allowed
                          : ends_with(mark, "%") ? percentage_allowed
                                                 : length_allowed;
    struct fault *n = note_in_item(f, AVAREZHU_OUT_OF_RANGE, mark, allowed, item, index);
    snprintf(n->words, sizeof n->words, "a number in %s is out of its range", what);
}

/* ---- items */

enum kind { HEAD, STOP, EITHER };

static enum kind kind_of_first(const struct outline *o)
{
    struct slice item = trimmed(o->items[0]), word = first_word(item);
    if (is_understood(reply_as_stop(o, item)) || reply_as_stop(o, word) == AVAREZHU_DONE || starts_with(word, "#"))
        return STOP;
    if (is_understood(reply_at(o, 0, item)) || o->is_head_asked || equals(word, "to") ||
        (word.length > 0 && is_in_number(word.at[0])))
        return HEAD;
    return EITHER;
}

static int is_stop_with_red(const struct outline *o, struct slice rest)
{
    struct draft d = {{0}, 0};
    add_string(&d, "red ");
    add(&d, rest);
    return is_understood(reply_as_stop(o, drafted(&d)));
}

/* Marks the color or what follows it, if the other of the two is right. */
static void note_stop(const struct outline *o, struct findings *f, size_t index, struct slice item, const char *what)
{
    struct slice color = first_word(item), rest = rest_after(item, color);
    struct fault *n;
    if (rest.length > 0 && reply_as_stop(o, color) == AVAREZHU_DONE) {
        n = note_in_item(f, AVAREZHU_MALFORMED, rest, position_allowed, item, index);
        snprintf(n->words, sizeof n->words, "the position of %s is not taken", what);
    } else if (rest.length > 0 && is_stop_with_red(o, rest)) {
        n = note_in_item(f, AVAREZHU_MALFORMED, color, color_allowed, item, index);
        snprintf(n->words, sizeof n->words, "the color of %s is not taken", what);
    } else {
        n = note_in_item(f, AVAREZHU_MALFORMED, item, rest.length > 0 ? stop_allowed : color_allowed, item, index);
        snprintf(n->words, sizeof n->words, "%s is not taken", what);
    }
}

static void note_head(const struct outline *o, struct findings *f, struct slice item, enum kind kind)
{
    struct fault *n = note_in_item(f, AVAREZHU_MALFORMED, item,
                                   kind == EITHER ? first_allowed
                                   : o->is_linear ? direction_allowed
                                                  : circle_allowed,
                                   item, 0);
    snprintf(n->words, sizeof n->words, "%s",
             kind == EITHER ? "the first item is neither a direction nor a stop"
             : kind == STOP ? "no circle stands before the first stop"
             : o->is_linear ? "the direction is not taken"
                            : "the circle is not taken");
}

/* Notes what is wrong with item `index`, of which the first is a head if `heads` is 1. */
static void look_at(const struct outline *o, struct findings *f, size_t index, enum kind kind, size_t heads)
{
    struct slice item = trimmed(o->items[index]);
    uint32_t reply = reply_at(o, index, item);
    char what[64];
    snprintf(what, sizeof what, "stop %zu of %zu", index + 1 - heads, o->count - heads);
    if (kind == HEAD && index == 0)
        snprintf(what, sizeof what, o->is_linear ? "the direction" : "the circle");
    if (item.length == 0 && index + 1 < o->count)
        note_words(f, between(end_of(o->items[index]), end_of(o->items[index]) + 1), "nothing stands before this comma",
                   index == 0 ? first_allowed : stop_allowed);
    else if (item.length == 0)
        note_words(f, between(o->items[index].at - 1, o->items[index].at), "nothing stands after this comma", stop_allowed);
    else if (reply == AVAREZHU_OUT_OF_RANGE)
        note_range(o, f, index, item, what);
    else if (reply == AVAREZHU_MALFORMED && index == 0 && (kind != STOP || o->is_head_asked))
        note_head(o, f, item, kind);
    else if (reply == AVAREZHU_MALFORMED)
        note_stop(o, f, index, item, what);
}

static void look_at_items(const struct outline *o, struct findings *f)
{
    size_t i, found = f->count, heads;
    enum kind kind = kind_of_first(o);
    heads = kind == HEAD ? 1 : 0;
    if (o->count == 1 && trimmed(o->items[0]).length == 0) {
        note_words(f, between(o->open, o->open + 1), "nothing stands in the brackets", stops_allowed);
        return;
    }
    for (i = 0; i < o->count; i++)
        look_at(o, f, i, kind, heads);
    if (f->count == found && o->count - heads < 2)
        note_words(f, trimmed(o->items[0]), heads == 1 ? "fewer than two stops follow" : "this stop is the only one",
                   stops_allowed);
    if (f->count == found && f->reply == AVAREZHU_TOO_MANY_STOPS && o->count > AVAREZHU_STOPS_MAX + heads) {
        i = AVAREZHU_STOPS_MAX + heads;
        snprintf(note_in_item(f, f->reply, trimmed(o->items[i]), sixteen_allowed, trimmed(o->items[i]), i)->words,
                 sizeof f->first.words, "this is stop %zu of %zu", i + 1 - heads, o->count - heads);
    }
}

/* ---- the whole text */

static void look_around_name(const struct outline *o, struct findings *f)
{
    if (o->before.length > 0)
        note_words(f, o->before, "this stands before the function's name", nothing_allowed);
    if (!o->is_name_taken)
        note_words(f, o->name.length > 0 ? o->name : between(o->open, o->open + 1), "the function's name is not taken",
                   name_allowed);
    else if (o->gap.length > 0)
        note_words(f, o->gap, "white space stands between the function's name and its bracket", name_allowed);
}

void find_faults(const struct outline *o, uint32_t reply, struct findings *f)
{
    const char *end = end_of(o->text);
    memset(f, 0, sizeof *f);
    f->reply = reply;
    if (o->text.length == 0) {
        note_words(f, between(o->whole.at, o->whole.at), "the text is empty", name_allowed);
    } else if (o->open == NULL && o->is_name_taken) {
        note_words(f, between(end_of(o->name), end_of(o->name)), "the bracket ( after the function's name is missing",
                   name_allowed);
    } else if (o->open == NULL) {
        note_words(f, o->name, "this is not a function's name with its bracket", name_allowed);
    } else {
        look_around_name(o, f);
        if (o->is_name_taken)
            look_at_items(o, f);
        if (o->close == NULL)
            note_words(f, between(end, end), "the closing bracket is missing", "a bracket ) after the last stop");
        if (o->after.length > 0)
            note_words(f, o->after, "this stands after the closing bracket", nothing_allowed);
    }
}
