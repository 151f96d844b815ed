#define _POSIX_C_SOURCE 200809L

#include "outline.h"

#include <string.h>

/* ---- texts that are right but for one part */

static uint32_t reply_to_parts(struct slice name, const char *before, struct slice item, const char *after)
{
    struct draft d = {{0}, 0};
    add(&d, name);
    add_string(&d, before);
    add(&d, item);
    add_string(&d, after);
    return reply_to(drafted(&d));
}

uint32_t reply_at(const struct outline *o, size_t index, struct slice item)
{
    uint32_t reply = index == 0 ? reply_to_parts(o->name, "(", item, ",red,red)") : AVAREZHU_LONG_TEXT;
    return reply == AVAREZHU_LONG_TEXT ? reply_as_stop(o, item) : reply;
}

uint32_t reply_as_stop(const struct outline *o, struct slice item)
{
    return reply_to_parts(o->name, o->is_head_asked ? "(circle,red," : "(red,", item, ")");
}

static uint32_t reply_with_body(struct slice name, const char *body)
{
    return reply_to_parts(name, "(", slice_of(body), ")");
}

uint32_t reply_to_name(struct slice name)
{
    uint32_t reply = reply_with_body(name, "to top,red,red");
    return reply == AVAREZHU_DONE ? reply : reply_with_body(name, "circle,red,red");
}

/* ---- brackets and commas */

/* Notes the items that start after the bracket, up to the bracket that closes it or the end. */
static void split(struct outline *o)
{
    const char *at, *start = o->open + 1, *end = end_of(o->text);
    size_t depth = 0;
    for (at = start; at < end && (depth > 0 || *at != ')'); at++) {
        if (*at == '(')
            depth++;
        else if (*at == ')')
            depth--;
        else if (*at == ',' && depth == 0) {
            o->items[o->count++] = between(start, at);
            start = at + 1;
        }
    }
    o->items[o->count++] = between(start, at);
    o->close = at < end ? at : NULL;
    o->after = at < end ? trimmed(between(at + 1, end)) : between(end, end);
}

static int is_in_name(char c)
{
    return is_letter(c) || is_digit(c) || c == '-' || c == '_';
}

/* The name that a text without a bracket starts with, or its first word. */
static struct slice bare_name(struct slice text)
{
    const char *end = text.at;
    while (end < end_of(text) && is_in_name(*end))
        end++;
    return end > text.at ? between(text.at, end) : first_word(text);
}

/* Finds the name before `end`, and what stands before it. */
static void find_name(struct outline *o, const char *end)
{
    struct slice front = trimmed(between(o->text.at, end));
    const char *start = end_of(front);
    while (start > front.at && is_in_name(start[-1]))
        start--;
    o->name = between(start, end_of(front));
    o->gap = between(end_of(front), end);
    o->before = trimmed(between(front.at, start));
}

void outline(struct outline *o, struct slice text)
{
    memset(o, 0, sizeof *o);
    o->whole = text;
    o->text = trimmed(text);
    o->open = o->text.length > 0 ? memchr(o->text.at, '(', o->text.length) : NULL;
    o->after = between(end_of(o->text), end_of(o->text));
    if (o->open == NULL) {
        o->before = o->after;
        o->name = bare_name(o->text);
        o->gap = o->after;
    } else {
        find_name(o, o->open);
        split(o);
    }
    o->is_name_taken = reply_to_name(o->name) == AVAREZHU_DONE;
    o->is_linear = reply_with_body(o->name, "to top,red,red") == AVAREZHU_DONE;
    o->is_head_asked = reply_with_body(o->name, "red,red") != AVAREZHU_DONE;
}
