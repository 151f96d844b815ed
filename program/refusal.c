#define _POSIX_C_SOURCE 200809L

#include "refusal.h"

#include "fault.h"
#include "hints.h"
#include "show.h"

/* No value but the text is handed in. */
static const char *message(uint32_t reply)
{
    return reply == AVAREZHU_MALFORMED ? "The text is not in the grammar." : avarezhu_message(reply);
}

static void show_fault(FILE *to, const struct outline *o, const struct findings *f, const char *name)
{
    struct place p = place_of(o->whole, f->first.mark.at);
    fprintf(to, "%s, line %zu, column %zu: %s.\n", name, p.line, p.column, f->first.words);
    if (o->text.length > 0)
        show_marked(to, o->whole, f->first.mark);
    fprintf(to, "Here may stand: %s.\n", f->first.allowed);
    give_hint(to, o, &f->first);
    if (f->count == 2)
        fputs("One more part of the text is at fault.\n", to);
    else if (f->count > 2)
        fprintf(to, "%zu more parts of the text are at fault.\n", f->count - 1);
}

void explain_text(FILE *to, uint32_t reply, struct slice text, const char *name)
{
    static struct outline o;
    static struct findings f;
    fprintf(to, "REFUSED (%u): %s\n", (unsigned)reply, message(reply));
    if (reply == AVAREZHU_LONG_TEXT) {
        fprintf(to, "%s: up to %d bytes are read, white space included; leave out blanks and empty lines.\n", name,
                AVAREZHU_TEXT_MAX);
        return;
    }
    outline(&o, text);
    find_faults(&o, reply, &f);
    if (f.is_found)
        show_fault(to, &o, &f, name);
    else
        fprintf(to, "%s: no part of the text is refused by itself, only the whole of it.\n", name);
}

void explain_box(FILE *to, uint32_t reply, const char *width, const char *height)
{
    fprintf(to, "REFUSED (%u): %s\n", (unsigned)reply, message(reply));
    fprintf(to, "The box was to be %.40s by %.40s pixels.\n", width, height);
}
