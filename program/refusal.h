/* What people are told when a text or a box is refused: where, what may stand there, and a hint. */
#ifndef REFUSAL_H
#define REFUSAL_H

#include "text.h"

#include <stdio.h>

/* `name` is what the text was read from. */
void explain_text(FILE *to, uint32_t reply, struct slice text, const char *name);

/* Width and height as they were given. */
void explain_box(FILE *to, uint32_t reply, const char *width, const char *height);

#endif
