/* Hints for what people really paste and mistype. */
#ifndef HINTS_H
#define HINTS_H

#include "fault.h"

#include <stdio.h>

/* Prints the first hint that fits a fault, as a line. 0 if none does. */
int give_hint(FILE *to, const struct outline *o, const struct fault *f);

#endif
