/* Hints that are found by repairing an item in one of the ways that it is often broken, and putting the
 * repaired item to the library. */
#ifndef REPAIRS_H
#define REPAIRS_H

#include "fault.h"

#include <stdio.h>

/* Prints the first repair that the library takes, as a line. 0 if it takes none. */
int give_repair(FILE *to, const struct outline *o, const struct fault *f);

#endif
