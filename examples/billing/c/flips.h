/* What one changed bit does to a stored code. */
#ifndef FLIPS_H
#define FLIPS_H

#include "stored.h"

/* Prints counts, over all bits of a stored code: what the library refuses, what it takes, and what the checksum finds. 0 if it is not a
 * code of its pattern. */
int print_flips(struct stored *stored);

#endif
