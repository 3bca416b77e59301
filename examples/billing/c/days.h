/* What a pattern cannot say of days: how many there must be, and how many digits each has. */
#ifndef DAYS_H
#define DAYS_H

#include "fields.h"

#include <stdio.h>

/* Lines on what does not fit, each after the flat's name: a `D` is missing or too many, or digits are. */
void put_day_warnings(FILE *out, const char *name, const uint8_t *tape, size_t letters, const struct reading *reading);

#endif
