/* The bill of one flat. */
#ifndef FLAT_H
#define FLAT_H

#include "wumbyra.h"

#include <stdio.h>

struct flat {
    const char *name;
    const char *fault; /* why there is no bill, where it is not the library that refuses; else NULL */
    uint64_t answer;   /* of the last call that was made */
    uint32_t litres[WUMBYRA_ACCOUNTS];
};

/* Bills a flat by its tape, or by its stored code if there is no tape, and writes its warnings. With `store` the code of a tape is stored.
 * 0 if that fails. */
int bill_flat(const char *folder, int store, struct flat *flat, FILE *warnings);

int is_billed(const struct flat *flat);

#endif
