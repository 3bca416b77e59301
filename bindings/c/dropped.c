/* Each call with its answer dropped, for which `test` counts the compiler's warnings. It is not linked. */
#include "wumbyra.h"

void drop(const uint8_t *in, uint8_t *out, uint64_t *words, uint32_t *litres);

void drop(const uint8_t *in, uint8_t *out, uint64_t *words, uint32_t *litres)
{
    wumbyra_load(in, 1);
    wumbyra_parse(in, 1, in, 1, words, 4, out, 25);
    wumbyra_locate(in, 1, in, 1);
    wumbyra_flatten(in, 1, in, 1, 8, out, 1);
    wumbyra_canonicalize(in, 1, in, 1, 8, out, 1, words, 4, out + 1, 25);
    wumbyra_span(in, 1, in, 1, in, 1, 8, 0, 0);
    wumbyra_total(in, 1, in, 1, 8, 0);
    wumbyra_totals(in, 1, in, 1, 8, litres, 1);
    wumbyra_term_totals(in, 1, in, 1, 8, 20240101, 20240101, 20240101, litres, 1);
    wumbyra_desk_open(in, 1, out, 31, words, 2);
    wumbyra_desk_put(in, 1, out, 31, in, 1, out + 31, 3600, words, 4);
    wumbyra_desk_withdraw(in, 1, out, 31, in, 3600);
}
