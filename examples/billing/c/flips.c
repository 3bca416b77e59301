#include "flips.h"

#include "wumbyra.h"

#include <inttypes.h>
#include <stdio.h>
#include <string.h>

static uint64_t totals(const struct stored *stored, uint32_t litres[WUMBYRA_ACCOUNTS])
{
    return wumbyra_totals(stored->pattern, stored->pattern_size, stored->code, stored->code_size, stored->bits, litres,
                          WUMBYRA_ACCOUNTS);
}

static uint32_t checksum(const struct stored *stored)
{
    static struct file file;

    put_body(stored, &file);
    return crc32(file.bytes, file.size);
}

int print_flips(struct stored *stored)
{
    uint32_t right[WUMBYRA_ACCOUNTS], litres[WUMBYRA_ACCOUNTS];
    uint32_t bit, refused = 0, other = 0, same = 0, found = 0, sum = checksum(stored);

    if (wumbyra_number(totals(stored, right)) != WUMBYRA_OK)
        return 0;
    for (bit = 0; bit < stored->bits; bit++) {
        stored->code[bit / 8] ^= (uint8_t)(128 >> bit % 8);
        found += checksum(stored) != sum;
        if (wumbyra_number(totals(stored, litres)) != WUMBYRA_OK)
            refused++;
        else if (memcmp(litres, right, sizeof right) == 0)
            same++;
        else
            other++;
        stored->code[bit / 8] ^= (uint8_t)(128 >> bit % 8);
    }
    printf("bits flipped, one at a time\t%" PRIu32 "\n", stored->bits);
    printf("refused\t%" PRIu32 "\n", refused);
    printf("taken, with other litres\t%" PRIu32 "\n", other);
    printf("taken, with the same litres\t%" PRIu32 "\n", same);
    printf("found by the checksum\t%" PRIu32 "\n", found);
    return 1;
}
