#include "days.h"

#include <inttypes.h>

/* The date after a date that the library takes. */
static uint32_t next_day(uint32_t date)
{
    static const uint8_t days[] = {31, 28, 31, 30, 31, 30, 31, 31, 30, 31, 30, 31};
    uint32_t year = date / 10000, month = date / 100 % 100, day = date % 100;
    uint32_t last = days[month - 1] + (month == 2 && year % 4 == 0 ? 1u : 0u);

    if (day < last)
        return date + 1;
    return month < 12 ? year * 10000 + (month + 1) * 100 + 1 : (year + 1) * 10000 + 101;
}

void put_day_warnings(FILE *out, const char *name, const uint8_t *tape, size_t letters, const struct reading *reading)
{
    uint32_t date = reading->start, digits = 0, due = reading->digits;
    size_t i;

    for (i = 0; i < letters; i++) {
        digits += tape[i] >= '0' && tape[i] <= '9';
        if (tape[i] != 'D')
            continue;
        if (due > 0 && digits != due)
            fprintf(out, "%s\t%08" PRIu32 " has %" PRIu32 " digits, not %" PRIu32 "\n", name, date, digits, due);
        date = next_day(date);
        digits = 0;
    }
    /* no `D` has ended the last day */
    if (due > 0 && digits > due)
        fprintf(out, "%s\t%08" PRIu32 " has %" PRIu32 " digits so far, over %" PRIu32 "\n", name, date, digits, due);
    if (date != reading->read)
        fprintf(out, "%s\tits days lead to %08" PRIu32 ", but it was read on %08" PRIu32 "\n", name, date, reading->read);
}
