/* The header's sizes and its numbers of dates: they are constants, they fit each other, and the longest pattern text that it names
 * loads. It is C11. */
#include "wumbyra.h"

#include <assert.h>
#include <stdio.h>

static_assert(WUMBYRA_MAX_WORDS == 7202, "words of the longest tape");
static_assert(WUMBYRA_WORDS(0) == 2, "words of no letter");
static_assert(WUMBYRA_MAX_WRITTEN_CODE_BYTES == 61208, "bytes of the longest code that is written");
static_assert(WUMBYRA_MAX_WRITTEN_CODE_BYTES <= WUMBYRA_MAX_CODE_BYTES, "what is written can be handed in");
static_assert(WUMBYRA_BYTES_OF_BITS(WUMBYRA_MAX_CODE_BITS) == WUMBYRA_MAX_CODE_BYTES, "bits of the longest code");
static_assert(WUMBYRA_BYTES_OF_BITS(0) == 0 && WUMBYRA_BYTES_OF_BITS(1) == 1, "bytes of few bits");
static_assert(WUMBYRA_BYTES_OF_BITS(8) == 1 && WUMBYRA_BYTES_OF_BITS(9) == 2, "bytes of a byte's bits");
static_assert(WUMBYRA_BYTES_OF_BITS(UINT32_MAX) == 536870912, "bytes of as many bits as can be counted");
static_assert(WUMBYRA_MAX_LITRES == 9 * WUMBYRA_MAX_LETTERS, "nine litres a letter");
static_assert(WUMBYRA_ACCOUNTS == 201, "accounts 0 to 200");
static_assert(WUMBYRA_FIRST_LETTER == 33 && WUMBYRA_LAST_LETTER == 126, "letters");
static_assert(WUMBYRA_FIRST_HOT_LETTER == 161 && WUMBYRA_LAST_HOT_LETTER == 254, "letters of the hot side");
static_assert(WUMBYRA_DESK_BYTES == 31, "a count and 30 lengths");
static_assert(WUMBYRA_MAX_PAGES * WUMBYRA_MAX_PAGE_LETTERS == WUMBYRA_MAX_LETTERS, "all pages together are the longest tape");
static_assert(WUMBYRA_MAX_TEXT_BYTES < WUMBYRA_DECISIVE_TEXT_BYTES, "a text that loads is decided whole");

/* A number is that of one date: what would be another's is 0. */
static_assert(WUMBYRA_DATE(2024, 2, 29) == 20240229 && WUMBYRA_DATE(2099, 12, 31) == 20991231, "dates");
static_assert(WUMBYRA_DATE(2024, 0, 0) == 20240000 && WUMBYRA_DATE(0, 1, 1) == 101, "no dates, and no other number's");
static_assert(WUMBYRA_DATE(9999, 99, 99) == 99999999, "the greatest number");
static_assert(WUMBYRA_DATE(2024, 1, 100) == 0 && WUMBYRA_DATE(2024, 1, 129) == 0, "a day above 99 is no day of the next month");
static_assert(WUMBYRA_DATE(2024, 100, 1) == 0 && WUMBYRA_DATE(2024, 101, 1) == 0, "a month above 99 is no month of the next year");
static_assert(WUMBYRA_DATE(10000, 1, 1) == 0 && WUMBYRA_DATE(431520, 75, 25) == 0, "a year above 9999 is none, past 32 bits too");
static_assert(WUMBYRA_DATE(-1, 1, 1) == 0 && WUMBYRA_DATE(2024, -1, 1) == 0 && WUMBYRA_DATE(2024, 1, -1) == 0, "below 0 is none");
static_assert(WUMBYRA_DATE(2024, UINT64_C(0x100000001), 1) == 0 && WUMBYRA_DATE(2024, 1, INT64_MIN + 1) == 0, "64 bits are not cut");
static_assert(WUMBYRA_DATE(2000 + 24, 1 + 1, 30 - 1) == 20240229, "sums as parts of a date");
static_assert(sizeof WUMBYRA_DATE(2024, 2, 29) == sizeof(uint32_t), "a number of 32 bits");

/* 32 ranges, 31 sequences over them and a star over all: no 64 lines that load are longer. */
static size_t write_longest(char *text)
{
    char *end = text;
    unsigned place = 0, named = 0;
    for (; place < 32; place++)
        end += sprintf(end, "%u\tR\t%u\t0\t9\n", place, 100 + place);
    for (; place < WUMBYRA_MAX_LINES - 1; place++, named += 2)
        end += sprintf(end, "%u\tS\t100\t%u\t%u\n", place, named, named + 1);
    end += sprintf(end, "%u\tK\t200\t%u\n", place, named);
    return (size_t)(end - text);
}

int main(void)
{
    char text[WUMBYRA_MAX_TEXT_BYTES + 1];
    size_t size = write_longest(text);
    uint64_t answer = wumbyra_load((const uint8_t *)text, size);
    if (size != WUMBYRA_MAX_TEXT_BYTES || wumbyra_number(answer) != WUMBYRA_OK || wumbyra_value(answer) != WUMBYRA_MAX_LINES) {
        printf("the longest text has %zu bytes, and loading it gives %u with %u\n", size, wumbyra_number(answer), wumbyra_value(answer));
        return 1;
    }
    return 0;
}
