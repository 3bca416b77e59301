/* Kind `d` of cases.h: a run of calls on a page desk. Program `vectors` makes these calls as C does, so every line of it is compared. */
#include "cases.h"
#include "wumbyra.h"

#include <string.h>

enum { SHOWN_LETTERS = 4 }; /* up to so many letters held the words are shown */
enum { ALL_DESK = WUMBYRA_DESK_BYTES + 1 }; /* of the array whose start is the desk */

static uint8_t text[MAX_TEXT], page[MAX_TAPE];
static size_t text_size;
static uint8_t desk[ALL_DESK], letters[ALL_LETTERS];
static uint64_t words[ALL_WORDS];

/* The line of a call: the answer, the desk's count and lengths, and digests of all letters and words; if the call was accepted, the letters
 * held, and of few their words. */
static void check_call(struct check *check, uint64_t answer)
{
    static struct line line;
    const uint32_t held = wumbyra_value(answer);
    put_answer(&line, wumbyra_number(answer), held);
    put_number(&line, desk[0]);
    put_shown(&line, desk + 1, WUMBYRA_DESK_BYTES - 1);
    put_number(&line, digest_bytes(DIGEST_START, letters, ALL_LETTERS));
    put_number(&line, digest_words(DIGEST_START, words, ALL_WORDS));
    if (wumbyra_number(answer) == WUMBYRA_OK && held <= WUMBYRA_MAX_LETTERS) {
        put_shown(&line, letters + WUMBYRA_MAX_LETTERS - held, held);
        if (held <= SHOWN_LETTERS)
            put_words(&line, words, WUMBYRA_WORDS(held));
    }
    if (desk[WUMBYRA_DESK_BYTES] != BYTE_BEFORE) /* past the desk: such a line is never expected */
        put_number(&line, desk[WUMBYRA_DESK_BYTES]);
    expect_line(check, &line);
}

static void open_desk(struct check *check, struct fields *fields)
{
    const size_t lent = take_cells(fields, ALL_WORDS);
    check_call(check, wumbyra_desk_open(text, text_size, desk, WUMBYRA_DESK_BYTES, words, lent));
}

static void put_page(struct check *check, struct fields *fields)
{
    const size_t size = take_bytes(fields, page, sizeof page);
    const size_t cells = take_cells(fields, ALL_LETTERS), lent = take_cells(fields, ALL_WORDS);
    check_call(check, wumbyra_desk_put(text, text_size, desk, WUMBYRA_DESK_BYTES, page, size, letters, cells, words, lent));
}

static void withdraw_page(struct check *check, struct fields *fields)
{
    const size_t cells = take_cells(fields, ALL_LETTERS);
    check_call(check, wumbyra_desk_withdraw(text, text_size, desk, WUMBYRA_DESK_BYTES, letters, cells));
}

/* Writes a desk, and letters from a cell on, as a caller might. */
static void write_desk(struct fields *fields)
{
    size_t at, size;
    desk[0] = (uint8_t)take_cells(fields, UINT8_MAX);
    take_bytes(fields, desk + 1, WUMBYRA_DESK_BYTES - 1);
    size = take_bytes(fields, page, sizeof page);
    at = take_cells(fields, ALL_LETTERS);
    memcpy(letters + at, page, size < ALL_LETTERS - at ? size : ALL_LETTERS - at);
}

/* Each step goes on with what the one before it left. The last two kinds of steps are no calls, and print nothing. */
static void run_step(struct check *check, struct fields *fields)
{
    switch (take_letter(fields)) {
    case 'o': open_desk(check, fields); break;
    case 'p': put_page(check, fields); break;
    case 'w': withdraw_page(check, fields); break;
    case 'h': write_desk(fields); break;
    case 't': text_size = take_bytes(fields, text, sizeof text); break;
    default: fields->bad = true; break;
    }
}

void run_desk(struct check *check, struct fields *fields)
{
    text_size = take_bytes(fields, text, sizeof text);
    memset(desk, BYTE_BEFORE, sizeof desk);
    memset(letters, BYTE_BEFORE, sizeof letters);
    set_words(words);
    while (*fields->rest != '\0' && !fields->bad)
        run_step(check, fields);
}
