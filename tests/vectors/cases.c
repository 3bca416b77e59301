/* See cases.h. Program `vectors` calls the services on the table that a text loads as; a call from C loads the text itself. A text that
 * does not load gives the services a table of no lines, which all of them refuse with 2 and value 0 before they look at anything else. The
 * calls from C do the same, so the lines of such cases are compared like any others. */
#include "cases.h"
#include "wumbyra.h"

#include <inttypes.h>
#include <stdio.h>
#include <string.h>

static uint8_t text[MAX_TEXT], tape[MAX_TAPE], code[MAX_CODE];
static size_t text_size, tape_size, code_size;
static uint32_t bits; /* the code's count */

static uint64_t words[ALL_WORDS];
static uint8_t letters[ALL_LETTERS], written[ALL_BYTES];
static uint32_t litres[ALL_CELLS];
static struct line line;

static void take_text(struct fields *fields)
{
    text_size = take_bytes(fields, text, sizeof text);
}

static void take_tape(struct fields *fields)
{
    tape_size = take_bytes(fields, tape, sizeof tape);
}

static void take_code(struct fields *fields)
{
    code_size = take_bytes(fields, code, sizeof code);
    bits = take_number(fields);
}

void set_words(uint64_t *all)
{
    for (size_t i = 0; i < ALL_WORDS; i++)
        all[i] = WORD_BEFORE;
}

static void set_litres(void)
{
    for (size_t i = 0; i < ALL_CELLS; i++)
        litres[i] = CELL_BEFORE;
}

static void put_packed(uint64_t answer)
{
    put_answer(&line, wumbyra_number(answer), wumbyra_value(answer));
}

/* ---- loading */

/* C is told how many lines a table has, not what they say. So many lines are stepped over as are expected. */
void run_load(struct check *check, struct fields *fields)
{
    const char *expected;
    uint32_t lines;
    take_text(fields);
    put_packed(wumbyra_load(text, text_size));
    expected = expect_line(check, &line);
    if (sscanf(expected, "0\t%" SCNu32, &lines) == 1)
        pass_lines(check, lines);
}

/* ---- reading a tape */

enum { SHOWN_LETTERS = 8, SHOWN_WORDS = 20 }; /* up to so many letters the first words are shown */

/* The digest of the words lent, the code bytes lent, and one digest of all cells past those lent, which goes on from `past`. */
static void put_left(uint64_t past, size_t lent, size_t bytes)
{
    put_number(&line, digest_words(DIGEST_START, words, lent));
    put_shown(&line, written, bytes);
    past = digest_words(past, words + lent, ALL_WORDS - lent);
    put_number(&line, digest_bytes(past, written + bytes, ALL_BYTES - bytes));
}

void run_parse(struct check *check, struct fields *fields)
{
    size_t lent, bytes;
    take_text(fields);
    take_tape(fields);
    lent = take_cells(fields, ALL_WORDS);
    bytes = take_cells(fields, ALL_BYTES);
    set_words(words);
    memset(written, BYTE_BEFORE, sizeof written);
    put_packed(wumbyra_parse(text, text_size, tape, tape_size, words, lent, written, bytes));
    put_left(DIGEST_START, lent, bytes);
    if (tape_size <= SHOWN_LETTERS)
        put_words(&line, words, lent < SHOWN_WORDS ? lent : SHOWN_WORDS);
    expect_line(check, &line);
}

void run_locate(struct check *check, struct fields *fields)
{
    uint64_t answer;
    take_text(fields);
    take_tape(fields);
    answer = wumbyra_locate(text, text_size, tape, tape_size);
    if (wumbyra_number(answer) == WUMBYRA_OK) {
        put_answer(&line, WUMBYRA_OK, wumbyra_locate_reach(answer));
        put_number(&line, wumbyra_locate_resume(answer));
    } else {
        put_packed(answer);
    }
    expect_line(check, &line);
}

/* ---- codes */

enum { FIRST_TOTALS = 10 }; /* so many totals are shown at least, and all up to the last that is not 0 */

static size_t shown_totals(void)
{
    size_t count = WUMBYRA_ACCOUNTS;
    while (count > FIRST_TOTALS && litres[count - 1] == 0)
        count--;
    return count;
}

/* The totals. A cell past those lent that has changed is added: such a line is never expected. */
static void put_totals(size_t count)
{
    put_cells(&line, litres, count);
    for (size_t i = WUMBYRA_ACCOUNTS; i < ALL_CELLS; i++)
        if (litres[i] != CELL_BEFORE)
            put_number(&line, litres[i]);
}

static void check_flatten(struct check *check, size_t lent)
{
    memset(letters, BYTE_BEFORE, sizeof letters);
    put_packed(wumbyra_flatten(text, text_size, code, code_size, bits, letters, lent));
    put_number(&line, digest_bytes(DIGEST_START, letters, lent));
    put_number(&line, digest_bytes(DIGEST_START, letters + lent, ALL_LETTERS - lent));
    expect_line(check, &line);
}

/* One account by a call of its own. If it does not answer what the totals have, the line becomes one that is never expected. */
static void put_total(uint64_t totals, uint32_t account, uint32_t due)
{
    const uint64_t answer = wumbyra_total(text, text_size, code, code_size, bits, account);
    if (wumbyra_number(answer) == wumbyra_number(totals) && wumbyra_value(answer) == due)
        return;
    put_number(&line, account);
    put_number(&line, wumbyra_number(answer));
    put_number(&line, wumbyra_value(answer));
}

/* All totals, in as many cells as there are accounts, so that 20 does not occur: no service answers it. Each that is shown is asked for by
 * itself, too, and so is the first account that there is not. */
static void check_totals(struct check *check)
{
    uint64_t answer;
    size_t count;
    set_litres();
    answer = wumbyra_totals(text, text_size, code, code_size, bits, litres, WUMBYRA_ACCOUNTS);
    count = shown_totals();
    put_packed(answer);
    put_totals(count);
    for (uint32_t account = 0; account < count; account++)
        put_total(answer, account, litres[account]);
    put_total(answer, WUMBYRA_ACCOUNTS, 0);
    expect_line(check, &line);
}

/* The cells of letters past those lent have one digest with the words and bytes past those lent. */
static void check_canonicalize(struct check *check, size_t lent, size_t room, size_t bytes)
{
    memset(letters, BYTE_BEFORE, sizeof letters);
    set_words(words);
    memset(written, BYTE_BEFORE, sizeof written);
    put_packed(wumbyra_canonicalize(text, text_size, code, code_size, bits, letters, lent, words, room, written, bytes));
    put_number(&line, digest_bytes(DIGEST_START, letters, lent));
    put_left(digest_bytes(DIGEST_START, letters + lent, ALL_LETTERS - lent), room, bytes);
    expect_line(check, &line);
}

void run_code(struct check *check, struct fields *fields)
{
    size_t lent, room, bytes;
    take_text(fields);
    take_code(fields);
    lent = take_cells(fields, ALL_LETTERS);
    room = take_cells(fields, ALL_WORDS);
    bytes = take_cells(fields, ALL_BYTES);
    check_flatten(check, lent);
    check_totals(check);
    check_canonicalize(check, lent, room, bytes);
}

/* From C the value of a span has start and length, and the caller cuts the piece out of the tape. The service's value is 0, with start,
 * length and piece beside it, which a refusal leaves empty. */
void run_span(struct check *check, struct fields *fields)
{
    uint32_t node, visit, start = 0, length = 0;
    uint64_t answer;
    take_text(fields);
    take_tape(fields);
    take_code(fields);
    node = take_number(fields);
    visit = take_number(fields);
    answer = wumbyra_span(text, text_size, tape, tape_size, code, code_size, bits, node, visit);
    if (wumbyra_number(answer) == WUMBYRA_OK) {
        start = wumbyra_span_start(answer);
        length = wumbyra_span_length(answer);
        put_answer(&line, WUMBYRA_OK, 0);
    } else {
        put_packed(answer);
    }
    put_number(&line, start);
    put_number(&line, length);
    if (start + length <= tape_size) { /* otherwise the line ends here, and is never expected */
        put_number(&line, length);
        put_shown(&line, tape + start, length);
    }
    expect_line(check, &line);
}

/* The service takes year, month and day, a call from C one number. WUMBYRA_DATE makes 0 of a day that has no number, and that is no date
 * either. */
static uint32_t take_date(struct fields *fields)
{
    const uint32_t year = take_number(fields), month = take_number(fields), day = take_number(fields);
    return WUMBYRA_DATE(year, month, day);
}

void run_term(struct check *check, struct fields *fields)
{
    uint32_t start, first, last;
    take_text(fields);
    take_code(fields);
    start = take_date(fields);
    first = take_date(fields);
    last = take_date(fields);
    set_litres();
    put_packed(wumbyra_term_totals(text, text_size, code, code_size, bits, start, first, last, litres, WUMBYRA_ACCOUNTS));
    put_totals(shown_totals());
    expect_line(check, &line);
}

/* ---- totals in lent cells */

/* Program `vectors` makes these calls as C does, 20 included, and shows all cells. */
void run_litres(struct check *check, struct fields *fields)
{
    uint32_t start, first, last;
    size_t lent;
    take_text(fields);
    take_code(fields);
    lent = take_cells(fields, ALL_CELLS);
    start = take_number(fields);
    first = take_number(fields);
    last = take_number(fields);
    set_litres();
    put_packed(wumbyra_totals(text, text_size, code, code_size, bits, litres, lent));
    put_cells(&line, litres, ALL_CELLS);
    expect_line(check, &line);
    set_litres();
    put_packed(wumbyra_term_totals(text, text_size, code, code_size, bits, start, first, last, litres, lent));
    put_cells(&line, litres, ALL_CELLS);
    expect_line(check, &line);
}

/* ---- tables that no text gives */

/* After the text stand a line of the table, its account, and the kind of case that is run on this table. Codes have three lines, of
 * spelling, totals and settling; the other kinds have one. */
void pass_altered(struct check *check, struct fields *fields)
{
    char kind;
    take_text(fields);
    take_number(fields);
    take_number(fields);
    kind = take_letter(fields);
    if (strchr("pcstb", kind) == NULL)
        fields->bad = true;
    fields->rest = "";
    pass_lines(check, kind == 'c' ? 3 : 1);
}
