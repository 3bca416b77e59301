/* guard CALLS SEED [CASE]: calls the library from four threads, on drawn patterns, tapes and codes, whole and damaged, and compares its
 * answers with what was drawn and with each other. With CASE, that case alone. What calls.h guards is guarded in every call. */
#include "calls.h"

#include <inttypes.h>
#include <pthread.h>
#include <stdio.h>
#include <stdlib.h>
#include <string.h>

enum { THREADS = 4 };

/* A case as far as it is known. */
struct scene {
    struct caller caller;
    struct pattern pattern;
    struct parse parse;
    bool whole_text, whole_code; /* as drawn, without damage */
    bool gap_code; /* as drawn, but for a byte that is no letter in the place of one */
    bool loads;
    uint32_t refusal; /* what the code is refused with, or 0 */
    uint8_t code[CODE_ROOM], tape[LETTER_ROOM];
    uint32_t letters; /* that the code spells */
    uint32_t bits; /* of the parse of the tape */
    uint8_t parsed[WUMBYRA_MAX_WRITTEN_CODE_BYTES];
    uint64_t words[WUMBYRA_MAX_WORDS];
    struct kept kept; /* of the page desk */
    uint32_t pages, page[WUMBYRA_MAX_PAGES]; /* what a stack of pages would hold: letters of each */
    uint8_t joined[LETTER_ROOM]; /* and all letters, against the end of the first WUMBYRA_MAX_LETTERS */
};

/* Whether a parse got as far as its words. */
static bool is_read(uint32_t number)
{
    return number == WUMBYRA_OK || number == WUMBYRA_UNREADABLE || number == WUMBYRA_CODE_TOO_SHORT;
}

static size_t smaller(struct source *source, size_t than)
{
    return draw(source, (uint32_t)than);
}

/* ---- pattern and code */

/* Puts a byte that is no letter into a letter's field: that line has not the form of a line, and no other line is at fault. */
static void try_spoiled_letter(struct scene *s)
{
    struct caller *c = &s->caller;
    uint8_t *letter = &s->pattern.text[s->pattern.letter_at];
    const uint8_t before = *letter;
    *letter = draw_no_letter(&c->source);
    hand(c, &c->text, s->pattern.text, s->pattern.size);
    expect_answer(c, call_load(c), WUMBYRA_LINE_FORM, s->pattern.lettered, "load: a field that is no letter");
    *letter = before;
}

/* The same with a field that is no account. */
static void try_spoiled_account(struct scene *s)
{
    struct caller *c = &s->caller;
    const uint32_t line = draw(&c->source, s->pattern.count);
    write_text(&s->pattern, line, draw_no_account(&c->source));
    hand(c, &c->text, s->pattern.text, s->pattern.size);
    expect_answer(c, call_load(c), WUMBYRA_LINE_FORM, line, "load: a field that is no account");
    write_text(&s->pattern, WUMBYRA_MAX_LINES, NULL);
}

static void try_text(struct scene *s)
{
    struct caller *c = &s->caller;
    struct answer answer;
    if (chance(&c->source, 4))
        try_spoiled_account(s);
    if (s->pattern.lettered < WUMBYRA_MAX_LINES && chance(&c->source, 8))
        try_spoiled_letter(s);
    s->whole_text = !chance(&c->source, 8);
    while (!s->whole_text && s->pattern.size < TEXT_ROOM) {
        s->pattern.size = damage(&c->source, s->pattern.text, s->pattern.size, TEXT_ROOM);
        if (!chance(&c->source, 3))
            break;
    }
    hand(c, &c->text, s->pattern.text, s->pattern.size);
    answer = call_load(c);
    s->loads = answer.number == WUMBYRA_OK;
    expect(c, answer.value <= WUMBYRA_MAX_LINES, "load: a line or the line count");
    expect(c, !s->loads || s->pattern.size <= WUMBYRA_MAX_TEXT_BYTES, "load: no longer text loads");
    if (s->whole_text)
        expect_answer(c, answer, WUMBYRA_OK, s->pattern.count, "load: the line count");
}

/* Rounds by tens and thousands; where every leaf is empty, about as many as make the longest code. */
static void draw_code(struct scene *s, bool endless)
{
    static const uint32_t rounds[] = {0, 2, 5, 20, 100, 400, 4000};
    struct caller *c = &s->caller;
    const uint32_t some = rounds[draw(&c->source, 7)];
    const uint32_t on = 1 + draw(&c->source, some == 4000 ? 4000 : 60);
    size_t size;
    if (endless)
        draw_parse(&c->source, &s->pattern, &s->parse, WUMBYRA_MAX_CODE_BITS - 8 + draw(&c->source, 16), UINT32_MAX - 1);
    else
        draw_parse(&c->source, &s->pattern, &s->parse, some, on);
    size = WUMBYRA_BYTES_OF_BITS(s->parse.bits);
    memcpy(s->code, s->parse.code, size);
    c->count = s->parse.bits;
    s->gap_code = s->parse.across < BIT_ROOM && chance(&c->source, 3);
    s->whole_code = !s->gap_code && !chance(&c->source, 4);
    if (s->gap_code)
        put_byte_at(s->code, s->parse.across, draw_no_letter(&c->source));
    else if (!s->whole_code && chance(&c->source, 2))
        size = damage(&c->source, s->code, size, CODE_ROOM);
    else if (!s->whole_code)
        c->count = chance(&c->source, 4) ? draw(&c->source, UINT32_MAX) : c->count + draw(&c->source, 17) - 8;
    hand(c, &c->code, s->code, size);
}

/* What a code is refused with, as far as that follows from how it was drawn. */
static void expect_refusal(const struct scene *s, const char *what)
{
    uint32_t due = s->refusal;
    if (!s->loads)
        due = WUMBYRA_TREE;
    else if (s->caller.code.size > WUMBYRA_MAX_CODE_BYTES || s->caller.code.size != WUMBYRA_BYTES_OF_BITS(s->caller.count))
        due = WUMBYRA_NOT_A_CODE;
    else if (s->whole_text && s->gap_code)
        due = WUMBYRA_NOT_A_CODE;
    else if (s->whole_text && s->whole_code)
        due = s->parse.count > WUMBYRA_MAX_LETTERS ? WUMBYRA_TAPE_TOO_LONG : WUMBYRA_OK;
    expect(&s->caller, s->refusal == due, what);
}

static void try_flatten(struct scene *s)
{
    struct caller *c = &s->caller;
    struct answer answer = call_flatten(c, WUMBYRA_MAX_LETTERS);
    s->refusal = answer.number;
    s->letters = answer.number == WUMBYRA_OK ? answer.value : 0;
    expect(c, answer.number == WUMBYRA_OK || answer.value == 0, "flatten: no value");
    expect_refusal(s, "flatten: the refusal is due");
    if (s->refusal != WUMBYRA_OK)
        return;
    memcpy(s->tape, c->letters.at, s->letters);
    if (s->whole_text && s->whole_code)
        expect(c, s->letters == s->parse.count && memcmp(s->tape, s->parse.letters, s->letters) == 0, "flatten: the letters");
    expect_answer(c, call_flatten(c, s->letters), WUMBYRA_OK, s->letters, "flatten: as many cells as letters");
    expect(c, memcmp(s->tape, c->letters.at, s->letters) == 0, "flatten: the same again");
    if (s->letters > 0)
        expect_answer(c, call_flatten(c, smaller(&c->source, s->letters)), WUMBYRA_TAPE_TOO_SHORT, s->letters, "flatten: fewer cells");
}

/* So many cells that every account with litres has one, and no fewer. */
static size_t cells_needed(const uint32_t *litres)
{
    size_t cells = WUMBYRA_ACCOUNTS;
    while (cells > 0 && litres[cells - 1] == 0)
        cells--;
    return cells;
}

/* Cells for totals: a few, as many as a caller has that knows ten accounts, as many as these litres need or one fewer, or any number up
 * to one more than there are accounts. */
static size_t draw_cells(struct source *source, const uint32_t *litres)
{
    const size_t needed = cells_needed(litres);
    switch (draw(source, 6)) {
    case 0: return draw(source, 20);
    case 1: return 10;
    case 2: return WUMBYRA_ACCOUNTS - 1 + draw(source, 3);
    case 3: return needed;
    case 4: return needed > 0 ? needed - 1 : 0;
    default: return draw(source, WUMBYRA_ACCOUNTS + 2);
    }
}

/* An account of the pattern, one that is there or the first that is not, and numbers whose lowest bits are an account's. */
static uint32_t draw_asked(struct scene *s)
{
    struct source *source = &s->caller.source;
    const uint32_t some = s->pattern.node[draw(source, s->pattern.count)].account;
    switch (draw(source, 8)) {
    case 0: return draw(source, UINT32_MAX);
    case 1: return some + (1u << (8 + draw(source, 24)));
    case 2:
    case 3: return draw(source, WUMBYRA_ACCOUNTS + 2);
    default: return some;
    }
}

/* What totals in so many cells are refused with, if all of them are refused with `refusal`: litres without a cell come last. */
static uint32_t cells_refusal(uint32_t refusal, const uint32_t *litres, size_t cells)
{
    return refusal == WUMBYRA_OK && cells < cells_needed(litres) ? WUMBYRA_CELLS_TOO_FEW : refusal;
}

/* What the cells hold then: the first of all totals. That they are 0 beside a refusal, call_totals has seen to. */
static void expect_first(const struct caller *c, uint32_t refusal, const uint32_t *litres, size_t cells, const char *what)
{
    if (refusal == WUMBYRA_OK)
        expect(c, memcmp(litres, c->litres.at, (cells < WUMBYRA_ACCOUNTS ? cells : WUMBYRA_ACCOUNTS) * sizeof *litres) == 0, what);
}

static void try_totals(struct scene *s)
{
    struct caller *c = &s->caller;
    uint32_t litres[WUMBYRA_ACCOUNTS], sum = 0, account, refusal;
    size_t cells;
    expect_answer(c, call_totals(c, WUMBYRA_ACCOUNTS), s->refusal, 0, "totals: refused as flatten is");
    memcpy(litres, c->litres.at, sizeof litres);
    for (size_t i = 0; i < s->letters; i++)
        sum += litres_of(s->tape[i]);
    for (size_t i = 0; i < WUMBYRA_ACCOUNTS; i++)
        sum -= litres[i];
    expect(c, sum == 0, "totals: they add up to the digits");
    if (s->whole_text && s->whole_code && s->refusal == WUMBYRA_OK)
        expect(c, memcmp(litres, s->parse.litres, sizeof litres) == 0, "totals: litres by account");
    cells = draw_cells(&c->source, litres);
    refusal = cells_refusal(s->refusal, litres, cells);
    expect_answer(c, call_totals(c, cells), refusal, 0, "totals: any number of cells");
    expect_first(c, refusal, litres, cells, "totals: the first of them");
    account = draw_asked(s);
    expect_answer(c, call_total(c, account), s->refusal, account < WUMBYRA_ACCOUNTS ? litres[account] : 0, "total: one of the totals");
}

/* ---- terms */

/* Days that end on the tape. */
static uint32_t ended_days(const struct scene *s)
{
    uint32_t days = 0;
    for (uint32_t i = 0; i < s->letters; i++)
        days += days_of(s->tape[i]);
    return days;
}

/* What the call on these dates is answered: days are counted along the tape. */
static uint32_t term_refusal(const struct scene *s)
{
    const struct caller *c = &s->caller;
    uint32_t day = day_of(c->start);
    if (s->refusal != WUMBYRA_OK)
        return s->refusal;
    for (uint32_t i = 0; day < DAYS && i + 1 < s->letters; i++)
        day += days_of(s->tape[i]);
    if (day >= DAYS)
        return WUMBYRA_TAPE_UNDATED;
    if (day_of(c->first) == DAYS || day_of(c->last) == DAYS || day_of(c->last) < day_of(c->first))
        return WUMBYRA_NOT_A_TERM;
    return WUMBYRA_OK;
}

/* Litres of the letters in the term, by the accounts that the parse was drawn with, or all to account 0 where they are not known. */
static void count_term(const struct scene *s, bool known, uint32_t *litres)
{
    const uint32_t first = day_of(s->caller.first), last = day_of(s->caller.last);
    uint32_t day = day_of(s->caller.start);
    memset(litres, 0, WUMBYRA_ACCOUNTS * sizeof *litres);
    for (uint32_t i = 0; i < s->letters; i++) {
        if (day >= first && day <= last)
            litres[known ? s->parse.accounts[i] : 0] += litres_of(s->tape[i]);
        day += days_of(s->tape[i]);
    }
}

/* Totals the litres of the term, and compares them with those of the letters. */
static void expect_term(struct scene *s, uint32_t *litres)
{
    struct caller *c = &s->caller;
    const bool known = s->whole_text && s->whole_code;
    const uint32_t refusal = term_refusal(s);
    uint32_t due[WUMBYRA_ACCOUNTS], sum = 0;
    expect_answer(c, call_term_totals(c, WUMBYRA_ACCOUNTS), refusal, 0, "term totals: the refusal is due");
    memcpy(litres, c->litres.at, sizeof due);
    if (refusal != WUMBYRA_OK)
        return;
    count_term(s, known, due);
    if (known)
        expect(c, memcmp(litres, due, sizeof due) == 0, "term totals: litres by account");
    for (size_t i = 0; i < WUMBYRA_ACCOUNTS; i++)
        sum += due[i] - litres[i];
    expect(c, sum == 0, "term totals: they add up to the digits of the term");
}

/* Two terms that part the days of the tape: their totals add up to those of the whole tape. */
static void try_parting(struct scene *s)
{
    struct caller *c = &s->caller;
    const uint32_t start = day_of(c->start), begin = start - draw(&c->source, start < 3 ? start + 1 : 3);
    const uint32_t end = start + ended_days(s);
    uint32_t whole[WUMBYRA_ACCOUNTS], one[WUMBYRA_ACCOUNTS], two[WUMBYRA_ACCOUNTS], cut;
    if (end >= DAYS - 1)
        return;
    cut = begin + draw(&c->source, end + 1 - begin);
    (void)call_totals(c, WUMBYRA_ACCOUNTS);
    memcpy(whole, c->litres.at, sizeof whole);
    c->first = date_of(begin);
    c->last = date_of(cut);
    expect_term(s, one);
    c->first = date_of(cut + 1);
    c->last = date_of(end + 1);
    expect_term(s, two);
    for (size_t i = 0; i < WUMBYRA_ACCOUNTS; i++)
        expect(c, one[i] + two[i] == whole[i], "term totals: terms that part the tape add up to its totals");
}

/* The date of a day, or the last there is. */
static uint32_t date_up_to(uint32_t day)
{
    return date_of(day < DAYS ? day : DAYS - 1);
}

/* A start, mostly so that the tape ends in time; a term near it or elsewhere; and now and then what is no date. */
static void draw_dates(struct scene *s)
{
    struct caller *c = &s->caller;
    const uint32_t days = ended_days(s);
    uint32_t start = draw_day(&c->source), first, last;
    if (start + days >= DAYS && !chance(&c->source, 3))
        start = DAYS - 1 - days + draw(&c->source, 3); /* so that the last letters are about 31 December 2099 */
    if (days > 0 && days_of(s->tape[s->letters - 1]) == 1 && chance(&c->source, 4))
        start = DAYS - days; /* so that the tape's last letter, a `D`, ends 2099 */
    first = chance(&c->source, 4) ? draw_day(&c->source) : start + draw(&c->source, days + 3) - (start > 0);
    last = first + draw(&c->source, chance(&c->source, 4) ? DAYS : days + 3);
    if (chance(&c->source, 8))
        last = draw_day(&c->source);
    c->start = chance(&c->source, 12) ? draw_no_date(&c->source) : date_up_to(start);
    c->first = chance(&c->source, 12) ? draw_no_date(&c->source) : date_up_to(first);
    c->last = chance(&c->source, 12) ? draw_no_date(&c->source) : date_up_to(last);
}

static void try_terms(struct scene *s)
{
    struct caller *c = &s->caller;
    uint32_t litres[WUMBYRA_ACCOUNTS], refusal;
    size_t cells;
    draw_dates(s);
    expect_term(s, litres);
    cells = draw_cells(&c->source, litres);
    refusal = cells_refusal(term_refusal(s), litres, cells);
    expect_answer(c, call_term_totals(c, cells), refusal, 0, "term totals: any number of cells");
    expect_first(c, refusal, litres, cells, "term totals: the first of them");
    if (s->refusal == WUMBYRA_OK && day_of(c->start) < DAYS)
        try_parting(s);
}

/* ---- tapes */

/* The refusal of a tape that follows from its bytes, with its value. */
static struct answer tape_fault(const struct scene *s)
{
    const struct input *tape = &s->caller.tape;
    if (!s->loads)
        return (struct answer){WUMBYRA_TREE, 0};
    if (tape->size > WUMBYRA_MAX_LETTERS)
        return (struct answer){WUMBYRA_TAPE_TOO_LONG, 0};
    for (uint32_t i = 0; i < tape->size; i++)
        if (!is_letter(tape->at[i]))
            return (struct answer){WUMBYRA_TAPE_BYTE, i};
    return (struct answer){WUMBYRA_OK, 0};
}

/* Where the tape breaks by the pattern that was drawn. */
static void expect_located(const struct scene *s, struct answer answer)
{
    const struct input *tape = &s->caller.tape;
    const uint32_t reach = reach_of(&s->pattern, tape->at, (uint32_t)tape->size);
    const uint32_t resume = resume_of(&s->pattern, tape->at, (uint32_t)tape->size);
    expect_answer(&s->caller, answer, WUMBYRA_OK, reach << 16 | resume, "locate: where the tape breaks");
}

/* The tape is what the code spells: reads it, in buffers that suffice and in shorter ones. */
static void try_parse(struct scene *s)
{
    struct caller *c = &s->caller;
    const size_t words = WUMBYRA_WORDS(s->letters);
    struct answer answer;
    size_t need;
    hand(c, &c->tape, s->tape, s->letters);
    answer = call_parse(c, words, WUMBYRA_CODE_BYTES(s->letters));
    expect(c, answer.number == WUMBYRA_OK, "parse: what a code spells has a parse");
    s->bits = answer.value;
    need = WUMBYRA_BYTES_OF_BITS(s->bits);
    memcpy(s->parsed, c->written.at, need);
    memcpy(s->words, c->words.at, words * sizeof *s->words);
    expect_answer(c, call_parse(c, words + draw(&c->source, 4), need), WUMBYRA_OK, s->bits, "parse: as many bytes as the code has");
    expect(c, memcmp(s->parsed, c->written.at, need) == 0, "parse: the same code again");
    expect(c, memcmp(s->words, c->words.at, words * sizeof *s->words) == 0, "parse: the same words again");
    if (need > 0)
        expect_answer(c, call_parse(c, words, smaller(&c->source, need)), WUMBYRA_CODE_TOO_SHORT, (uint32_t)need, "parse: fewer bytes");
    expect_answer(c, call_parse(c, smaller(&c->source, words), need), WUMBYRA_WORDS_TOO_SHORT, (uint32_t)words, "parse: fewer words");
    expect_answer(c, call_locate(c), WUMBYRA_OK, s->letters << 16, "locate: what has a parse does not break");
}

static void try_spans(struct scene *s)
{
    struct caller *c = &s->caller;
    const struct parse *parse = &s->parse;
    uint32_t visit;
    uint32_t line = draw(&c->source, WUMBYRA_MAX_LINES); /* one after the other: the order of arguments is the compiler's */
    (void)call_span(c, line, draw(&c->source, 4));
    expect_answer(c, call_span(c, WUMBYRA_MAX_LINES + draw(&c->source, 1000), 0), WUMBYRA_NO_SUCH_VISIT, 0, "span: no such node");
    if (s->letters > 0) {
        uint32_t at = draw(&c->source, s->letters);
        s->tape[at] ^= 1;
        hand(c, &c->tape, s->tape, s->letters);
        (void)call_span(c, draw(&c->source, WUMBYRA_MAX_LINES), 0);
        if (tape_fault(s).number == WUMBYRA_OK) {
            expect_answer(c, call_span(c, 0, 0), WUMBYRA_NOT_A_CODE, 0, "span: a code of another tape");
            if (s->whole_text)
                expect_located(s, call_locate(c));
        }
        s->tape[at] ^= 1;
        hand(c, &c->tape, s->tape, s->letters);
    }
    if (!s->whole_text || !s->whole_code)
        return;
    expect_answer(c, call_span(c, s->pattern.count - 1, 0), WUMBYRA_OK, s->letters, "span: the root has the whole tape");
    expect_answer(c, call_span(c, parse->watched, parse->visits), WUMBYRA_NO_SUCH_VISIT, 0, "span: no such visit");
    if (parse->visits == 0)
        return;
    visit = draw(&c->source, parse->visits);
    expect_answer(c, call_span(c, parse->watched, visit), WUMBYRA_OK, (uint32_t)parse->start[visit] << 16 | parse->length[visit],
                  "span: the piece of a visit");
}

/* ---- canonical codes */

static void try_short_settling(struct scene *s, struct room room)
{
    struct caller *c = &s->caller;
    struct room less = room;
    switch (draw(&c->source, 3)) {
    case 0:
        if (s->letters == 0)
            return;
        less.cells = smaller(&c->source, room.cells);
        expect_answer(c, call_canonicalize(c, less, s->letters), WUMBYRA_TAPE_TOO_SHORT, s->letters, "canonicalize: fewer cells");
        break;
    case 1:
        less.words = smaller(&c->source, room.words);
        expect_answer(c, call_canonicalize(c, less, s->letters), WUMBYRA_WORDS_TOO_SHORT, (uint32_t)room.words, "canonicalize: fewer words");
        expect(c, memcmp(s->tape, c->letters.at, s->letters) == 0, "canonicalize: letters beside 6");
        break;
    default:
        if (room.bytes == 0)
            return;
        less.bytes = smaller(&c->source, room.bytes);
        expect_answer(c, call_canonicalize(c, less, s->letters), WUMBYRA_CODE_TOO_SHORT, (uint32_t)room.bytes, "canonicalize: fewer bytes");
        expect(c, memcmp(s->words, c->words.at, room.words * sizeof *s->words) == 0, "canonicalize: words beside 7");
    }
}

static void expect_settled(struct scene *s, struct room room)
{
    struct caller *c = &s->caller;
    expect_answer(c, call_canonicalize(c, room, s->letters), WUMBYRA_OK, s->bits, "canonicalize: as many bits as the parse");
    expect(c, memcmp(s->parsed, c->written.at, room.bytes) == 0, "canonicalize: the code of the parse");
    expect(c, memcmp(s->tape, c->letters.at, room.cells) == 0, "canonicalize: the letters");
    expect(c, memcmp(s->words, c->words.at, room.words * sizeof *s->words) == 0, "canonicalize: the words of the parse");
}

static void try_settling(struct scene *s)
{
    struct caller *c = &s->caller;
    const struct room room = {s->letters, WUMBYRA_WORDS(s->letters), WUMBYRA_BYTES_OF_BITS(s->bits)};
    const size_t common = room.bytes < c->code.size ? room.bytes : c->code.size;
    expect_settled(s, room);
    try_short_settling(s, room);
    if (s->whole_text && s->whole_code && !s->parse.empty_round)
        expect(c, memcmp(s->parsed, s->code, common) <= 0, "canonicalize: no earlier code of the tape");
    hand(c, &c->code, s->parsed, room.bytes);
    c->count = s->bits;
    expect_settled(s, room);
    expect_answer(c, call_flatten(c, s->letters), WUMBYRA_OK, s->letters, "flatten of parse: the number of letters");
    expect(c, memcmp(s->tape, c->letters.at, s->letters) == 0, "flatten of parse: the tape");
    s->whole_code = false; /* from here on the code is another one */
    try_totals(s);
    try_terms(s);
    expect_answer(c, call_span(c, 0, UINT32_MAX), WUMBYRA_NO_SUCH_VISIT, 0, "span: not so many visits");
}

/* ---- what is refused */

static void try_damaged_tape(struct scene *s)
{
    struct caller *c = &s->caller;
    const size_t words = chance(&c->source, 4) ? draw(&c->source, 40) : WUMBYRA_MAX_WORDS;
    size_t size = damage(&c->source, s->parse.letters, s->parse.count, LETTER_ROOM);
    struct answer answer, fault;
    uint32_t line;
    hand(c, &c->tape, s->parse.letters, size);
    fault = tape_fault(s);
    answer = call_parse(c, words, draw(&c->source, 2) * WUMBYRA_MAX_WRITTEN_CODE_BYTES);
    if (fault.number != WUMBYRA_OK)
        expect_answer(c, answer, fault.number, fault.value, "parse: the first fault of the tape");
    else if (words < WUMBYRA_WORDS(size))
        expect_answer(c, answer, WUMBYRA_WORDS_TOO_SHORT, (uint32_t)WUMBYRA_WORDS(size), "parse: too few words");
    else
        expect(c, answer.number == 0 || answer.number == 5 || answer.number == 7, "parse: read or not");
    answer = call_locate(c);
    if (fault.number != WUMBYRA_OK)
        expect_answer(c, answer, fault.number, fault.value, "locate: the first fault of the tape");
    else if (s->whole_text)
        expect_located(s, answer);
    line = draw(&c->source, 70);
    answer = call_span(c, line, draw(&c->source, 70));
    if (fault.number != WUMBYRA_OK)
        expect_answer(c, answer, fault.number, fault.value, "span: the first fault of the tape");
    else if (s->refusal != WUMBYRA_OK)
        expect_answer(c, answer, WUMBYRA_NOT_A_CODE, 0, "span: no code of this tape");
}

static void try_refused_code(struct scene *s)
{
    struct caller *c = &s->caller;
    const struct room room = {draw(&c->source, 9), draw(&c->source, 9), draw(&c->source, 9)};
    expect_answer(c, call_canonicalize(c, room, 0), s->refusal, 0, "canonicalize: refused as flatten is");
    expect_answer(c, call_flatten(c, room.cells), s->refusal, 0, "flatten: refused in any cells");
}

/* ---- page desks */

static uint32_t letters_held(const struct scene *s)
{
    uint32_t sum = 0;
    for (uint32_t i = 0; i < s->pages; i++)
        sum += s->page[i];
    return sum;
}

/* Mostly as much as is needed, or nearly so. */
static size_t about(struct source *source, size_t needed)
{
    switch (draw(source, 8)) {
    case 0: return needed > 0 ? needed - 1 : 0;
    case 1: return draw(source, (uint32_t)needed + 1);
    case 2: return needed + draw(source, 8);
    default: return needed;
    }
}

/* More words than all letters take are needed only where another cause comes first. */
static struct desk_room draw_room(struct scene *s, size_t words)
{
    struct source *source = &s->caller.source;
    struct desk_room room;
    room.desk = chance(source, 16) ? draw(source, DESK_ROOM + 1) : WUMBYRA_DESK_BYTES;
    room.cells = about(source, WUMBYRA_MAX_LETTERS);
    room.words = about(source, words < WUMBYRA_MAX_WORDS ? words : WUMBYRA_MAX_WORDS);
    return room;
}

/* What the desk must be by the stack: its count, its lengths below the count, its letters. */
static void expect_stack(const struct scene *s)
{
    const uint32_t held = letters_held(s), start = WUMBYRA_MAX_LETTERS - held;
    expect(&s->caller, s->kept.desk[0] == s->pages, "desk: the pages of the stack");
    for (uint32_t i = 0; i < s->pages; i++)
        expect(&s->caller, s->kept.desk[1 + i] == s->page[i], "desk: the letters of its pages");
    expect(&s->caller, memcmp(s->kept.letters + start, s->joined + start, held) == 0, "desk: the pages joined");
}

static void try_open(struct scene *s)
{
    struct caller *c = &s->caller;
    const struct desk_room room = draw_room(s, 2);
    struct answer answer = call_desk_open(c, &s->kept, room);
    if (!s->loads)
        expect_answer(c, answer, WUMBYRA_TREE, 0, "desk open: no text");
    else if (room.words < 2)
        expect_answer(c, answer, WUMBYRA_WORDS_TOO_SHORT, 2, "desk open: fewer words");
    else if (room.desk != WUMBYRA_DESK_BYTES)
        expect_answer(c, answer, WUMBYRA_DESK_LIMITS, 0, "desk open: no desk");
    else {
        expect_answer(c, answer, WUMBYRA_OK, 0, "desk open: no letters");
        s->pages = 0;
    }
}

/* A page of letters, of the pattern's where it has any; one in eight has a byte that is none. */
static uint32_t draw_page(struct scene *s, uint8_t *page, uint32_t *bad)
{
    struct source *source = &s->caller.source;
    const uint32_t some = 1 + draw(source, chance(source, 3) ? WUMBYRA_MAX_PAGE_LETTERS : 8);
    const uint32_t wrong = chance(source, 2) ? 0 : WUMBYRA_MAX_PAGE_LETTERS + draw(source, 3);
    const uint32_t size = chance(source, 10) ? wrong : some;
    for (uint32_t i = 0; i < size; i++) {
        const struct node *node = &s->pattern.node[draw(source, s->pattern.count)];
        page[i] = node->kind == 'L' || node->kind == 'R' ? node->low : (uint8_t)('0' + draw(source, 10));
    }
    *bad = size;
    if (size > 0 && chance(source, 8)) {
        *bad = draw(source, size);
        page[*bad] = draw_no_letter(source);
    }
    return size;
}

static void try_put(struct scene *s)
{
    struct caller *c = &s->caller;
    uint8_t page[LETTER_ROOM];
    uint32_t bad;
    const uint32_t size = draw_page(s, page, &bad), held = letters_held(s), after = held + size;
    const struct desk_room room = draw_room(s, WUMBYRA_WORDS(after));
    struct answer answer;
    hand(c, &c->page, page, size);
    answer = call_desk_put(c, &s->kept, room, held);
    if (!s->loads)
        expect_answer(c, answer, WUMBYRA_TREE, 0, "desk put: no text");
    else if (room.cells < WUMBYRA_MAX_LETTERS)
        expect_answer(c, answer, WUMBYRA_TAPE_TOO_SHORT, WUMBYRA_MAX_LETTERS, "desk put: fewer cells");
    else if (size < 1 || size > WUMBYRA_MAX_PAGE_LETTERS || room.desk != WUMBYRA_DESK_BYTES)
        expect_answer(c, answer, WUMBYRA_DESK_LIMITS, 0, "desk put: no page or no desk");
    else if (s->pages == WUMBYRA_MAX_PAGES)
        expect_answer(c, answer, WUMBYRA_DESK_FULL, 0, "desk put: a 31st page");
    else if (bad < size)
        expect_answer(c, answer, WUMBYRA_TAPE_BYTE, bad, "desk put: a byte that is no letter");
    else if (room.words < WUMBYRA_WORDS(after))
        expect_answer(c, answer, WUMBYRA_WORDS_TOO_SHORT, (uint32_t)WUMBYRA_WORDS(after), "desk put: fewer words");
    else {
        expect_answer(c, answer, WUMBYRA_OK, after, "desk put: the letters held");
        s->page[s->pages++] = size;
        memcpy(s->joined + WUMBYRA_MAX_LETTERS - after, page, size);
    }
}

static void try_withdraw(struct scene *s)
{
    struct caller *c = &s->caller;
    const struct desk_room room = draw_room(s, 0);
    struct answer answer = call_desk_withdraw(c, &s->kept, room);
    if (!s->loads)
        expect_answer(c, answer, WUMBYRA_TREE, 0, "desk withdraw: no text");
    else if (room.cells < WUMBYRA_MAX_LETTERS)
        expect_answer(c, answer, WUMBYRA_TAPE_TOO_SHORT, WUMBYRA_MAX_LETTERS, "desk withdraw: fewer cells");
    else if (room.desk != WUMBYRA_DESK_BYTES)
        expect_answer(c, answer, WUMBYRA_DESK_LIMITS, 0, "desk withdraw: no desk");
    else if (s->pages == 0)
        expect_answer(c, answer, WUMBYRA_DESK_EMPTY, 0, "desk withdraw: no page");
    else {
        s->pages--;
        expect_answer(c, answer, WUMBYRA_OK, letters_held(s), "desk withdraw: the letters held");
    }
}

/* The words of the letters held are those of a parse, counted from the tape's end. */
static void expect_words(struct scene *s)
{
    struct caller *c = &s->caller;
    const uint32_t held = letters_held(s);
    const uint64_t *words;
    hand(c, &c->tape, s->kept.letters + WUMBYRA_MAX_LETTERS - held, held);
    expect(c, is_read(call_parse(c, WUMBYRA_WORDS(held), 0).number), "desk: its letters are a tape");
    words = (const uint64_t *)(const void *)c->words.at;
    for (uint32_t j = 0; j <= held; j++)
        expect(c, memcmp(s->kept.words + 2 * j, words + 2 * (held - j), 2 * sizeof *words) == 0, "desk: the words of a parse");
}

/* A desk that breaks the limits, or holds a byte that is no letter, is none. */
static void try_spoiled_desk(struct scene *s)
{
    struct caller *c = &s->caller;
    const struct desk_room room = {WUMBYRA_DESK_BYTES, WUMBYRA_MAX_LETTERS, WUMBYRA_MAX_WORDS};
    const uint32_t held = letters_held(s);
    const uint8_t page = '0';
    uint8_t *spoiled = &s->kept.desk[0], before;
    uint8_t bad = (uint8_t)(WUMBYRA_MAX_PAGES + 1 + draw(&c->source, 255 - WUMBYRA_MAX_PAGES));
    if (s->pages > 0 && chance(&c->source, 2)) {
        spoiled = &s->kept.desk[1 + draw(&c->source, s->pages)];
        bad = chance(&c->source, 2) ? 0 : (uint8_t)(WUMBYRA_MAX_PAGE_LETTERS + 1 + draw(&c->source, 255 - WUMBYRA_MAX_PAGE_LETTERS));
    } else if (s->pages > 0 && chance(&c->source, 2)) {
        spoiled = &s->kept.letters[WUMBYRA_MAX_LETTERS - 1 - draw(&c->source, held)];
        bad = draw_no_letter(&c->source);
    }
    before = *spoiled;
    *spoiled = bad;
    hand(c, &c->page, &page, 1);
    expect_answer(c, call_desk_put(c, &s->kept, room, held), WUMBYRA_DESK_LIMITS, 0, "desk put: a desk that is none");
    expect_answer(c, call_desk_withdraw(c, &s->kept, room), WUMBYRA_DESK_LIMITS, 0, "desk withdraw: a desk that is none");
    *spoiled = before;
}

/* A run of calls on a desk that was any bytes before its opening. */
static void try_desk(struct scene *s)
{
    struct caller *c = &s->caller;
    const struct desk_room room = {WUMBYRA_DESK_BYTES, WUMBYRA_MAX_LETTERS, 2};
    const bool full = chance(&c->source, 20); /* so many steps that 30 pages are held */
    const uint32_t steps = full ? 120 : 2 + draw(&c->source, 8);
    memset(&s->kept, (int)draw(&c->source, 256), sizeof s->kept);
    s->pages = 0;
    expect_answer(c, call_desk_open(c, &s->kept, room), s->loads ? WUMBYRA_OK : WUMBYRA_TREE, 0, "desk open");
    for (uint32_t i = 0; i < steps; i++) {
        const uint32_t step = draw(&c->source, full ? 60 : 12);
        if (step == 0 && !full)
            try_open(s);
        else if (step < 4)
            try_withdraw(s);
        else
            try_put(s);
        if (s->loads)
            expect_stack(s);
    }
    if (!s->loads)
        return;
    expect_words(s);
    try_spoiled_desk(s);
}

static void try_case(struct scene *s, uint64_t seed, uint64_t number)
{
    struct caller *c = &s->caller;
    bool endless;
    c->seed = seed;
    c->number = number;
    c->source.state = (seed << 32 ^ number) * 0x2545f4914f6cdd1du;
    endless = chance(&c->source, 2000);
    draw_pattern(&c->source, &s->pattern, endless);
    draw_code(s, endless);
    try_text(s);
    try_flatten(s);
    try_totals(s);
    try_terms(s);
    try_damaged_tape(s);
    if (s->refusal != WUMBYRA_OK)
        try_refused_code(s);
    else {
        try_parse(s);
        try_spans(s);
        try_settling(s);
    }
    try_desk(s);
}

/* ---- threads */

struct work {
    pthread_t thread;
    uint64_t seed, first, step, calls, done, cases, answers[CAUSES + 1];
};

/* Cases first, first + step, .. until so many calls are made, so that a seed gives the same cases however threads run. */
static void *run_cases(void *argument)
{
    struct work *work = argument;
    struct scene *scene = calloc(1, sizeof *scene);
    if (scene == NULL)
        exit(2);
    open_caller(&scene->caller);
    do
        try_case(scene, work->seed, work->first + work->step * work->cases++);
    while (scene->caller.calls < work->calls);
    work->done = scene->caller.calls;
    memcpy(work->answers, scene->caller.answers, sizeof work->answers);
    close_caller(&scene->caller);
    free(scene);
    return NULL;
}

int main(int count, char **arguments)
{
    struct work work[THREADS];
    uint64_t calls = 0, cases = 0;
    if (count < 3 || count > 4) {
        fprintf(stderr, "usage: guard CALLS SEED [CASE]\n");
        return 2;
    }
    for (uint64_t i = 0; i < THREADS; i++) {
        work[i] = (struct work){.seed = strtoull(arguments[2], NULL, 10), .first = i, .step = THREADS};
        work[i].calls = strtoull(arguments[1], NULL, 10) / THREADS;
        if (count == 4) { /* every thread tries that one case */
            work[i].first = strtoull(arguments[3], NULL, 10);
            work[i].calls = 1;
        }
        if (pthread_create(&work[i].thread, NULL, run_cases, &work[i]) != 0)
            return 2;
    }
    for (int i = 0; i < THREADS; i++) {
        pthread_join(work[i].thread, NULL);
        calls += work[i].done;
        cases += work[i].cases;
    }
    printf("seed %s: %" PRIu64 " calls in %" PRIu64 " cases, %d threads: all as due; by number", arguments[2], calls, cases, THREADS);
    for (int number = 0; number <= CAUSES; number++) {
        uint64_t sum = 0;
        if (number > LAST_OF_SERVICES && number < CAUSES)
            continue;
        for (int i = 0; i < THREADS; i++)
            sum += work[i].answers[number];
        printf("%s %d: %" PRIu64, number == 0 ? "" : ",", number, sum);
    }
    printf("\n");
    return 0;
}
