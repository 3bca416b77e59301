/* What the guard test draws: patterns, parses of them as code and letters, dates, and damage to bytes. All of it comes from one
 * number. */
#ifndef CASES_H
#define CASES_H

#include "wumbyra.h"

#include <stdbool.h>

enum {
    TEXT_ROOM = 2048,                                                    /* of a text, with room for damage */
    LETTER_ROOM = 4096,                                                  /* of a tape that may be too long */
    BIT_ROOM = WUMBYRA_MAX_CODE_BITS + 4096,                             /* of a code that may be too long */
    CODE_ROOM = BIT_ROOM / 8
};

struct source {
    uint64_t state;
};

/* A number below `below`, and whether one chance in `of` is met. */
uint32_t draw(struct source *source, uint32_t below);
bool chance(struct source *source, uint32_t of);

/* Whether a byte is a letter, of the one side of the gap or of the other; and a byte that is none, mostly one of the gap. */
bool is_letter(uint32_t byte);
uint8_t draw_no_letter(struct source *source);

/* How many litres a letter is, and how many days end with it. */
uint32_t litres_of(uint8_t letter);
uint32_t days_of(uint8_t letter);

enum { STALE = 9 }; /* the account of stale litres: what stands under a node that has it goes there, whatever account is nearer */
enum { MAX_ACCOUNT = 200 };

struct node {
    char kind; /* of E L R S A K Z */
    uint32_t account; /* 0: none */
    uint32_t first, second;
    uint8_t low, high;
};

struct pattern {
    uint32_t count;
    struct node node[WUMBYRA_MAX_LINES];
    uint8_t text[TEXT_ROOM];
    size_t size;
    uint32_t lettered; /* the last line with a letter, or WUMBYRA_MAX_LINES */
    size_t letter_at; /* of it, in the text: the only one, or the second of a range */
};

/* A parse of a pattern: its code, its letters, its litres, and the visits of one node, which is watched. */
struct parse {
    uint8_t code[CODE_ROOM];
    uint32_t bits;
    uint8_t letters[LETTER_ROOM];
    uint8_t accounts[LETTER_ROOM]; /* of the letters */
    uint32_t count; /* of letters */
    uint32_t litres[WUMBYRA_ACCOUNTS];
    bool empty_round;
    uint32_t across; /* where the bits of the last letter begin whose range goes across the gap; BIT_ROOM if there is none */
    uint32_t watched, visits;
    uint16_t start[BIT_ROOM], length[BIT_ROOM];
};

/* A pattern that loads. `endless` patterns have empty leaves only, so that a code of any length spells nothing. */
void draw_pattern(struct source *source, struct pattern *pattern, bool endless);

/* Writes the text of a pattern, with this field for the account of a line; with that of its node where the line is not of the pattern. */
void write_text(struct pattern *pattern, uint32_t line, const char *account);

/* A field that is no account, mostly one that is nearly one. */
const char *draw_no_account(struct source *source);

/* A parse, which may have empty rounds. It goes through `rounds` rounds at most, and on while `on` of `on + 1` chances say so. */
void draw_parse(struct source *source, const struct pattern *pattern, struct parse *parse, uint32_t rounds, uint32_t on);

/* Where a tape of letters breaks: how many of its first letters begin some tape of the pattern, and from where on its letters end one. */
uint32_t reach_of(const struct pattern *pattern, const uint8_t *letters, uint32_t size);
uint32_t resume_of(const struct pattern *pattern, const uint8_t *letters, uint32_t size);

/* Adds the last `count` of these bits to the code of a parse. */
void put_bits(struct parse *parse, uint32_t bits, uint32_t count);

/* Writes a byte over the eight bits of a code from `at` on. */
void put_byte_at(uint8_t *code, uint32_t at, uint8_t byte);

/* Days, counted from 1 January 2000 on, and numbers of dates as the library takes them. A number that is none has the day DAYS. */
enum { DAYS = 36525 };
uint32_t date_of(uint32_t day);
uint32_t day_of(uint32_t date);

/* A day, often one of those where a step is a special one. */
uint32_t draw_day(struct source *source);

/* A number that is no date, mostly one that is nearly a date. */
uint32_t draw_no_date(struct source *source);

/* Bytes after some damage: changed, lost, added, cut, doubled. There is room for `room` of them; the answer is how many there are. */
size_t damage(struct source *source, uint8_t *bytes, size_t size, size_t room);

#endif
