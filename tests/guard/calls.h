/* Each call of the library on buffers of exact length between unreadable pages. What is lent to be read lies in pages that cannot be
 * written. What is lent to be written is filled with one byte before the call, and so are the cells beside it; after the call all
 * that the header says is left as it was must still hold that byte. */
#ifndef CALLS_H
#define CALLS_H

#include "cases.h"

/* The last cause of the services, and the last of all. No cause has a number between them. */
enum { LAST_OF_SERVICES = WUMBYRA_DESK_EMPTY, CAUSES = WUMBYRA_CELLS_TOO_FEW };

/* Pages between two unreadable ones. `fill` shows the same pages as `lent` does, where these cannot be written. */
struct pages {
    uint8_t *lent, *fill;
    size_t size;
};

struct input {
    struct pages pages;
    const uint8_t *at;
    size_t size;
};

struct output {
    struct pages pages;
    uint8_t *at;
    size_t size; /* in bytes */
};

struct caller {
    struct source source; /* of where buffers lie and what they are filled with */
    uint64_t seed, number; /* of the case */
    uint64_t calls, answers[CAUSES + 1]; /* of all cases; answers by their number */
    uint8_t filling;
    struct input text, tape, code, page, held;
    uint32_t count; /* of the code's bits */
    uint32_t start, first, last; /* dates of the tape and of a term */
    struct output words, letters, written, litres, desk;
};

struct answer {
    uint32_t number, value;
};

void open_caller(struct caller *caller);
void close_caller(struct caller *caller);

/* What the next calls are handed: a copy of these bytes, at the first or the last place of the pages. */
void hand(struct caller *caller, struct input *input, const uint8_t *bytes, size_t size);

/* The calls, on what was handed. Sizes are in elements. After them the outputs hold what the library wrote. */
struct answer call_load(struct caller *caller);
struct answer call_parse(struct caller *caller, size_t words, size_t bytes);
struct answer call_flatten(struct caller *caller, size_t cells);
struct answer call_span(struct caller *caller, uint32_t node, uint32_t visit);
struct answer call_locate(struct caller *caller);
struct answer call_total(struct caller *caller, uint32_t account);
struct answer call_totals(struct caller *caller, size_t cells);
struct answer call_term_totals(struct caller *caller, size_t cells);

struct room {
    size_t cells, words, bytes;
};

/* `letters` is what the code spells, which refusals 6 and 7 have written to the tape's cells. */
struct answer call_canonicalize(struct caller *caller, struct room room, size_t letters);

/* What a caller keeps of a page desk between the calls. More is there than is ever needed. */
enum { DESK_ROOM = WUMBYRA_DESK_BYTES + 2, CELL_ROOM = WUMBYRA_MAX_LETTERS + 8, WORD_ROOM = WUMBYRA_MAX_WORDS + 8 };

struct kept {
    uint8_t desk[DESK_ROOM], letters[CELL_ROOM];
    uint64_t words[WORD_ROOM];
};

/* The calls on a desk, with copies of what is kept, so many bytes, cells and words of it, between unreadable pages; what they write is kept.
 * A refusal must leave all of it as it was, a put may write its own cells and words only, a withdrawal the count only. `held` is how many
 * letters the desk holds before the call. */
struct desk_room {
    size_t desk, cells, words;
};
struct answer call_desk_open(struct caller *caller, struct kept *kept, struct desk_room room);
struct answer call_desk_put(struct caller *caller, struct kept *kept, struct desk_room room, size_t held);
struct answer call_desk_withdraw(struct caller *caller, struct kept *kept, struct desk_room room);

/* Ends the test, with the case, where something does not hold. */
void expect(const struct caller *caller, bool holds, const char *what);
void expect_answer(const struct caller *caller, struct answer found, uint32_t number, uint32_t value, const char *what);

#endif
