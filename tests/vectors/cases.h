/* The kinds of stored cases, each by the calls from C that answer it. */
#ifndef CASES_H
#define CASES_H

#include "shown.h"

/* Room for a pattern's text, a tape and a code; cells of the arrays whose starts are lent, and what they hold before. All are as in crates
 * vector_text, vector_codes and vector_desk, so that digests of all cells are the same. */
enum { MAX_TEXT = 3072, MAX_TAPE = 4096, MAX_CODE = 4096 };
enum { ALL_WORDS = 7210, ALL_BYTES = 8192, ALL_LETTERS = 3700, ALL_CELLS = 204 };
enum { BYTE_BEFORE = 0xaa, CELL_BEFORE = 7777 };
#define WORD_BEFORE UINT64_C(0x5555555555555555)

/* What the cases are compared with: the lines that program `vectors` prints. */
struct check;

/* Compares a line that was found with the next one that is expected. Answers the latter, without its end; an empty one if there is none. */
const char *expect_line(struct check *check, const struct line *found);

/* Steps over the next lines that are expected. */
void pass_lines(struct check *check, uint32_t count);

/* A case, from the pattern's text on. */
void run_load(struct check *check, struct fields *fields);
void run_parse(struct check *check, struct fields *fields);
void run_code(struct check *check, struct fields *fields);
void run_span(struct check *check, struct fields *fields);
void run_term(struct check *check, struct fields *fields);
void run_locate(struct check *check, struct fields *fields);
void run_desk(struct check *check, struct fields *fields);
void run_litres(struct check *check, struct fields *fields);

/* A case that no call from C can answer: its lines are stepped over. */
void pass_altered(struct check *check, struct fields *fields);

/* Sets all cells of an array that is lent for words. */
void set_words(uint64_t *words);

#endif
