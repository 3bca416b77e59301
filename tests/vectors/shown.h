/* The text of stored cases: the fields of a case, and lines as program `vectors` prints them. Crates vector_text and text have the same
 * in Rattle. */
#ifndef SHOWN_H
#define SHOWN_H

#include <stdbool.h>
#include <stddef.h>
#include <stdint.h>

/* What is left of a case's line. Its fields are parted by one space each. `bad` is set, and stays set, where a field that is taken has not
 * its form. */
struct fields {
    const char *rest;
    bool bad;
};

/* Each takes the first field off: one letter; a number in decimal, UINT32_MAX where it is greater; bytes in hexadecimal, of which there
 * may be none. The last answers how many bytes there are. */
char take_letter(struct fields *fields);
uint32_t take_number(struct fields *fields);
size_t take_bytes(struct fields *fields, uint8_t *into, size_t room);

/* As take_number, at most `most`: so many cells are lent. */
size_t take_cells(struct fields *fields, size_t most);

/* A digest goes on from another one, or from this. */
enum { DIGEST_START = 1 };
uint64_t digest_bytes(uint64_t digest, const uint8_t *bytes, size_t count);
uint64_t digest_words(uint64_t digest, const uint64_t *words, size_t count);

/* A line that was found, without its end. It has room for all cells that are shown, whatever they hold. What does not fit is left out. */
enum { LINE_ROOM = 4096 };
struct line {
    char text[LINE_ROOM];
    size_t size;
};

/* Begins a line with number and value of an answer. */
void put_answer(struct line *line, uint32_t number, uint32_t value);

/* Each adds a field, after a tab: a number; a list of numbers, and nothing at all where there are none; bytes in hexadecimal, or if there
 * are over 64, # and their digest. */
void put_number(struct line *line, uint64_t number);
void put_words(struct line *line, const uint64_t *words, size_t count);
void put_cells(struct line *line, const uint32_t *cells, size_t count);
void put_shown(struct line *line, const uint8_t *bytes, size_t count);

#endif
