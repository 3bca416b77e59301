/* See shown.h. */
#include "shown.h"

#include <inttypes.h>
#include <stdio.h>
#include <string.h>

/* ---- fields */

/* Takes a field off, and answers its length. It begins at `*field`. */
static size_t take_field(struct fields *fields, const char **field)
{
    const size_t size = strcspn(fields->rest, " ");
    *field = fields->rest;
    fields->rest += size;
    if (*fields->rest == ' ')
        fields->rest++;
    return size;
}

char take_letter(struct fields *fields)
{
    const char *field;
    if (take_field(fields, &field) == 1)
        return *field;
    fields->bad = true;
    return '\0';
}

uint32_t take_number(struct fields *fields)
{
    const char *field;
    const size_t size = take_field(fields, &field);
    uint64_t number = 0;
    if (size == 0)
        fields->bad = true;
    for (size_t i = 0; i < size; i++) {
        if (field[i] < '0' || field[i] > '9')
            fields->bad = true;
        else
            number = 10 * number + (uint64_t)(field[i] - '0');
        if (number > UINT32_MAX)
            number = UINT32_MAX;
    }
    return (uint32_t)number;
}

size_t take_cells(struct fields *fields, size_t most)
{
    const uint32_t number = take_number(fields);
    return number < most ? number : most;
}

/* The value of a digit; 16 if it is none. Capital letters are none. */
static uint32_t hex_value(char digit)
{
    if (digit >= '0' && digit <= '9')
        return (uint32_t)(digit - '0');
    return digit >= 'a' && digit <= 'f' ? (uint32_t)(digit - 'a') + 10 : 16;
}

size_t take_bytes(struct fields *fields, uint8_t *into, size_t room)
{
    const char *field;
    const size_t digits = take_field(fields, &field);
    if (digits % 2 != 0 || digits / 2 > room) {
        fields->bad = true;
        return 0;
    }
    for (size_t i = 0; i < digits / 2; i++) {
        const uint32_t high = hex_value(field[2 * i]), low = hex_value(field[2 * i + 1]);
        if (high > 15 || low > 15) {
            fields->bad = true;
            return 0;
        }
        into[i] = (uint8_t)(16 * high + low);
    }
    return digits / 2;
}

/* ---- digests */

/* Each value below 2^32 in turn is added to the digest before it, multiplied by 65,599, modulo the largest prime below 2^32. */
static uint64_t step(uint64_t digest, uint32_t value)
{
    return (digest * 65599 + value) % 4294967291u;
}

uint64_t digest_bytes(uint64_t digest, const uint8_t *bytes, size_t count)
{
    for (size_t i = 0; i < count; i++)
        digest = step(digest, bytes[i]);
    return digest;
}

/* A word counts as two halves, the low one first. */
uint64_t digest_words(uint64_t digest, const uint64_t *words, size_t count)
{
    for (size_t i = 0; i < count; i++)
        digest = step(step(digest, (uint32_t)(words[i] & UINT32_MAX)), (uint32_t)(words[i] >> 32));
    return digest;
}

/* ---- lines */

enum { MOST_OF_A_NUMBER = 24, SHOWN_BYTES = 64 };

static void put_parted(struct line *line, char before, uint64_t number)
{
    if (line->size + MOST_OF_A_NUMBER <= LINE_ROOM)
        line->size += (size_t)sprintf(line->text + line->size, "%c%" PRIu64, before, number);
}

void put_answer(struct line *line, uint32_t number, uint32_t value)
{
    line->size = (size_t)sprintf(line->text, "%" PRIu32, number);
    put_number(line, value);
}

void put_number(struct line *line, uint64_t number)
{
    put_parted(line, '\t', number);
}

void put_words(struct line *line, const uint64_t *words, size_t count)
{
    for (size_t i = 0; i < count; i++)
        put_parted(line, i == 0 ? '\t' : ',', words[i]);
}

void put_cells(struct line *line, const uint32_t *cells, size_t count)
{
    for (size_t i = 0; i < count; i++)
        put_parted(line, i == 0 ? '\t' : ',', cells[i]);
}

void put_shown(struct line *line, const uint8_t *bytes, size_t count)
{
    if (line->size + 2 + 2 * SHOWN_BYTES + MOST_OF_A_NUMBER > LINE_ROOM)
        return;
    line->size += (size_t)sprintf(line->text + line->size, "\t");
    if (count > SHOWN_BYTES)
        put_parted(line, '#', digest_bytes(DIGEST_START, bytes, count));
    for (size_t i = 0; i < count && count <= SHOWN_BYTES; i++)
        line->size += (size_t)sprintf(line->text + line->size, "%02x", bytes[i]);
}
