/* A code that is stored for later: with its bit count, its pattern, the dates of the reading, the library's version and a checksum.
 *
 * The library refuses with 8 what is not a whole code of the pattern. Many changed codes are whole codes: another digit is another code,
 * with other litres. So the checksum is tested first, and nothing is billed from a file that fails it. */
#ifndef STORED_H
#define STORED_H

#include "fields.h"

struct stored {
    uint32_t library;
    struct reading reading;
    uint32_t bits;
    uint8_t code[MOST / 2];
    size_t code_size;
    uint8_t pattern[MOST];
    size_t pattern_size;
};

enum stored_fault { STORED_GOOD, STORED_DAMAGED, STORED_MALFORMED };

/* CRC-32 as zlib, gzip and PNG have it. */
uint32_t crc32(const uint8_t *bytes, size_t size);

/* Writes all but the last line of the file; the last line, which has the CRC-32 of all before it. */
void put_body(const struct stored *stored, struct file *file);
void put_ending(struct file *file);

/* Damaged if the checksum is wrong, malformed if the calls above did not write it. */
enum stored_fault take_stored(const struct file *file, struct stored *stored);

#endif
