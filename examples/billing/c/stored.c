#include "stored.h"

#include <inttypes.h>
#include <stdio.h>
#include <string.h>

/* Bytes of the last line. */
enum { ENDING = 15 };

static const char HEX[] = "0123456789abcdef";

uint32_t crc32(const uint8_t *bytes, size_t size)
{
    uint32_t crc = UINT32_MAX;
    int bit;

    for (; size > 0; size--) {
        crc ^= *bytes++;
        for (bit = 0; bit < 8; bit++)
            crc = crc >> 1 ^ (crc & 1 ? UINT32_C(0xedb88320) : 0);
    }
    return ~crc;
}

static void put(struct file *file, const void *bytes, size_t size)
{
    memcpy(file->bytes + file->size, bytes, size);
    file->size += size;
}

/* The line `read`: dates and digits, or three times `-`. */
static void put_reading(const struct reading *reading, struct file *file)
{
    char line[64], digits[16] = "-";

    if (reading->known && reading->digits > 0)
        snprintf(digits, sizeof digits, "%" PRIu32, reading->digits);
    if (reading->known)
        snprintf(line, sizeof line, "read\t%08" PRIu32 "\t%08" PRIu32 "\t%s\n", reading->start, reading->read, digits);
    else
        strcpy(line, "read\t-\t-\t-\n");
    put(file, line, strlen(line));
}

/* A file has room for a code of 65,536 bytes, the longest there is, and a pattern that loads. */
void put_body(const struct stored *stored, struct file *file)
{
    char line[64];
    size_t i;

    file->size = 0;
    put(file, line, (size_t)snprintf(line, sizeof line, "library\t%" PRIu32 "\n", stored->library));
    put_reading(&stored->reading, file);
    put(file, line, (size_t)snprintf(line, sizeof line, "bits\t%" PRIu32 "\ncode\t", stored->bits));
    for (i = 0; i < stored->code_size; i++) {
        put(file, &HEX[stored->code[i] >> 4], 1);
        put(file, &HEX[stored->code[i] & 15], 1);
    }
    put(file, "\n", 1);
    put(file, stored->pattern, stored->pattern_size);
}

void put_ending(struct file *file)
{
    char line[ENDING + 1];

    snprintf(line, sizeof line, "crc32\t%08" PRIx32 "\n", crc32(file->bytes, file->size));
    put(file, line, ENDING);
}

static int is_damaged(const struct file *file)
{
    char line[ENDING + 1];
    size_t body = file->size - ENDING;

    if (file->size < ENDING || file->size == MOST)
        return 1;
    snprintf(line, sizeof line, "crc32\t%08" PRIx32 "\n", crc32(file->bytes, body));
    return memcmp(file->bytes + body, line, ENDING) != 0;
}

/* Takes a line off the front of the rest: what stands after its key. 0 if there is no such line. */
static int take_line(struct field *rest, const char *key, struct field *value)
{
    const uint8_t *end = rest->size > 0 ? memchr(rest->bytes, '\n', rest->size) : NULL;
    size_t size = end ? (size_t)(end - rest->bytes) : 0, length = strlen(key);

    if (!end || size < length || memcmp(rest->bytes, key, length) != 0)
        return 0;
    value->bytes = rest->bytes + length;
    value->size = size - length;
    rest->bytes += size + 1;
    rest->size -= size + 1;
    return 1;
}

static int hex_digit(uint8_t byte)
{
    const char *found = byte ? strchr(HEX, byte) : NULL;

    return found ? (int)(found - HEX) : -1;
}

static int take_code(struct field field, struct stored *stored)
{
    size_t i;

    stored->code_size = field.size / 2;
    for (i = 0; i < stored->code_size; i++) {
        int high = hex_digit(field.bytes[2 * i]), low = hex_digit(field.bytes[2 * i + 1]);

        if (high < 0 || low < 0)
            return 0;
        stored->code[i] = (uint8_t)(high << 4 | low);
    }
    return field.size % 2 == 0;
}

enum stored_fault take_stored(const struct file *file, struct stored *stored)
{
    struct field rest, library, known, bits, code;

    if (is_damaged(file))
        return STORED_DAMAGED;
    rest.bytes = file->bytes;
    rest.size = file->size - ENDING;
    if (!take_line(&rest, "library\t", &library) || !take_line(&rest, "read\t", &known) || !take_line(&rest, "bits\t", &bits)
        || !take_line(&rest, "code\t", &code))
        return STORED_MALFORMED;
    memcpy(stored->pattern, rest.bytes, rest.size);
    stored->pattern_size = rest.size;
    return number(library, 1, 9, &stored->library) && reading(known, &stored->reading) && number(bits, 1, 9, &stored->bits)
                   && take_code(code, stored)
               ? STORED_GOOD
               : STORED_MALFORMED;
}
