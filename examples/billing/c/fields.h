/* Files, and the fields of the small files beside a tape. A field is bytes: no sign, no space, and no encoding is known. */
#ifndef FIELDS_H
#define FIELDS_H

#include <stddef.h>
#include <stdint.h>

/* More bytes than the longest stored code has. What follows them in a file changes nothing: a pattern, tape or term so long is refused, and
 * so is a stored code. */
enum { MOST = 262144 };

struct file {
    uint8_t bytes[MOST];
    size_t size;
};

struct field {
    const uint8_t *bytes;
    size_t size;
};

/* What is known of a reading: the date of the first letter, the date on which the meter was read, and how many digits a day has. */
struct reading {
    int known;
    uint32_t start, read, digits; /* 0 digits where days differ */
};

/* 0 if it cannot be read. */
int read_file(const char *path, struct file *file);

/* The only line of a file, without its line end. */
struct field line_of(const struct file *file);

/* So many fields of a line, parted by tabs; 0 if it has another number. */
int fields_of(struct field line, struct field *fields, size_t count);

/* A number of so many digits, at most nine, and nothing else; 0 for any other field. strtoul would take signs and spaces. */
int number(struct field field, size_t least, size_t most, uint32_t *value);

/* Eight digits: 20240229 is 29 February 2024. The library tests whether there is such a day. */
int date(struct field field, uint32_t *value);

/* The fields of read.tsv, or three times `-` if nothing is known; 0 if it is malformed. */
int reading(struct field line, struct reading *reading);

#endif
