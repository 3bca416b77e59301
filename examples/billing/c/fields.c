#include "fields.h"

#include <stdio.h>

int read_file(const char *path, struct file *file)
{
    FILE *from = fopen(path, "rb");
    int good;

    if (!from)
        return 0;
    file->size = fread(file->bytes, 1, MOST, from);
    good = !ferror(from);
    fclose(from);
    return good;
}

struct field line_of(const struct file *file)
{
    struct field line = {file->bytes, file->size};

    if (line.size > 0 && line.bytes[line.size - 1] == '\n')
        line.size--;
    return line;
}

int fields_of(struct field line, struct field *fields, size_t count)
{
    size_t i, at = 0;

    fields[0].bytes = line.bytes;
    fields[0].size = 0;
    for (i = 0; i < line.size; i++) {
        if (line.bytes[i] != '\t') {
            fields[at].size++;
            continue;
        }
        if (++at == count)
            return 0;
        fields[at].bytes = line.bytes + i + 1;
        fields[at].size = 0;
    }
    return at + 1 == count;
}

int number(struct field field, size_t least, size_t most, uint32_t *value)
{
    size_t i;

    if (field.size < least || field.size > most)
        return 0;
    *value = 0;
    for (i = 0; i < field.size; i++) {
        if (field.bytes[i] < '0' || field.bytes[i] > '9')
            return 0;
        *value = *value * 10 + (field.bytes[i] - '0');
    }
    return 1;
}

int date(struct field field, uint32_t *value)
{
    return number(field, 8, 8, value);
}

static int is_dash(struct field field)
{
    return field.size == 1 && field.bytes[0] == '-';
}

int reading(struct field line, struct reading *reading)
{
    struct field fields[3];

    if (!fields_of(line, fields, 3))
        return 0;
    reading->digits = 0;
    reading->known = !(is_dash(fields[0]) && is_dash(fields[1]) && is_dash(fields[2]));
    if (!reading->known)
        return 1;
    return date(fields[0], &reading->start) && date(fields[1], &reading->read)
           && (is_dash(fields[2]) || number(fields[2], 1, 4, &reading->digits));
}
