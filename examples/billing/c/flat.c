#define _POSIX_C_SOURCE 200809L
#include "flat.h"

#include "days.h"
#include "stored.h"

#include <inttypes.h>
#include <string.h>
#include <sys/stat.h>

/* The folder of a flat. */
struct place {
    const char *folder, *name;
};

struct term {
    uint32_t first, last;
};

enum { PATH_BYTES = 8192 };

int is_billed(const struct flat *flat)
{
    return !flat->fault && wumbyra_number(flat->answer) == WUMBYRA_OK;
}

/* Writes the path of a file of a flat; 0 if it is too long. */
static int put_path(char path[PATH_BYTES], struct place at, const char *file)
{
    return (size_t)snprintf(path, PATH_BYTES, "%s/%s/%s", at.folder, at.name, file) < PATH_BYTES;
}

/* Also if it is a link to nothing: the file was meant to be there. */
static int has(struct place at, const char *file)
{
    char path[PATH_BYTES];
    struct stat found;

    return put_path(path, at, file) && lstat(path, &found) == 0;
}

static int read_in(struct place at, const char *name, struct file *file)
{
    char path[PATH_BYTES];

    return put_path(path, at, name) && read_file(path, file);
}

static int write_stored(struct place at, const struct stored *stored)
{
    static struct file file;
    char path[PATH_BYTES];
    FILE *to = put_path(path, at, "stored.tsv") ? fopen(path, "wb") : NULL;
    int good;

    if (!to)
        return 0;
    put_body(stored, &file);
    put_ending(&file);
    good = fwrite(file.bytes, 1, file.size, to) == file.size;
    return fclose(to) == 0 && good;
}

/* Reads pattern, tape and dates, and then the tape by the pattern. */
static void code_of_tape(struct place at, struct flat *flat, struct stored *stored)
{
    /* Room for the longest tape, so no buffer is ever too short. */
    static uint64_t words[WUMBYRA_MAX_WORDS];
    static struct file pattern, tape, dates;
    struct field letters;

    stored->library = wumbyra_version();
    stored->reading.known = 0;
    if (!read_in(at, "pattern.tsv", &pattern))
        flat->fault = "pattern.tsv cannot be read";
    else if (!read_in(at, "tape.txt", &tape))
        flat->fault = "tape.txt cannot be read";
    else if (has(at, "read.tsv") && !read_in(at, "read.tsv", &dates))
        flat->fault = "read.tsv cannot be read";
    else if (has(at, "read.tsv") && !reading(line_of(&dates), &stored->reading))
        flat->fault = "read.tsv is malformed";
    if (flat->fault)
        return;
    memcpy(stored->pattern, pattern.bytes, pattern.size);
    stored->pattern_size = pattern.size;
    flat->answer = wumbyra_load(stored->pattern, stored->pattern_size);
    if (!is_billed(flat))
        return;
    letters = line_of(&tape);
    flat->answer = wumbyra_parse(stored->pattern, stored->pattern_size, letters.bytes, letters.size, words, WUMBYRA_MAX_WORDS,
                                 stored->code, sizeof stored->code);
    stored->bits = wumbyra_value(flat->answer);
    stored->code_size = WUMBYRA_BYTES_OF_BITS(stored->bits);
}

static void stored_code(struct place at, struct flat *flat, struct stored *stored)
{
    static struct file file;

    if (!read_in(at, "stored.tsv", &file)) {
        flat->fault = "stored.tsv cannot be read";
        return;
    }
    switch (take_stored(&file, stored)) {
    case STORED_DAMAGED: flat->fault = "the checksum of stored.tsv is wrong"; break;
    case STORED_MALFORMED: flat->fault = "stored.tsv is malformed"; break;
    case STORED_GOOD: break;
    }
}

/* The first and the last date of the bill: all dates there are, if the whole tape is billed. */
static void read_term(struct place at, struct flat *flat, const struct reading *reading, struct term *term)
{
    static struct file file;
    struct field fields[2];

    term->first = WUMBYRA_DATE(2000, 1, 1);
    term->last = WUMBYRA_DATE(2099, 12, 31);
    if (!has(at, "term.tsv"))
        return;
    if (!read_in(at, "term.tsv", &file))
        flat->fault = "term.tsv cannot be read";
    else if (!fields_of(line_of(&file), fields, 2) || !date(fields[0], &term->first) || !date(fields[1], &term->last))
        flat->fault = "term.tsv is malformed";
    else if (!reading->known)
        flat->fault = "term.tsv needs the dates of read.tsv";
}

static void add_up(struct flat *flat, const struct stored *stored, const struct term *term)
{
    const uint8_t *text = stored->pattern, *code = stored->code;
    size_t size = stored->pattern_size, bytes = stored->code_size;

    flat->answer = wumbyra_load(text, size);
    if (!is_billed(flat))
        return;
    if (stored->reading.known)
        flat->answer = wumbyra_term_totals(text, size, code, bytes, stored->bits, stored->reading.start, term->first, term->last,
                                           flat->litres, WUMBYRA_ACCOUNTS);
    else
        flat->answer = wumbyra_totals(text, size, code, bytes, stored->bits, flat->litres, WUMBYRA_ACCOUNTS);
}

static void put_warnings(FILE *out, struct flat *flat, const struct stored *stored)
{
    static uint8_t tape[WUMBYRA_MAX_LETTERS];

    if (stored->library != wumbyra_version())
        fprintf(out, "%s\tstored by library %" PRIu32 ", read by %" PRIu32 ": its litres may be on other accounts\n", flat->name,
                stored->library, wumbyra_version());
    if (!stored->reading.known)
        return;
    flat->answer = wumbyra_flatten(stored->pattern, stored->pattern_size, stored->code, stored->code_size, stored->bits, tape,
                                   sizeof tape);
    if (is_billed(flat))
        put_day_warnings(out, flat->name, tape, wumbyra_value(flat->answer), &stored->reading);
}

int bill_flat(const char *folder, int store, struct flat *flat, FILE *warnings)
{
    static struct stored stored;
    struct place at = {folder, flat->name};
    struct term term;
    int from_tape = has(at, "tape.txt") || !has(at, "stored.tsv");

    if (from_tape)
        code_of_tape(at, flat, &stored);
    else
        stored_code(at, flat, &stored);
    if (is_billed(flat))
        read_term(at, flat, &stored.reading, &term);
    if (is_billed(flat))
        add_up(flat, &stored, &term);
    if (!is_billed(flat))
        return 1;
    if (store && from_tape && !write_stored(at, &stored))
        return 0;
    put_warnings(warnings, flat, &stored);
    return 1;
}
