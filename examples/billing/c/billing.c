/* billing [--store] FOLDER: the litres of all flats under FOLDER, as one table on standard output. It has a column for each account that
 * some bill has litres on. billing --flip FILE: what one changed bit does to a stored code.
 *
 * Each flat is a folder with pattern.tsv and tape.txt, or with stored.tsv, which --store writes. read.tsv has the dates of the reading, and
 * term.tsv those of a bill for some days only. ../README.md has their forms. A flat with a fault gets no litres at all: it stands under the
 * table with the cause, and all others are billed. The exit status is 0 if all flats are billed, 1 if some are not, and 2 for trouble: a
 * folder that cannot be read, or output that cannot be written. */
#define _POSIX_C_SOURCE 200809L
#include "flat.h"
#include "flips.h"

#include <dirent.h>
#include <inttypes.h>
#include <signal.h>
#include <stdlib.h>
#include <string.h>

static int is_control(char byte)
{
    return (unsigned char)byte < 32 || byte == 127;
}

static int is_bad_name(const char *name)
{
    if (strcmp(name, "flat") == 0 || strcmp(name, "sum") == 0)
        return 1;
    while (*name && !is_control(*name))
        name++;
    return *name != 0;
}

/* A name with a tab or a line end would make other columns and rows. */
static void print_name(const char *name)
{
    for (; *name; name++)
        putchar(is_control(*name) ? '?' : *name);
}

/* A cause in words. 6, 7, 9 and 10 are about lent buffers and visits, and do not occur here. */
static void print_cause(uint64_t answer)
{
    uint32_t value = wumbyra_value(answer);

    switch (wumbyra_number(answer)) {
    case WUMBYRA_LINE_FORM: printf("line %" PRIu32 " of the pattern has not the form of a line\n", value); break;
    case WUMBYRA_TREE: printf("the lines of the pattern are no tree (line %" PRIu32 ")\n", value); break;
    case WUMBYRA_TAPE_TOO_LONG: puts("the tape has over 3,600 letters"); break;
    case WUMBYRA_TAPE_BYTE: printf("the byte at position %" PRIu32 " of the tape is no letter\n", value); break;
    case WUMBYRA_UNREADABLE: puts("no parse of the pattern spells the tape"); break;
    case WUMBYRA_NOT_A_CODE: puts("not a whole code of the pattern, or one of another tape"); break;
    case WUMBYRA_TAPE_UNDATED: puts("the start is no date, or a letter is dated past 31 December 2099"); break;
    case WUMBYRA_NOT_A_TERM: puts("the term's first or last date is none, or the last is before the first"); break;
    default: puts("a cause that does not occur here"); break;
    }
}

/* The sums of all bills, account by account. */
static void add_up(const struct flat *flats, size_t count, uint64_t sums[WUMBYRA_ACCOUNTS])
{
    size_t i;
    int a;

    memset(sums, 0, WUMBYRA_ACCOUNTS * sizeof *sums);
    for (i = 0; i < count; i++)
        for (a = 0; a < WUMBYRA_ACCOUNTS && is_billed(&flats[i]); a++)
            sums[a] += flats[i].litres[a];
}

/* A row of the table: the litres of each account that has a column, and of all. There is a column where the sum is above 0. */
static void print_row(const char *name, const uint64_t litres[WUMBYRA_ACCOUNTS], const uint64_t sums[WUMBYRA_ACCOUNTS])
{
    uint64_t all = 0;
    int a;

    fputs(name, stdout);
    for (a = 0; a < WUMBYRA_ACCOUNTS; a++) {
        if (sums[a] > 0)
            printf("\t%" PRIu64, litres[a]);
        all += litres[a];
    }
    printf("\t%" PRIu64 "\n", all);
}

static void print_table(const struct flat *flats, size_t count)
{
    uint64_t litres[WUMBYRA_ACCOUNTS], sums[WUMBYRA_ACCOUNTS];
    size_t i;
    int a;

    add_up(flats, count, sums);
    fputs("flat", stdout);
    for (a = 0; a < WUMBYRA_ACCOUNTS; a++)
        if (sums[a] > 0)
            printf("\t%d", a);
    puts("\tall");
    for (i = 0; i < count; i++) {
        if (!is_billed(&flats[i]))
            continue;
        for (a = 0; a < WUMBYRA_ACCOUNTS; a++)
            litres[a] = flats[i].litres[a];
        print_row(flats[i].name, litres, sums);
    }
    print_row("sum", sums, sums);
}

/* How many flats are not billed. */
static size_t print_unbilled(const struct flat *flats, size_t count)
{
    size_t i, unbilled = 0;

    puts("\nnot billed");
    for (i = 0; i < count; i++) {
        if (is_billed(&flats[i]))
            continue;
        unbilled++;
        print_name(flats[i].name);
        if (flats[i].fault)
            printf("\t-\t-\t%s\n", flats[i].fault);
        else {
            printf("\t%" PRIu32 "\t%" PRIu32 "\t", wumbyra_number(flats[i].answer), wumbyra_value(flats[i].answer));
            print_cause(flats[i].answer);
        }
    }
    return unbilled;
}

/* The exit status of trouble. */
static int complain(const char *about, const char *words)
{
    fprintf(stderr, "billing: %s%s\n", about, words);
    return 2;
}

/* The exit status: what is printed stands in a buffer until here, and a full disk is seen when it is written. */
static int finish(int status)
{
    return fflush(stdout) != 0 || ferror(stdout) ? complain("", "standard output cannot be written to") : status;
}

static int is_flat(const struct dirent *entry)
{
    return entry->d_name[0] != '.';
}

/* By bytes, whatever the locale. */
static int by_name(const struct dirent **one, const struct dirent **two)
{
    return strcmp((*one)->d_name, (*two)->d_name);
}

static int bill_folder(const char *folder, int store)
{
    struct dirent **entries;
    int found = scandir(folder, &entries, is_flat, by_name);
    size_t i, count = found < 0 ? 0 : (size_t)found, size, unbilled;
    struct flat *flats = calloc(count + 1, sizeof *flats);
    char *text;
    FILE *warnings = open_memstream(&text, &size);

    if (found < 0)
        return complain(folder, " cannot be read");
    if (!flats || !warnings)
        return complain("", "there is no memory");
    for (i = 0; i < count; i++) {
        flats[i].name = entries[i]->d_name;
        if (is_bad_name(flats[i].name))
            flats[i].fault = "its name cannot stand in the table";
        else if (!bill_flat(folder, store, &flats[i], warnings))
            return complain("", "a code cannot be stored");
    }
    print_table(flats, count);
    unbilled = print_unbilled(flats, count);
    if (fclose(warnings) != 0)
        return complain("", "there is no memory");
    printf("\nwarnings\n%s", text);
    return finish(unbilled > 0);
}

static int flip_file(const char *path)
{
    static struct file file;
    static struct stored stored;

    if (!read_file(path, &file))
        return complain(path, " cannot be read");
    if (take_stored(&file, &stored) != STORED_GOOD || !print_flips(&stored))
        return complain(path, " is not a stored code");
    return finish(0);
}

int main(int argc, char **argv)
{
    signal(SIGPIPE, SIG_IGN); /* a pipe that is closed is output that cannot be written, and not the end of the program */
    if (argc == 2)
        return bill_folder(argv[1], 0);
    if (argc == 3 && strcmp(argv[1], "--store") == 0)
        return bill_folder(argv[2], 1);
    if (argc == 3 && strcmp(argv[1], "--flip") == 0)
        return flip_file(argv[2]);
    fputs("usage: billing [--store] FOLDER | billing --flip FILE\n", stderr);
    return 2;
}
