/* concentrator PATTERN PAGES: gathers a tape from pages that arrive newest first, and prints its litres.
 *
 * After each page it asks whether the letters held can be the end of a tape. If not, the page is fetched again at once, and not when the
 * whole tape has come and is refused. The exit status is 0 if the tape is read, 1 if it is refused, and 2 for trouble: a file that cannot be
 * read, a line of pages without a tab, output that cannot be written. It is C99 with POSIX's getline. */
#define _POSIX_C_SOURCE 200809L
#include "wumbyra.h"

#include <signal.h>
#include <stdio.h>
#include <string.h>
#include <sys/types.h>

/* What a concentrator keeps of a tape that it is fetching. */
static uint8_t desk[WUMBYRA_DESK_BYTES], letters[WUMBYRA_MAX_LETTERS];
static uint64_t words[WUMBYRA_MAX_WORDS];

static uint8_t text[WUMBYRA_DECISIVE_TEXT_BYTES];
static size_t size;

static int refused(uint64_t answer)
{
    if (wumbyra_number(answer) == WUMBYRA_OK)
        return 0;
    printf("refused\t%u\t%u\n", wumbyra_number(answer), wumbyra_value(answer));
    return 1;
}

/* Whether no tape of the pattern ends with the n letters held: from no line, with flag 1, can they be read. Ask with n above 0. */
static int is_unreadable(size_t n)
{
    return words[2 * n + 1] == 0;
}

/* A page, and whether its radio check is good, which is known only when all of it has come. */
static void take(const uint8_t *page, size_t length, int good)
{
    uint64_t answer = wumbyra_desk_put(text, size, desk, sizeof desk, page, length, letters, sizeof letters, words, WUMBYRA_MAX_WORDS);
    uint32_t held = wumbyra_value(answer);
    if (refused(answer))
        return;
    printf("put\t%u\n", held);
    if (is_unreadable(held))
        printf("unreadable\t%u\n", held);
    else if (good)
        return;
    answer = wumbyra_desk_withdraw(text, size, desk, sizeof desk, letters, sizeof letters);
    if (!refused(answer))
        printf("withdrawn\t%u\n", wumbyra_value(answer));
}

/* How many letters the desk holds: those of its pages. */
static size_t held(void)
{
    size_t sum = 0, page;
    for (page = 1; page <= desk[0]; page++)
        sum += desk[page];
    return sum;
}

static int print_litres(void)
{
    static uint8_t code[WUMBYRA_MAX_WRITTEN_CODE_BYTES];
    static uint64_t read[WUMBYRA_MAX_WORDS];
    uint32_t litres[WUMBYRA_ACCOUNTS], bits, account;
    size_t n = held();
    const uint8_t *tape = letters + WUMBYRA_MAX_LETTERS - n;
    uint64_t answer = wumbyra_parse(text, size, tape, n, read, WUMBYRA_MAX_WORDS, code, sizeof code);
    if (refused(answer))
        return 1;
    bits = wumbyra_value(answer);
    answer = wumbyra_totals(text, size, code, WUMBYRA_BYTES_OF_BITS(bits), bits, litres, WUMBYRA_ACCOUNTS);
    if (refused(answer))
        return 1;
    printf("tape\t%.*s\n", (int)n, (const char *)tape);
    for (account = 0; account < WUMBYRA_ACCOUNTS; account++)
        if (litres[account] > 0)
            printf("account\t%u\t%u\n", account, litres[account]);
    return 0;
}

/* The pages stand in a file here: `good` or `bad`, a tab, and the letters. 0 if a line has no tab. */
static int fetch(FILE *pages)
{
    char *line = NULL, *tab;
    size_t room = 0, length;
    ssize_t got;
    while ((got = getline(&line, &room, pages)) > 0) {
        length = (size_t)got - (line[got - 1] == '\n');
        tab = memchr(line, '\t', length);
        if (!tab)
            return 0;
        tab++;
        take((const uint8_t *)tab, length - (size_t)(tab - line), strncmp(line, "good\t", 5) == 0);
    }
    return 1;
}

static int complain(const char *about, const char *sentence)
{
    fprintf(stderr, "concentrator: %s%s\n", about, sentence);
    return 2;
}

static int run(const char *pattern_file, const char *pages_file)
{
    FILE *pattern = fopen(pattern_file, "rb"), *pages = fopen(pages_file, "rb");
    size = pattern ? fread(text, 1, sizeof text, pattern) : 0;
    if (!pattern || ferror(pattern))
        return complain(pattern_file, " cannot be read");
    if (!pages)
        return complain(pages_file, " cannot be read");
    if (refused(wumbyra_load(text, size)) || refused(wumbyra_desk_open(text, size, desk, sizeof desk, words, WUMBYRA_MAX_WORDS)))
        return 1;
    if (!fetch(pages))
        return complain("", "a line of pages has no tab");
    if (ferror(pages))
        return complain(pages_file, " cannot be read");
    return print_litres();
}

int main(int count, char **arguments)
{
    int status;
    signal(SIGPIPE, SIG_IGN); /* a pipe that is closed is output that cannot be written, and not the end of the program */
    if (count != 3) {
        fputs("usage: concentrator PATTERN PAGES\n", stderr);
        return 2;
    }
    status = run(arguments[1], arguments[2]);
    /* What is printed stands in a buffer until here, and a full disk is seen when it is written. */
    return fflush(stdout) != 0 || ferror(stdout) ? complain("", "standard output cannot be written to") : status;
}
