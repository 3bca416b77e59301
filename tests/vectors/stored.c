/* stored CASES EXPECTED: makes the calls of the stored cases and compares what they answer, and what they leave in the lent buffers, with
 * what program `vectors` prints for the same cases. It needs no prover and runs on any processor that the library is built for.
 * Exit status 1 if something differs, 2 if the files cannot be read. */
#include "cases.h"
#include "wumbyra.h"

#include <inttypes.h>
#include <stdio.h>
#include <stdlib.h>
#include <string.h>

enum { CASE_ROOM = 20480 + 2, MOST_SHOWN = 10 };

struct check {
    const char *cases_name, *expected_name;
    FILE *cases, *expected;
    uint32_t number; /* of the case: its line, from 1 on */
    bool differs; /* a line of this case */
    uint32_t shown; /* differences, of all cases */
    char line[LINE_ROOM]; /* that is expected */
};

/* A kind of case. Those that no call from C can answer are left out. */
struct kind {
    char letter;
    bool left_out;
    void (*run)(struct check *check, struct fields *fields);
    const char *what;
};

static const struct kind kinds[] = {
    {'l', false, run_load, "loads; of a table its line count, which is all that C is told of it"},
    {'p', false, run_parse, "parses"},
    {'c', false, run_code, "codes: flatten, totals, total, canonicalize"},
    {'s', false, run_span, "spans"},
    {'t', false, run_term, "totals within a term"},
    {'b', false, run_locate, "where a tape breaks"},
    {'d', false, run_desk, "calls of a page desk"},
    {'f', false, run_litres, "totals in lent cells"},
    {'a', true, pass_altered, "services on a table with another account, which no call from C takes"},
};

enum { KINDS = sizeof kinds / sizeof *kinds };

static void stop(const char *name, const char *why)
{
    fprintf(stderr, "%s: %s\n", name, why);
    exit(2);
}

static FILE *opened(const char *name)
{
    FILE *file = fopen(name, "r");
    if (file == NULL) {
        perror(name);
        exit(2);
    }
    return file;
}

/* The next line without its end. Answers whether there is one. */
static bool read_line(FILE *file, const char *name, char *line, int room)
{
    char *end;
    if (fgets(line, room, file) == NULL) {
        if (ferror(file))
            stop(name, "cannot be read");
        line[0] = '\0';
        return false;
    }
    end = strchr(line, '\n');
    if (end == NULL)
        stop(name, "has a line that is too long, or not ended");
    else
        *end = '\0';
    return true;
}

static bool next_expected(struct check *check)
{
    return read_line(check->expected, check->expected_name, check->line, LINE_ROOM);
}

/* Of a case that differs in several lines the first is shown. */
static void differ(struct check *check, const char *expected, const char *found)
{
    if (!check->differs && check->shown++ < MOST_SHOWN)
        printf("%s, line %" PRIu32 ":\n  expected %s\n  found    %s\n", check->cases_name, check->number, expected, found);
    check->differs = true;
}

const char *expect_line(struct check *check, const struct line *found)
{
    if (!next_expected(check))
        differ(check, "nothing", found->text);
    else if (strcmp(check->line, found->text) != 0)
        differ(check, check->line, found->text);
    return check->line;
}

void pass_lines(struct check *check, uint32_t count)
{
    for (; count > 0; count--)
        if (!next_expected(check)) {
            differ(check, "nothing", "a line that is stepped over");
            return;
        }
}

/* Runs a case, and answers its kind. */
static size_t run_case(struct check *check, const char *line)
{
    struct fields fields = {line, false};
    const char letter = take_letter(&fields);
    size_t kind = 0;
    while (kind < KINDS && kinds[kind].letter != letter)
        kind++;
    check->differs = false;
    if (kind < KINDS && !fields.bad)
        kinds[kind].run(check, &fields);
    if (kind == KINDS || fields.bad || *fields.rest != '\0') {
        fprintf(stderr, "line %" PRIu32 ": ", check->number);
        stop(check->cases_name, "not a case");
    }
    return kind;
}

/* What belongs to no case: the library has the header's version, and no line is expected after the last case. */
static uint32_t check_beside(struct check *check)
{
    uint32_t failed = 0;
    if (wumbyra_version() != WUMBYRA_VERSION_NUMBER) {
        printf("the library has version %" PRIu32 ", the header %d\n", wumbyra_version(), WUMBYRA_VERSION_NUMBER);
        failed++;
    }
    if (next_expected(check)) {
        printf("%s: after the last case a line is left\n", check->expected_name);
        failed++;
    }
    return failed;
}

int main(int count, char **arguments)
{
    static struct check check;
    static char line[CASE_ROOM];
    uint32_t cases[KINDS] = {0}, passed = 0, failed = 0;
    if (count != 3)
        stop("usage", "stored CASES EXPECTED");
    check.cases_name = arguments[1];
    check.expected_name = arguments[2];
    check.cases = opened(arguments[1]);
    check.expected = opened(arguments[2]);
    while (read_line(check.cases, check.cases_name, line, sizeof line)) {
        size_t kind;
        check.number++;
        kind = run_case(&check, line);
        cases[kind]++;
        failed += check.differs;
        passed += !kinds[kind].left_out && !check.differs;
    }
    failed += check_beside(&check);
    for (size_t i = 0; i < KINDS; i++)
        printf("%c: %" PRIu32 " compared, %" PRIu32 " left out (%s)\n", kinds[i].letter, kinds[i].left_out ? 0 : cases[i],
               kinds[i].left_out ? cases[i] : 0, kinds[i].what);
    printf("%" PRIu32 " passed, %" PRIu32 " failed\n", passed, failed);
    return failed > 0;
}
