/* The listing of the scope's example, through include/wumbyra.h, and each call's answers. It is C and C++. */
#include "wumbyra.h"

#include <stdio.h>
#include <string.h>

static const char pattern[] = "0\tR\t-\t0\t9\n1\tL\t-\tW\n2\tS\t9\t1\t0\n3\tR\t1\t0\t9\n4\tA\t-\t2\t3\n5\tK\t-\t4\n";
static const char tape[] = "3W2";
static int failed = 0;

static void expect(const char *what, uint64_t answer, uint32_t number, uint32_t value)
{
    if (wumbyra_number(answer) != number || wumbyra_value(answer) != value) {
        printf("%s: %u and %u, expected %u and %u\n", what, wumbyra_number(answer), wumbyra_value(answer), number, value);
        failed = 1;
    }
}

/* A star over a lazy star over one letter. The lazy star prefers to stop, and here it must take the letter first: an empty round of the
 * star above it is none. Another code of two letters has both of them in one round of that star. */
static void try_lazy_star(void)
{
    static const char lazy[] = "0\tL\t-\ta\n1\tZ\t-\t0\n2\tK\t-\t1\n";
    static const uint8_t letters[] = {'a', 'a'}, one_round[] = {0x68}; /* 01101 */
    const uint8_t *text = (const uint8_t *)lazy;
    const size_t len = sizeof lazy - 1;
    uint64_t words[2 * (2 + 1)];
    uint8_t code[WUMBYRA_CODE_BYTES(2)], spelled[2];
    expect("lazy star: load", wumbyra_load(text, len), WUMBYRA_OK, 3);
    expect("lazy star: parse", wumbyra_parse(text, len, letters, 1, words, WUMBYRA_WORDS(1), code, 1), WUMBYRA_OK, 4);
    if (code[0] != 0x50) /* 0101 */
        failed = 1;
    expect("lazy star: flatten", wumbyra_flatten(text, len, code, 1, 4, spelled, 1), WUMBYRA_OK, 1);
    if (spelled[0] != 'a')
        failed = 1;
    expect("lazy star: canonicalize",
           wumbyra_canonicalize(text, len, one_round, 1, 5, spelled, 2, words, WUMBYRA_WORDS(2), code, sizeof code), WUMBYRA_OK, 7);
    if (code[0] != 0x4a || memcmp(spelled, letters, 2) != 0) /* 0100101 */
        failed = 1;
    expect("small z", wumbyra_load((const uint8_t *)"0\tE\t-\n1\tz\t-\t0\n", 14), WUMBYRA_LINE_FORM, 1);
}

/* Letters of the hot side, and a range across the gap. Its bits may say any letter from `0` to 185, of which 185, a 9 with the highest
 * bit set, is no litre; bytes 127 to 160 lie between the ends and are no letters. */
static void try_hot_letters(void)
{
    static const char hot[] = "0\tL\t2\t\xa1\n1\tR\t1\t0\t\xb9\n2\tA\t-\t0\t1\n3\tK\t-\t2\n";
    static const uint8_t letters[] = {WUMBYRA_FIRST_HOT_LETTER, '7', 185}, bad[] = {'7', WUMBYRA_FIRST_HOT_LETTER - 1};
    static const uint8_t due[] = {0x13, 0x76, 0xe6}, gap[] = {0x5f, 0xe0}; /* 00 01 00110111 01 10111001 1, and 01 01111111 1 */
    const uint8_t *text = (const uint8_t *)hot;
    const size_t len = sizeof hot - 1;
    uint64_t words[2 * (3 + 1)];
    uint8_t code[WUMBYRA_CODE_BYTES(3)], spelled[3];
    uint32_t litres[3];
    expect("hot letters: load", wumbyra_load(text, len), WUMBYRA_OK, 4);
    expect("hot letters: parse", wumbyra_parse(text, len, letters, 3, words, WUMBYRA_WORDS(3), code, sizeof code), WUMBYRA_OK, 23);
    expect("hot letters: flatten", wumbyra_flatten(text, len, code, 3, 23, spelled, 3), WUMBYRA_OK, 3);
    if (memcmp(code, due, 3) != 0 || memcmp(spelled, letters, 3) != 0)
        failed = 1;
    expect("hot letters: span", wumbyra_span(text, len, letters, 3, code, 3, 23, 1, 1), WUMBYRA_OK, 2 << 16 | 1);
    expect("hot letters: totals", wumbyra_totals(text, len, code, 3, 23, litres, 3), WUMBYRA_OK, 0);
    if (litres[0] != 0 || litres[1] != 7 || litres[2] != 0)
        failed = 1;
    expect("byte 160", wumbyra_parse(text, len, bad, 2, words, WUMBYRA_WORDS(2), code, sizeof code), WUMBYRA_TAPE_BYTE, 1);
    expect("a code that names byte 127", wumbyra_flatten(text, len, gap, 2, 11, spelled, 3), WUMBYRA_NOT_A_CODE, 0);
    expect("a range of two letters", wumbyra_load((const uint8_t *)"0\tR\t-\t~\t\xa1\n", 10), WUMBYRA_OK, 1);
    expect("a range that ends in the gap", wumbyra_load((const uint8_t *)"0\tR\t-\t!\t\x80\n", 10), WUMBYRA_LINE_FORM, 0);
}

/* Digits of account 4 in a star of account 9, and behind it a 7, all in a sequence of account 3. Litres under account 9 go there, though
 * account 4 is nearer to them; the 7 stands beside the star and goes to account 3. */
static void try_stale(void)
{
    static const char stale[] = "0\tR\t4\t0\t9\n1\tK\t9\t0\n2\tL\t-\t7\n3\tS\t3\t1\t2\n";
    static const uint8_t letters[] = {'5', '6', '7'}, due[] = {0x1a, 0x8d, 0xa0}; /* 0 00110101 0 00110110 1 */
    const uint32_t day = WUMBYRA_DATE(2024, 2, 29);
    const uint8_t *text = (const uint8_t *)stale;
    const size_t len = sizeof stale - 1;
    uint64_t words[2 * (3 + 1)];
    uint8_t code[WUMBYRA_CODE_BYTES(3)];
    uint32_t litres[WUMBYRA_ACCOUNTS], term[WUMBYRA_ACCOUNTS];
    expect("stale litres: parse", wumbyra_parse(text, len, letters, 3, words, WUMBYRA_WORDS(3), code, sizeof code), WUMBYRA_OK, 19);
    if (memcmp(code, due, 3) != 0)
        failed = 1;
    expect("stale litres: totals", wumbyra_totals(text, len, code, 3, 19, litres, WUMBYRA_ACCOUNTS), WUMBYRA_OK, 0);
    if (litres[3] != 7 || litres[4] != 0 || litres[9] != 11)
        failed = 1;
    expect("stale litres: total", wumbyra_total(text, len, code, 3, 19, 9), WUMBYRA_OK, 11);
    expect("stale litres: term", wumbyra_term_totals(text, len, code, 3, 19, day, day, day, term, WUMBYRA_ACCOUNTS), WUMBYRA_OK, 0);
    if (memcmp(litres, term, sizeof litres) != 0)
        failed = 1;
}

/* A code with litres of account 200, in fewer cells. A program that knows ten accounts lends ten, and is told that these are too few; so is one
 * that lends none for account 200. */
static void try_few_cells(const uint8_t *text, size_t len, const uint8_t *code, uint32_t bits)
{
    enum { old_accounts = 10 };
    const uint32_t day = WUMBYRA_DATE(2024, 2, 29), next = WUMBYRA_DATE(2024, 3, 1);
    const size_t size = WUMBYRA_BYTES_OF_BITS(bits);
    uint32_t litres[WUMBYRA_ACCOUNTS], i;
    memset(litres, 7, sizeof litres);
    expect("ten cells", wumbyra_totals(text, len, code, size, bits, litres, old_accounts), WUMBYRA_CELLS_TOO_FEW, 0);
    for (i = 0; i < WUMBYRA_ACCOUNTS; i++)
        if (litres[i] != (i < old_accounts ? 0 : 0x07070707))
            failed = 1;
    expect("no cell for account 200", wumbyra_totals(text, len, code, size, bits, litres, 200), WUMBYRA_CELLS_TOO_FEW, 0);
    expect("no cell at all", wumbyra_totals(text, len, code, size, bits, litres, 0), WUMBYRA_CELLS_TOO_FEW, 0);
    memset(litres, 7, sizeof litres);
    expect("a term, ten cells", wumbyra_term_totals(text, len, code, size, bits, day, day, day, litres, old_accounts),
           WUMBYRA_CELLS_TOO_FEW, 0);
    if (litres[0] != 0 || litres[old_accounts - 1] != 0 || litres[old_accounts] != 0x07070707)
        failed = 1;
    /* It is the last cause, and litres outside the term do not count. */
    expect("few cells for no code", wumbyra_totals(text, len, code, size, bits - 1, litres, 1), WUMBYRA_NOT_A_CODE, 0);
    expect("few cells for no start", wumbyra_term_totals(text, len, code, size, bits, 0, day, day, litres, 1), WUMBYRA_TAPE_UNDATED, 0);
    expect("few cells for no term", wumbyra_term_totals(text, len, code, size, bits, day, day, 0, litres, 1), WUMBYRA_NOT_A_TERM, 0);
    expect("a day later, one cell", wumbyra_term_totals(text, len, code, size, bits, day, next, next, litres, 1), WUMBYRA_OK, 0);
}

/* A block's meters: a digit behind `w` is for account 20, behind `g` for account 100, behind `b` for account 200; one without such a letter
 * has the star's account, 99, which is not 9 and takes nothing from the others. */
static void try_many_accounts(void)
{
    static const char block[] = "0\tL\t-\tw\n1\tR\t20\t0\t9\n2\tS\t-\t0\t1\n3\tL\t-\tg\n4\tR\t100\t0\t9\n5\tS\t-\t3\t4\n"
                                "6\tL\t-\tb\n7\tR\t200\t0\t9\n8\tS\t-\t6\t7\n9\tR\t-\t0\t9\n"
                                "10\tA\t-\t2\t5\n11\tA\t-\t10\t8\n12\tA\t-\t11\t9\n13\tK\t99\t12\n";
    static const char read[] = "3w4g5b67";
    enum { letters = 8 };
    const uint32_t day = WUMBYRA_DATE(2024, 2, 29);
    const uint8_t *text = (const uint8_t *)block;
    const size_t len = sizeof block - 1;
    uint64_t words[2 * (letters + 1)], answer;
    uint8_t code[WUMBYRA_CODE_BYTES(letters)];
    uint32_t litres[WUMBYRA_ACCOUNTS + 1], term[WUMBYRA_ACCOUNTS], bits, sum = 0, i;
    size_t size;
    answer = wumbyra_parse(text, len, (const uint8_t *)read, letters, words, WUMBYRA_WORDS(letters), code, sizeof code);
    expect("many accounts: parse", answer, WUMBYRA_OK, 56);
    bits = wumbyra_value(answer);
    size = WUMBYRA_BYTES_OF_BITS(bits);
    litres[WUMBYRA_ACCOUNTS] = 7;
    expect("many accounts: totals", wumbyra_totals(text, len, code, size, bits, litres, WUMBYRA_ACCOUNTS + 1), WUMBYRA_OK, 0);
    for (i = 0; i < WUMBYRA_ACCOUNTS; i++)
        sum += litres[i];
    if (litres[20] != 4 || litres[99] != 10 || litres[100] != 5 || litres[200] != 6 || sum != 25 || litres[WUMBYRA_ACCOUNTS] != 7)
        failed = 1;
    expect("many accounts: term", wumbyra_term_totals(text, len, code, size, bits, day, day, day, term, WUMBYRA_ACCOUNTS), WUMBYRA_OK, 0);
    if (memcmp(litres, term, sizeof term) != 0)
        failed = 1;
    expect("total of account 200", wumbyra_total(text, len, code, size, bits, 200), WUMBYRA_OK, 6);
    expect("total of account 201", wumbyra_total(text, len, code, size, bits, 201), WUMBYRA_OK, 0);
    expect("total of account 456", wumbyra_total(text, len, code, size, bits, 256 + 200), WUMBYRA_OK, 0);
    try_few_cells(text, len, code, bits);
    expect("totals refused", wumbyra_totals(text, len, code, size, bits - 1, litres, WUMBYRA_ACCOUNTS), WUMBYRA_NOT_A_CODE, 0);
    for (i = 0; i < WUMBYRA_ACCOUNTS; i++)
        if (litres[i] != 0)
            failed = 1;
    expect("account 200", wumbyra_load((const uint8_t *)"0\tE\t200\n", 8), WUMBYRA_OK, 1);
    expect("account 201", wumbyra_load((const uint8_t *)"0\tE\t201\n", 8), WUMBYRA_LINE_FORM, 0);
    expect("account 010", wumbyra_load((const uint8_t *)"0\tE\t010\n", 8), WUMBYRA_LINE_FORM, 0);
    expect("account 0", wumbyra_load((const uint8_t *)"0\tE\t0\n", 6), WUMBYRA_LINE_FORM, 0);
}

/* Three days of digits for account 1, parted by `D`, the first of them 28 February 2024. */
static void try_terms(void)
{
    static const char days[] = "0\tR\t1\t0\t9\n1\tL\t-\tD\n2\tA\t-\t0\t1\n3\tK\t-\t2\n";
    static const uint8_t letters[] = {'1', 'D', '2', 'D', '4'};
    const uint32_t start = WUMBYRA_DATE(2024, 2, 28), leap_day = WUMBYRA_DATE(2024, 2, 29), last_day = WUMBYRA_DATE(2099, 12, 31);
    const uint8_t *text = (const uint8_t *)days;
    const size_t len = sizeof days - 1;
    uint64_t words[2 * (5 + 1)], answer;
    uint8_t code[WUMBYRA_CODE_BYTES(5)];
    uint32_t litres[3];
    uint32_t bits;
    size_t size;
    answer = wumbyra_parse(text, len, letters, 5, words, WUMBYRA_WORDS(5), code, sizeof code);
    expect("days: parse", answer, WUMBYRA_OK, 35);
    bits = wumbyra_value(answer);
    size = WUMBYRA_BYTES_OF_BITS(bits);
    litres[2] = 7;
    expect("a term of a day", wumbyra_term_totals(text, len, code, size, bits, start, leap_day, leap_day, litres, 2), WUMBYRA_OK, 0);
    if (litres[0] != 0 || litres[1] != 2 || litres[2] != 7)
        failed = 1;
    printf("term\t%u\t%u\n", leap_day, litres[1]);
    expect("a term of two days", wumbyra_term_totals(text, len, code, size, bits, start, start, leap_day, litres, 2), WUMBYRA_OK, 0);
    if (litres[1] != 3)
        failed = 1;
    expect("a term behind the tape", wumbyra_term_totals(text, len, code, size, bits, start, last_day, last_day, litres, 2), WUMBYRA_OK, 0);
    if (litres[1] != 0)
        failed = 1;
    litres[1] = 7;
    expect("no start", wumbyra_term_totals(text, len, code, size, bits, 0, start, leap_day, litres, 2), WUMBYRA_TAPE_UNDATED, 0);
    if (litres[0] != 0 || litres[1] != 0 || litres[2] != 7)
        failed = 1;
    expect("a tape that goes on in 2100", wumbyra_term_totals(text, len, code, size, bits, last_day, start, 0, litres, 2),
           WUMBYRA_TAPE_UNDATED, 0);
    expect("a term backwards", wumbyra_term_totals(text, len, code, size, bits, start, leap_day, start, litres, 2), WUMBYRA_NOT_A_TERM, 0);
    expect("29 February 2023", wumbyra_term_totals(text, len, code, size, bits, start, WUMBYRA_DATE(2023, 2, 29), leap_day, litres, 2),
           WUMBYRA_NOT_A_TERM, 0);
    expect("no code, start or term", wumbyra_term_totals(text, len, code, size, bits + 1, 0, 0, 0, litres, 2), WUMBYRA_NOT_A_CODE, 0);
}

/* The example's tape in three pages, the latest letters first, with one that is taken back; then every refusal. */
static void try_desk(void)
{
    static uint8_t cells[WUMBYRA_MAX_LETTERS];
    static const uint8_t bad[] = {'3', ' '}, spaces[WUMBYRA_MAX_PAGE_LETTERS + 1] = {0};
    const uint8_t *text = (const uint8_t *)pattern, *page = (const uint8_t *)tape;
    const size_t len = sizeof pattern - 1, size = WUMBYRA_DESK_BYTES;
    uint8_t desk[WUMBYRA_DESK_BYTES + 1], code[WUMBYRA_CODE_BYTES(3)];
    uint64_t words[2 * (3 + 1)], read[2 * (3 + 1)];
    size_t j;
    memset(desk, 255, sizeof desk);
    expect("desk: open without words", wumbyra_desk_open(text, len, desk, size + 1, words, 1), WUMBYRA_WORDS_TOO_SHORT, 2);
    expect("desk: open 32 bytes", wumbyra_desk_open(text, len, desk, size + 1, words, 2), WUMBYRA_DESK_LIMITS, 0);
    expect("desk: withdraw from no desk", wumbyra_desk_withdraw(text, len, desk, size, cells, sizeof cells), WUMBYRA_DESK_LIMITS, 0);
    expect("desk: open", wumbyra_desk_open(text, len, desk, size, words, 2), WUMBYRA_OK, 0);
    if (desk[0] != 0 || desk[size - 1] != 0 || desk[size] != 255)
        failed = 1;
    expect("desk: put the last letter", wumbyra_desk_put(text, len, desk, size, page + 2, 1, cells, sizeof cells, words, 8), WUMBYRA_OK, 1);
    expect("desk: put", wumbyra_desk_put(text, len, desk, size, page, 2, cells, sizeof cells, words, 8), WUMBYRA_OK, 3);
    expect("desk: withdraw", wumbyra_desk_withdraw(text, len, desk, size, cells, sizeof cells), WUMBYRA_OK, 1);
    expect("desk: put W", wumbyra_desk_put(text, len, desk, size, page + 1, 1, cells, sizeof cells, words, 6), WUMBYRA_OK, 2);
    expect("desk: put short of words", wumbyra_desk_put(text, len, desk, size, page, 1, cells, sizeof cells, words, 7),
           WUMBYRA_WORDS_TOO_SHORT, 8);
    expect("desk: put the first letter", wumbyra_desk_put(text, len, desk, size, page, 1, cells, sizeof cells, words, 8), WUMBYRA_OK, 3);
    printf("desk\t%u\t%.3s\n", desk[0], (const char *)cells + WUMBYRA_MAX_LETTERS - 3);
    expect("desk: parse", wumbyra_parse(text, len, cells + WUMBYRA_MAX_LETTERS - 3, 3, read, 8, code, sizeof code), WUMBYRA_OK, 21);
    for (j = 0; j <= 3; j++)
        if (words[2 * j] != read[2 * (3 - j)] || words[2 * j + 1] != read[2 * (3 - j) + 1])
            failed = 1;
    expect("desk: no text", wumbyra_desk_put(text, 0, desk, size, bad, 2, cells, 0, words, 0), WUMBYRA_TREE, 0);
    expect("desk: few cells", wumbyra_desk_put(text, len, desk, size, spaces, 0, cells, sizeof cells - 1, words, 0),
           WUMBYRA_TAPE_TOO_SHORT, WUMBYRA_MAX_LETTERS);
    expect("desk: no page", wumbyra_desk_put(text, len, desk, size, spaces, 0, cells, sizeof cells, words, 0), WUMBYRA_DESK_LIMITS, 0);
    expect("desk: a long page", wumbyra_desk_put(text, len, desk, size, spaces, sizeof spaces, cells, sizeof cells, words, 0),
           WUMBYRA_DESK_LIMITS, 0);
    expect("desk: a bad letter", wumbyra_desk_put(text, len, desk, size, bad, 2, cells, sizeof cells, words, 0), WUMBYRA_TAPE_BYTE, 1);
    for (j = 3; j > 0; j--)
        expect("desk: withdraw all", wumbyra_desk_withdraw(text, len, desk, size, cells, sizeof cells), WUMBYRA_OK, (uint32_t)j - 1);
    expect("desk: withdraw from an empty one", wumbyra_desk_withdraw(text, len, desk, size, cells, sizeof cells), WUMBYRA_DESK_EMPTY, 0);
    memset(desk, 1, size);
    desk[0] = WUMBYRA_MAX_PAGES;
    memset(cells, '7', sizeof cells);
    expect("desk: a full one", wumbyra_desk_put(text, len, desk, size, bad, 2, cells, sizeof cells, words, 8), WUMBYRA_DESK_FULL, 0);
}

/* Where tapes break: at a letter that cannot follow, at the end, or not at all. The pattern is the example's. */
static void try_locate(void)
{
    static const struct {
        const char *tape;
        uint32_t reach, resume;
    } rows[] = {
        {"", 0, 0},           /* no letter: it is readable */
        {"3W2", 3, 0},        /* readable */
        {"3WW2", 2, 2},       /* the second W cannot follow, and W2 can be read */
        {"3Wx2", 2, 3},       /* nor can x */
        {"3W", 2, 2},         /* it stops too early */
        {"3xx", 1, 3},        /* no letter at its end can be read */
    };
    static const char abc[] = "0\tL\t-\ta\n1\tL\t-\tb\n2\tS\t-\t0\t1\n3\tL\t-\tc\n4\tS\t-\t2\t3\n";
    static const uint8_t bad[] = {'3', 'W', ' ', 127};
    static uint8_t many[WUMBYRA_MAX_LETTERS + 1];
    const uint8_t *text = (const uint8_t *)pattern;
    const size_t len = sizeof pattern - 1;
    uint64_t answer;
    size_t i;
    for (i = 0; i < sizeof rows / sizeof *rows; i++) {
        answer = wumbyra_locate(text, len, (const uint8_t *)rows[i].tape, strlen(rows[i].tape));
        expect(rows[i].tape, answer, WUMBYRA_OK, rows[i].reach << 16 | rows[i].resume);
        if (wumbyra_locate_reach(answer) != rows[i].reach || wumbyra_locate_resume(answer) != rows[i].resume)
            failed = 1;
    }
    /* No tape of this pattern begins with b, and "bc" ends one. */
    expect("locate: no first letter", wumbyra_locate((const uint8_t *)abc, sizeof abc - 1, (const uint8_t *)"bc", 2), WUMBYRA_OK, 0);
    expect("locate: no text", wumbyra_locate(text, 0, many, sizeof many), WUMBYRA_TREE, 0);
    expect("locate: 3,601 letters", wumbyra_locate(text, len, many, sizeof many), WUMBYRA_TAPE_TOO_LONG, 0);
    expect("locate: a byte that is no letter", wumbyra_locate(text, len, bad, sizeof bad), WUMBYRA_TAPE_BYTE, 2);
    memset(many, '9', sizeof many);
    expect("locate: the longest tape", wumbyra_locate(text, len, many, WUMBYRA_MAX_LETTERS), WUMBYRA_OK, WUMBYRA_MAX_LETTERS << 16);
    answer = wumbyra_locate(text, len, (const uint8_t *)"3Wx2", 4);
    printf("locate\t%u\t%u\n", wumbyra_locate_reach(answer), wumbyra_locate_resume(answer));
}

int main(void)
{
    enum { letters = 3 };
    const uint8_t *text = (const uint8_t *)pattern;
    const uint8_t *read = (const uint8_t *)tape;
    const size_t len = sizeof pattern - 1;
    uint64_t words[2 * (letters + 1)], again[2 * (letters + 1)];
    uint8_t code[WUMBYRA_CODE_BYTES(letters)], canonical[WUMBYRA_CODE_BYTES(letters)], spelled[letters];
    uint32_t litres[WUMBYRA_ACCOUNTS + 1];
    uint64_t answer;
    uint32_t bits, i;

    if (wumbyra_version() != WUMBYRA_VERSION_NUMBER) {
        printf("the library's version is %u, the header's %d\n", wumbyra_version(), WUMBYRA_VERSION_NUMBER);
        failed = 1;
    }
    expect("load", wumbyra_load(text, len), WUMBYRA_OK, 6);
    expect("load no text", wumbyra_load(text, 0), WUMBYRA_LINE_FORM, 0);
    answer = wumbyra_parse(text, len, read, letters, words, WUMBYRA_WORDS(letters), code, WUMBYRA_CODE_BYTES(letters));
    expect("parse", answer, WUMBYRA_OK, 21);
    bits = wumbyra_value(answer);
    printf("tape\t%d\t%u\t%02x%02x%02x\n", letters, bits, code[0], code[1], code[2]);
    litres[WUMBYRA_ACCOUNTS] = 7;
    expect("totals", wumbyra_totals(text, len, code, 3, bits, litres, WUMBYRA_ACCOUNTS + 1), WUMBYRA_OK, 0);
    for (i = 0; i < WUMBYRA_ACCOUNTS; i++) {
        expect("total", wumbyra_total(text, len, code, 3, bits, i), WUMBYRA_OK, litres[i]);
        if (litres[i] > 0)
            printf("account\t%u\t%u\n", i, litres[i]);
    }
    if (litres[WUMBYRA_ACCOUNTS] != 7)
        failed = 1;
    litres[1] = 7;
    expect("totals in one cell", wumbyra_totals(text, len, code, 3, bits, litres, 1), WUMBYRA_CELLS_TOO_FEW, 0);
    if (litres[0] != 0 || litres[1] != 7)
        failed = 1;
    litres[10] = 7;
    expect("totals in ten cells", wumbyra_totals(text, len, code, 3, bits, litres, 10), WUMBYRA_OK, 0);
    if (litres[1] != 3 || litres[9] != 2 || litres[10] != 7)
        failed = 1;
    expect("totals refused", wumbyra_totals(text, len, code, 3, 25, litres, 2), WUMBYRA_NOT_A_CODE, 0);
    if (litres[0] != 0 || litres[1] != 0 || litres[9] != 2)
        failed = 1;
    expect("total of no account", wumbyra_total(text, len, code, 3, bits, WUMBYRA_ACCOUNTS), WUMBYRA_OK, 0);
    expect("flatten", wumbyra_flatten(text, len, code, 3, bits, spelled, letters), WUMBYRA_OK, letters);
    if (memcmp(spelled, tape, letters) != 0)
        failed = 1;
    expect("flatten short", wumbyra_flatten(text, len, code, 3, bits, spelled, letters - 1), WUMBYRA_TAPE_TOO_SHORT, 3);
    answer = wumbyra_canonicalize(text, len, code, 3, bits, spelled, letters, again, WUMBYRA_WORDS(letters), canonical,
                                  sizeof canonical);
    expect("canonicalize", answer, WUMBYRA_OK, bits);
    if (memcmp(canonical, code, 3) != 0 || memcmp(again, words, sizeof words) != 0)
        failed = 1;
    answer = wumbyra_span(text, len, read, letters, code, 3, bits, 2, 0);
    expect("span", answer, WUMBYRA_OK, 1 << 16 | 2);
    printf("span\t%u\t%u\n", wumbyra_span_start(answer), wumbyra_span_length(answer));
    expect("span of no node", wumbyra_span(text, len, read, letters, code, 3, bits, 6, 0), WUMBYRA_NO_SUCH_VISIT, 0);
    try_lazy_star();
    try_hot_letters();
    try_stale();
    try_many_accounts();
    try_terms();
    try_desk();
    try_locate();
    expect("count past the bytes", wumbyra_total(text, len, code, 3, 25, 1), WUMBYRA_NOT_A_CODE, 0);
    return failed;
}
