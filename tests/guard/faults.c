/* Stand-ins for the library's calls, each with one fault, to show that the guard test finds it. FAULT in the environment has its number;
 * 0 is none. The linker puts them before the calls (--wrap); a fault is in what they do beside the proved call. */
#include "cases.h"

#include <stdio.h>
#include <stdlib.h>
#include <string.h>

uint64_t __real_wumbyra_load(const uint8_t *text, size_t text_len);
uint64_t __real_wumbyra_parse(const uint8_t *text, size_t text_len, const uint8_t *tape, size_t tape_len, uint64_t *words,
                              size_t words_len, uint8_t *code, size_t code_len);
uint64_t __real_wumbyra_flatten(const uint8_t *text, size_t text_len, const uint8_t *code, size_t code_len, uint32_t count,
                                uint8_t *tape, size_t tape_len);
uint64_t __real_wumbyra_canonicalize(const uint8_t *text, size_t text_len, const uint8_t *code, size_t code_len, uint32_t count,
                                     uint8_t *tape, size_t tape_len, uint64_t *words, size_t words_len, uint8_t *canonical,
                                     size_t canonical_len);
uint64_t __real_wumbyra_span(const uint8_t *text, size_t text_len, const uint8_t *tape, size_t tape_len, const uint8_t *code,
                             size_t code_len, uint32_t count, uint32_t node, uint32_t visit);
uint64_t __real_wumbyra_locate(const uint8_t *text, size_t text_len, const uint8_t *tape, size_t tape_len);
uint64_t __real_wumbyra_total(const uint8_t *text, size_t text_len, const uint8_t *code, size_t code_len, uint32_t count,
                              uint32_t account);
uint64_t __real_wumbyra_totals(const uint8_t *text, size_t text_len, const uint8_t *code, size_t code_len, uint32_t count,
                               uint32_t *litres, size_t litres_len);
uint64_t __real_wumbyra_term_totals(const uint8_t *text, size_t text_len, const uint8_t *code, size_t code_len, uint32_t count,
                                    uint32_t start, uint32_t first, uint32_t last, uint32_t *litres, size_t litres_len);
uint64_t __real_wumbyra_desk_open(const uint8_t *text, size_t text_len, uint8_t *desk, size_t desk_len, uint64_t *words, size_t words_len);
uint64_t __real_wumbyra_desk_put(const uint8_t *text, size_t text_len, uint8_t *desk, size_t desk_len, const uint8_t *page, size_t page_len,
                                 uint8_t *letters, size_t letters_len, uint64_t *words, size_t words_len);
uint64_t __real_wumbyra_desk_withdraw(const uint8_t *text, size_t text_len, uint8_t *desk, size_t desk_len, const uint8_t *letters,
                                      size_t letters_len);
uint64_t __wrap_wumbyra_load(const uint8_t *text, size_t text_len);
uint64_t __wrap_wumbyra_parse(const uint8_t *text, size_t text_len, const uint8_t *tape, size_t tape_len, uint64_t *words,
                              size_t words_len, uint8_t *code, size_t code_len);
uint64_t __wrap_wumbyra_flatten(const uint8_t *text, size_t text_len, const uint8_t *code, size_t code_len, uint32_t count,
                                uint8_t *tape, size_t tape_len);
uint64_t __wrap_wumbyra_canonicalize(const uint8_t *text, size_t text_len, const uint8_t *code, size_t code_len, uint32_t count,
                                     uint8_t *tape, size_t tape_len, uint64_t *words, size_t words_len, uint8_t *canonical,
                                     size_t canonical_len);
uint64_t __wrap_wumbyra_span(const uint8_t *text, size_t text_len, const uint8_t *tape, size_t tape_len, const uint8_t *code,
                             size_t code_len, uint32_t count, uint32_t node, uint32_t visit);
uint64_t __wrap_wumbyra_locate(const uint8_t *text, size_t text_len, const uint8_t *tape, size_t tape_len);
uint64_t __wrap_wumbyra_total(const uint8_t *text, size_t text_len, const uint8_t *code, size_t code_len, uint32_t count,
                              uint32_t account);
uint64_t __wrap_wumbyra_totals(const uint8_t *text, size_t text_len, const uint8_t *code, size_t code_len, uint32_t count,
                               uint32_t *litres, size_t litres_len);
uint64_t __wrap_wumbyra_term_totals(const uint8_t *text, size_t text_len, const uint8_t *code, size_t code_len, uint32_t count,
                                    uint32_t start, uint32_t first, uint32_t last, uint32_t *litres, size_t litres_len);
uint64_t __wrap_wumbyra_desk_open(const uint8_t *text, size_t text_len, uint8_t *desk, size_t desk_len, uint64_t *words, size_t words_len);
uint64_t __wrap_wumbyra_desk_put(const uint8_t *text, size_t text_len, uint8_t *desk, size_t desk_len, const uint8_t *page, size_t page_len,
                                 uint8_t *letters, size_t letters_len, uint64_t *words, size_t words_len);
uint64_t __wrap_wumbyra_desk_withdraw(const uint8_t *text, size_t text_len, uint8_t *desk, size_t desk_len, const uint8_t *letters,
                                      size_t letters_len);

static int fault(void)
{
    const char *number = getenv("FAULT");
    return number == NULL ? 0 : atoi(number);
}

static volatile uint8_t seen; /* so that what is read too much is read */
static uint8_t kept[WUMBYRA_MAX_LETTERS]; /* state between calls */

static bool in_gap(uint8_t byte)
{
    return byte > WUMBYRA_LAST_LETTER && byte < WUMBYRA_FIRST_HOT_LETTER;
}

/* How many of these bytes are from `low` to `high`. */
static uint32_t counted(const uint8_t *bytes, size_t size, uint8_t low, uint8_t high)
{
    uint32_t count = 0;
    for (size_t i = 0; i < size; i++)
        if (bytes[i] >= low && bytes[i] <= high)
            count++;
    return count;
}

/* ---- account fields of a text */

enum { OLD_ACCOUNTS = 10, OTHER_ROOM = WUMBYRA_DECISIVE_TEXT_BYTES };

/* Where the account field of the line that begins at `at` begins and how long it is, and where the next line begins; the end of the text
 * where there is no such. */
static size_t account_at(const uint8_t *text, size_t text_len, size_t at)
{
    for (int tabs = 0; at < text_len && text[at] != '\n' && tabs < 2; at++)
        tabs += text[at] == '\t';
    return at;
}

static size_t account_size(const uint8_t *text, size_t text_len, size_t at)
{
    size_t size = 0;
    while (at + size < text_len && text[at + size] != '\t' && text[at + size] != '\n')
        size++;
    return size;
}

static size_t line_behind(const uint8_t *text, size_t text_len, size_t at)
{
    while (at < text_len && text[at] != '\n')
        at++;
    return at + 1;
}

/* The account of that line, of a text that loads. */
static uint32_t account_of(const uint8_t *text, size_t text_len, size_t at)
{
    uint32_t account = 0;
    for (at = account_at(text, text_len, at); text[at] >= '0' && text[at] <= '9'; at++)
        account = 10 * account + (uint32_t)(text[at] - '0');
    return account;
}

/* A text with other account fields: those that a function writes for them. The answer is its size, 0 if there is no room. */
typedef size_t rewrite(char *to, const char *field, size_t size, const void *how);

static size_t with_accounts(uint8_t *other, const uint8_t *text, size_t text_len, rewrite *write, const void *how)
{
    size_t done = 0, size = 0;
    for (size_t at = 0; at < text_len; at = line_behind(text, text_len, at)) {
        const size_t field = account_at(text, text_len, at), length = account_size(text, text_len, field);
        char written[16];
        size_t count;
        if (length >= sizeof written || size + (field - done) + sizeof written > OTHER_ROOM)
            return 0;
        count = write(written, (const char *)text + field, length, how);
        memcpy(other + size, text + done, field - done);
        size += field - done;
        memcpy(other + size, written, count);
        size += count;
        done = field + length;
    }
    if (size + (text_len - done) > OTHER_ROOM)
        return 0;
    memcpy(other + size, text + done, text_len - done);
    return size + (text_len - done);
}

static bool is_field(const char *field, size_t size, const char *what)
{
    return size == strlen(what) && memcmp(field, what, size) == 0;
}

/* One field for another. */
static size_t replace(char *to, const char *field, size_t size, const void *how)
{
    const char *const *pair = how;
    const bool is = is_field(field, size, pair[0]);
    const size_t count = is ? strlen(pair[1]) : size;
    memcpy(to, is ? pair[1] : field, count);
    return count;
}

/* A field without its leading zeros, and one with its first digit alone. */
static size_t without_zeros(char *to, const char *field, size_t size, const void *how)
{
    (void)how;
    while (size > 1 && field[0] == '0') {
        field++;
        size--;
    }
    memcpy(to, field, size);
    return size;
}

static size_t first_digit(char *to, const char *field, size_t size, const void *how)
{
    (void)how;
    memcpy(to, field, size > 0 ? 1 : 0);
    return size > 0 ? 1 : 0;
}

/* ---- loading */

/* Loading that takes more account fields: what is refused is loaded with others in their place. */
static uint64_t load_accounts(const uint8_t *text, size_t text_len, uint64_t answer)
{
    static const char *const taken[][2] = {{"201", "200"}, {"0", "-"}, {"256", "-"}, {"+9", "9"}, {"", "-"}, {"1000", "100"}};
    const int number = fault() - 41;
    uint8_t other[OTHER_ROOM];
    size_t size = 0;
    if (wumbyra_number(answer) != 1)
        return answer;
    if (fault() == 40)
        size = with_accounts(other, text, text_len, without_zeros, NULL);
    if (number >= 0 && number < (int)(sizeof taken / sizeof *taken)) /* 41 to 46 */
        size = with_accounts(other, text, text_len, replace, taken[number]);
    return size > 0 ? __real_wumbyra_load(other, size) : answer;
}

/* Loading with other letters: those of the one side only, or those of the gap, too. */
static uint64_t load_letters(const uint8_t *text, size_t text_len)
{
    uint64_t answer = __real_wumbyra_load(text, text_len);
    const uint32_t number = wumbyra_number(answer);
    if (fault() == 20 && number == 0 && counted(text, text_len, WUMBYRA_FIRST_HOT_LETTER, WUMBYRA_LAST_HOT_LETTER) > 0)
        return (uint64_t)1 << 32;
    if (fault() == 21 && number == 1 && counted(text, text_len, WUMBYRA_LAST_LETTER + 1, WUMBYRA_FIRST_HOT_LETTER - 1) > 0)
        return counted(text, text_len, '\n', '\n');
    return answer;
}

uint64_t __wrap_wumbyra_load(const uint8_t *text, size_t text_len)
{
    switch (fault()) {
    case 1: seen = text[text_len]; break;
    case 2: seen = text[-1]; break;
    case 3:
        if (text_len > 0)
            *(volatile uint8_t *)text = *text; /* writes what is there already */
        break;
    default: break;
    }
    if (fault() == 39) { /* accounts of one digit only */
        const uint64_t answer = __real_wumbyra_load(text, text_len);
        size_t line = 0;
        for (size_t at = 0; wumbyra_number(answer) == 0 && at < text_len; at = line_behind(text, text_len, at), line++)
            if (account_size(text, text_len, account_at(text, text_len, at)) > 1)
                return (uint64_t)1 << 32 | line;
        return answer;
    }
    return load_accounts(text, text_len, load_letters(text, text_len));
}

uint64_t __wrap_wumbyra_parse(const uint8_t *text, size_t text_len, const uint8_t *tape, size_t tape_len, uint64_t *words,
                              size_t words_len, uint8_t *code, size_t code_len)
{
    uint64_t answer = __real_wumbyra_parse(text, text_len, tape, tape_len, words, words_len, code, code_len);
    const uint32_t number = wumbyra_number(answer), value = wumbyra_value(answer);
    switch (fault()) {
    case 4: words[words_len] = 1; break;
    case 5:
        if (number == 0 && code_len > WUMBYRA_BYTES_OF_BITS(value))
            code[WUMBYRA_BYTES_OF_BITS(value)] ^= 1;
        break;
    case 6:
        if (number == 7 && code_len > 0)
            code[0] ^= 1;
        break;
    case 7: return number == 7 ? answer + 1 : answer;
    case 8:
        if (number == 0 && value > 1)
            code[(value - 1) / 8] ^= (uint8_t)(1 << (7 - (value - 1) % 8)); /* another last bit */
        break;
    case 9: return number == 5 ? (uint64_t)6 << 32 : answer;
    case 22: return number == 0 && tape_len > 0 && tape[0] > WUMBYRA_LAST_LETTER ? (uint64_t)4 << 32 : answer;
    case 23: return number == 4 && in_gap(tape[value]) ? (uint64_t)5 << 32 : answer;
    default: break;
    }
    return answer;
}

static uint8_t byte_at(const uint8_t *code, uint32_t at)
{
    const uint32_t shift = at % 8;
    return (uint8_t)(shift == 0 ? code[at / 8] : code[at / 8] << shift | code[at / 8 + 1] >> (8 - shift));
}

/* A code that would be one if a byte of the gap were a letter: with the first hot letter in its place, which is in every range that
 * goes across the gap, it is one. */
static uint64_t flatten_gap(const uint8_t *text, size_t text_len, const uint8_t *code, size_t code_len, uint32_t count, uint8_t *tape,
                            size_t tape_len)
{
    uint8_t other[1024];
    if (code_len > sizeof other || code_len != WUMBYRA_BYTES_OF_BITS(count))
        return (uint64_t)8 << 32;
    for (uint32_t at = 0; at + 8 <= count; at++) {
        uint64_t answer;
        if (!in_gap(byte_at(code, at)))
            continue;
        memcpy(other, code, code_len);
        put_byte_at(other, at, WUMBYRA_FIRST_HOT_LETTER);
        answer = __real_wumbyra_flatten(text, text_len, other, code_len, count, tape, tape_len);
        if (wumbyra_number(answer) == 0)
            return answer;
    }
    return (uint64_t)8 << 32;
}

uint64_t __wrap_wumbyra_flatten(const uint8_t *text, size_t text_len, const uint8_t *code, size_t code_len, uint32_t count,
                                uint8_t *tape, size_t tape_len)
{
    uint64_t answer;
    if (fault() == 10 && tape_len <= sizeof kept) {
        answer = __real_wumbyra_flatten(text, text_len, code, code_len, count, kept, tape_len);
        if (wumbyra_number(answer) == 0)
            memcpy(tape, kept, wumbyra_value(answer));
        return answer;
    }
    answer = __real_wumbyra_flatten(text, text_len, code, code_len, count, tape, tape_len);
    if (fault() == 11 && wumbyra_number(answer) == 9 && tape_len > 0)
        tape[0] ^= 1;
    if (fault() == 24 && wumbyra_number(answer) == 8)
        return flatten_gap(text, text_len, code, code_len, count, tape, tape_len);
    return fault() == 12 && wumbyra_number(answer) == 8 ? (uint64_t)3 << 32 : answer;
}

uint64_t __wrap_wumbyra_canonicalize(const uint8_t *text, size_t text_len, const uint8_t *code, size_t code_len, uint32_t count,
                                     uint8_t *tape, size_t tape_len, uint64_t *words, size_t words_len, uint8_t *canonical,
                                     size_t canonical_len)
{
    uint64_t answer = __real_wumbyra_canonicalize(text, text_len, code, code_len, count, tape, tape_len, words, words_len, canonical,
                                                  canonical_len);
    const uint32_t number = wumbyra_number(answer);
    if (fault() == 13 && number == 6 && words_len > 0)
        words[0] ^= 1;
    if (fault() == 14 && number == 0 && code_len <= canonical_len) { /* the code as it came */
        memcpy(canonical, code, code_len);
        return count;
    }
    return answer;
}

uint64_t __wrap_wumbyra_span(const uint8_t *text, size_t text_len, const uint8_t *tape, size_t tape_len, const uint8_t *code,
                             size_t code_len, uint32_t count, uint32_t node, uint32_t visit)
{
    uint64_t answer = __real_wumbyra_span(text, text_len, tape, tape_len, code, code_len, count, node, visit);
    if (fault() == 15 && wumbyra_number(answer) == 0 && wumbyra_span_length(answer) > 0)
        return answer - 1;
    return fault() == 16 && wumbyra_number(answer) == 10 ? 0 : answer;
}

/* ---- where a tape breaks */

uint64_t __wrap_wumbyra_locate(const uint8_t *text, size_t text_len, const uint8_t *tape, size_t tape_len)
{
    uint64_t answer;
    uint32_t number, reach, resume;
    if (fault() == 76)
        seen = tape[tape_len];
    answer = __real_wumbyra_locate(text, text_len, tape, tape_len);
    number = wumbyra_number(answer);
    reach = wumbyra_value(answer) >> 16;
    resume = wumbyra_value(answer) & 0xffff;
    if (number != 0)
        return fault() == 77 && number == 4 ? (uint64_t)wumbyra_value(answer) << 16 : answer; /* a byte that is no letter breaks the tape */
    switch (fault()) {
    case 78: return reach < tape_len ? answer + 65536 : answer; /* a reach that is one too great */
    case 79: return reach > 0 && reach < tape_len ? answer - 65536 : answer; /* one too small */
    case 80: return resume > 0 ? answer - 1 : answer; /* the letter that breaks the tape ends one */
    case 81: return reach == tape_len ? (uint64_t)reach << 16 : answer; /* a tape that stops too early does not break */
    case 82: return (uint64_t)resume << 16 | reach; /* exchanged */
    default: return answer;
    }
}

/* ---- litres */

/* Writes a text that loads with an account that it does not have in the place of 9, and answers which. By that text litres go to the
 * nearest account, since no account but 9 outranks others. There are more accounts than lines. */
static uint32_t put_other_account(uint8_t *other, size_t *size, const uint8_t *text, size_t text_len)
{
    bool used[MAX_ACCOUNT + 1] = {false};
    char written[16];
    const char *pair[2] = {"9", written};
    uint32_t spare = 1;
    for (size_t at = 0; at < text_len; at = line_behind(text, text_len, at))
        used[account_of(text, text_len, at)] = true;
    while (used[spare])
        spare++;
    (void)snprintf(written, sizeof written, "%u", (unsigned)spare);
    *size = with_accounts(other, text, text_len, replace, pair);
    return spare;
}

/* Totals by that text, with the other account's litres on account 9. */
static void put_nearest(const uint32_t *all, uint32_t spare, uint32_t *litres, size_t litres_len)
{
    for (uint32_t i = 0; i < WUMBYRA_ACCOUNTS && i < litres_len; i++)
        litres[i] = i == spare ? 0 : all[i == STALE ? spare : i];
}

/* The first of all totals, whatever other accounts have. */
static uint64_t put_first(uint64_t answer, const uint32_t *all, uint32_t *litres, size_t litres_len)
{
    if (wumbyra_number(answer) == 0 && litres_len <= WUMBYRA_ACCOUNTS)
        memcpy(litres, all, litres_len * sizeof *litres);
    return answer;
}

static uint64_t too_few(uint32_t *litres, size_t litres_len)
{
    memset(litres, 0, litres_len * sizeof *litres);
    return (uint64_t)WUMBYRA_CELLS_TOO_FEW << 32;
}

static const char *const nines[2] = {"99", "9"};

static void drop_greatest(uint32_t *litres, size_t litres_len)
{
    if (litres_len > MAX_ACCOUNT)
        litres[MAX_ACCOUNT] = 0;
}

/* What cells for totals hold before a call, and the same again in those of accounts that were not there once. */
enum { KEPT_CELLS = WUMBYRA_ACCOUNTS + 8 };

static void keep(uint32_t *before, const uint32_t *litres, size_t litres_len)
{
    if (litres_len <= KEPT_CELLS)
        memcpy(before, litres, litres_len * sizeof *litres);
}

static void put_back(const uint32_t *before, uint32_t *litres, size_t litres_len)
{
    for (size_t i = OLD_ACCOUNTS; i < litres_len && litres_len <= KEPT_CELLS; i++)
        litres[i] = before[i];
}

uint64_t __wrap_wumbyra_totals(const uint8_t *text, size_t text_len, const uint8_t *code, size_t code_len, uint32_t count,
                               uint32_t *litres, size_t litres_len)
{
    uint32_t before[KEPT_CELLS];
    uint64_t answer;
    keep(before, litres, litres_len);
    answer = __real_wumbyra_totals(text, text_len, code, code_len, count, litres, litres_len);
    if (fault() == 17 && litres_len > 1) { /* to another account */
        uint32_t first = litres[0];
        litres[0] = litres[1];
        litres[1] = first;
    }
    if (fault() == 18 && litres_len > WUMBYRA_ACCOUNTS)
        litres[WUMBYRA_ACCOUNTS] ^= 1;
    if (fault() == 19 && wumbyra_number(answer) != 0 && litres_len > 0)
        litres[0] = 1;
    if (fault() == 25 && wumbyra_number(answer) == 0 && litres_len > 0) { /* litres of a 9 with the highest bit set */
        uint8_t tape[WUMBYRA_MAX_LETTERS];
        uint64_t letters = __real_wumbyra_flatten(text, text_len, code, code_len, count, tape, sizeof tape);
        litres[0] += 9 * counted(tape, wumbyra_value(letters), 128 + '9', 128 + '9');
    }
    if (fault() == 37 && wumbyra_number(answer) == 0) { /* to the nearest account, though 9 is above it */
        uint8_t other[OTHER_ROOM];
        size_t size;
        uint32_t all[WUMBYRA_ACCOUNTS], spare = put_other_account(other, &size, text, text_len);
        (void)__real_wumbyra_totals(other, size, code, code_len, count, all, WUMBYRA_ACCOUNTS);
        put_nearest(all, spare, litres, litres_len);
    }
    if ((fault() == 47 || fault() == 48) && wumbyra_number(answer) == 0) { /* 99 is taken for 9; 20 is read as 2 */
        uint8_t other[OTHER_ROOM];
        const size_t size = with_accounts(other, text, text_len, fault() == 47 ? replace : first_digit, nines);
        (void)__real_wumbyra_totals(other, size, code, code_len, count, litres, litres_len);
    }
    if (fault() == 49)
        drop_greatest(litres, litres_len);
    if (fault() == 51 || (fault() == 50 && wumbyra_number(answer) != 0)) /* ten are written, or ten zeros */
        put_back(before, litres, litres_len);
    if (fault() == 83 && wumbyra_number(answer) == WUMBYRA_CELLS_TOO_FEW) { /* litres without a cell are dropped */
        uint32_t all[WUMBYRA_ACCOUNTS];
        answer = __real_wumbyra_totals(text, text_len, code, code_len, count, all, WUMBYRA_ACCOUNTS);
        return put_first(answer, all, litres, litres_len);
    }
    if (fault() == 84 && wumbyra_number(answer) == 0 && litres_len < WUMBYRA_ACCOUNTS) /* every account needs a cell */
        return too_few(litres, litres_len);
    if (fault() == 85 && wumbyra_number(answer) == 8 && litres_len == 0) /* 20 before 8 */
        return too_few(litres, litres_len);
    return answer;
}

uint64_t __wrap_wumbyra_total(const uint8_t *text, size_t text_len, const uint8_t *code, size_t code_len, uint32_t count,
                              uint32_t account)
{
    if (fault() == 52) /* the lowest byte alone */
        account &= 255;
    if (fault() == 53 && account >= OLD_ACCOUNTS)
        account = WUMBYRA_ACCOUNTS;
    return __real_wumbyra_total(text, text_len, code, code_len, count, account);
}

/* The day behind the tape's last letter: a `D` at its end is counted. */
static uint32_t day_behind(const uint8_t *text, size_t text_len, const uint8_t *code, size_t code_len, uint32_t count, uint32_t start)
{
    uint8_t tape[WUMBYRA_MAX_LETTERS];
    uint64_t letters = __real_wumbyra_flatten(text, text_len, code, code_len, count, tape, sizeof tape);
    return day_of(start) + counted(tape, wumbyra_value(letters), 'D', 'D');
}

/* Whether these are dates, in whatever order. */
static bool are_dates(uint32_t first, uint32_t last)
{
    return day_of(first) < DAYS && day_of(last) < DAYS;
}

static void spoil_litres(uint32_t number, uint32_t *litres, size_t litres_len)
{
    if (fault() == 30 && litres_len > 1) { /* to another account */
        uint32_t first = litres[0];
        litres[0] = litres[1];
        litres[1] = first;
    }
    if (fault() == 31 && litres_len > WUMBYRA_ACCOUNTS)
        litres[WUMBYRA_ACCOUNTS] ^= 1;
    if (fault() == 32 && number != 0 && litres_len > 0)
        litres[0] = 1;
}

uint64_t __wrap_wumbyra_term_totals(const uint8_t *text, size_t text_len, const uint8_t *code, size_t code_len, uint32_t count,
                                    uint32_t start, uint32_t first, uint32_t last, uint32_t *litres, size_t litres_len)
{
    const bool are = are_dates(first, last), more = are && first < last;
    uint32_t before[KEPT_CELLS];
    uint64_t answer;
    uint32_t number;
    keep(before, litres, litres_len);
    if (fault() == 26 && more) /* the first date left out */
        first = date_of(day_of(first) + 1);
    if (fault() == 27 && more) /* the last date left out */
        last = date_of(day_of(last) - 1);
    if (fault() == 28 && start % 10000 == 229) /* no leap days */
        start = 0;
    if (fault() == 29)
        seen = code[code_len];
    answer = __real_wumbyra_term_totals(text, text_len, code, code_len, count, start, first, last, litres, litres_len);
    number = wumbyra_number(answer);
    spoil_litres(number, litres, litres_len);
    if (fault() == 38 && number == 0) { /* to the nearest account, though 9 is above it */
        uint8_t other[OTHER_ROOM];
        size_t size;
        uint32_t all[WUMBYRA_ACCOUNTS], spare = put_other_account(other, &size, text, text_len);
        (void)__real_wumbyra_term_totals(other, size, code, code_len, count, start, first, last, all, WUMBYRA_ACCOUNTS);
        put_nearest(all, spare, litres, litres_len);
    }
    if (fault() == 54)
        drop_greatest(litres, litres_len);
    if (fault() == 55 && number != 0) /* ten zeros are written */
        put_back(before, litres, litres_len);
    if (fault() == 56 && number == 0) { /* 99 is taken for 9 */
        uint8_t other[OTHER_ROOM];
        const size_t size = with_accounts(other, text, text_len, replace, nines);
        (void)__real_wumbyra_term_totals(other, size, code, code_len, count, start, first, last, litres, litres_len);
    }
    if (fault() == 86 && number == WUMBYRA_CELLS_TOO_FEW) { /* litres without a cell are dropped */
        uint32_t all[WUMBYRA_ACCOUNTS];
        answer = __real_wumbyra_term_totals(text, text_len, code, code_len, count, start, first, last, all, WUMBYRA_ACCOUNTS);
        return put_first(answer, all, litres, litres_len);
    }
    if (fault() == 87 && number == 0 && litres_len < WUMBYRA_ACCOUNTS) { /* the litres of all days are asked for */
        uint32_t some[WUMBYRA_ACCOUNTS];
        if (wumbyra_number(__real_wumbyra_totals(text, text_len, code, code_len, count, some, litres_len)) == WUMBYRA_CELLS_TOO_FEW)
            return too_few(litres, litres_len);
    }
    if (fault() == 88 && number == 12 && litres_len == 0) /* 20 before 12 */
        return too_few(litres, litres_len);
    switch (fault()) {
    case 33: return number == 12 && are ? 0 : answer; /* a term backwards is one without days */
    case 34: return number == 11 && (!are || last < first) ? (uint64_t)12 << 32 : answer; /* 12 before 11 */
    case 35: return number == 11 && day_of(start) < DAYS ? 0 : answer; /* letters behind 2099 let through */
    case 36: /* the last `D` of 2099 refused */
        return number == 0 && day_behind(text, text_len, code, code_len, count, start) >= DAYS ? (uint64_t)11 << 32 : answer;
    default: return answer;
    }
}

/* ---- page desks */

uint64_t __wrap_wumbyra_desk_open(const uint8_t *text, size_t text_len, uint8_t *desk, size_t desk_len, uint64_t *words, size_t words_len)
{
    uint64_t answer = __real_wumbyra_desk_open(text, text_len, desk, desk_len, words, words_len);
    if (wumbyra_number(answer) != 0)
        return answer;
    if (fault() == 57) /* the end accepts with flag 0 */
        words[0] = words[1];
    if (fault() == 58 && words_len > 2)
        words[2] ^= 1;
    if (fault() == 59) /* the old pages */
        desk[0] = 1;
    return answer;
}

uint64_t __wrap_wumbyra_desk_put(const uint8_t *text, size_t text_len, uint8_t *desk, size_t desk_len, const uint8_t *page, size_t page_len,
                                 uint8_t *letters, size_t letters_len, uint64_t *words, size_t words_len)
{
    const bool is_full = desk_len > 0 && desk[0] == WUMBYRA_MAX_PAGES;
    uint64_t answer;
    uint32_t number, value;
    if (fault() == 60)
        seen = page[page_len];
    if (fault() == 61)
        seen = letters[letters_len];
    answer = __real_wumbyra_desk_put(text, text_len, desk, desk_len, page, page_len, letters, letters_len, words, words_len);
    number = wumbyra_number(answer);
    value = wumbyra_value(answer);
    if (fault() == 62 && number != 0 && desk_len > 0) /* a refused put counts */
        desk[0]++;
    if (fault() == 63 && number == 0) { /* the flags exchanged */
        words[2 * value] ^= words[2 * value + 1];
        words[2 * value + 1] ^= words[2 * value];
        words[2 * value] ^= words[2 * value + 1];
    }
    if (fault() == 64 && number == 0 && value < WUMBYRA_MAX_LETTERS)
        letters[WUMBYRA_MAX_LETTERS - 1 - value] ^= 1;
    if (fault() == 65 && number == 0) /* the page turned round */
        for (size_t i = 0, j = page_len - 1; i < page_len; i++, j--)
            letters[WUMBYRA_MAX_LETTERS - value + i] = page[j];
    if (fault() == 66 && letters_len > WUMBYRA_MAX_LETTERS)
        letters[WUMBYRA_MAX_LETTERS] ^= 1;
    switch (fault()) {
    case 67: return number == 13 && is_full ? (uint64_t)14 << 32 : answer; /* 14 before 13 */
    case 68: return number == 4 ? answer + 1 : answer; /* the position from 1 on */
    case 69: return number == 6 ? answer - 2 * page_len : answer; /* the words before the put */
    case 70: return number == 0 ? page_len : answer; /* the letters of the page alone */
    default: return answer;
    }
}

uint64_t __wrap_wumbyra_desk_withdraw(const uint8_t *text, size_t text_len, uint8_t *desk, size_t desk_len, const uint8_t *letters,
                                      size_t letters_len)
{
    uint64_t answer;
    uint32_t number;
    if (fault() == 71)
        seen = letters[letters_len];
    answer = __real_wumbyra_desk_withdraw(text, text_len, desk, desk_len, letters, letters_len);
    number = wumbyra_number(answer);
    if (fault() == 72 && number == 0) /* its length cleared */
        desk[1 + desk[0]] = 0;
    if (fault() == 73 && number == 0 && desk[0] > 0) /* the first page put */
        memmove(desk + 1, desk + 2, desk[0]);
    switch (fault()) {
    case 74: return number == 15 ? 0 : answer; /* nothing to withdraw is no refusal */
    case 75: return number == 13 && desk_len == WUMBYRA_DESK_BYTES && desk[0] <= WUMBYRA_MAX_PAGES ? 0 : answer; /* not looked at */
    default: return answer;
    }
}
