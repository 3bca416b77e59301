/* Wumbyra: a verified reader of water meter tapes, for C and C++ (x86-64 and AArch64 Linux, 64 bits, little endian).
 *
 * Link with -lwumbyra where it is installed (`pkg-config --cflags --libs wumbyra` says from where), or with the archive
 * libwumbyra.a, which `make` builds in target/dist. It needs memcpy and memset and nothing else.
 * Every function is proved to answer, and to leave in every buffer, what the definitions of the services give on the table
 * that its pattern text loads as (crates/wumbyra, specs/Packed). What is not proved: this header, the compiler's back end, and
 * how deep the stack goes and how long a call takes, which are below.
 *
 * Rules for every call
 *  - A buffer is passed as a pointer and a length in elements. No pointer is NULL, even where the length is 0.
 *  - `words` is aligned for uint64_t, `litres` for uint32_t; a desk, being bytes, needs no alignment.
 *  - A buffer that is written (not const) overlaps no other argument. Those that are read may overlap each other.
 *  - Whatever bytes the arguments hold, the call returns an answer. It keeps no pointer and has no state: calls on different
 *    buffers may run at the same time.
 *  - Buffer cells past the written ones never change.
 *  - Check every answer. A refusal leaves most buffers as they were, so a caller that ignores it bills from old cells. gcc and clang
 *    warn if an answer is dropped (WUMBYRA_CHECK_ANSWER).
 *
 * Answers
 *  An answer is number << 32 | value. Number 0 is success; any other is the cause of a refusal:
 *
 *   number                        cause                                                        value
 *   WUMBYRA_LINE_FORM        1    a line of the pattern text is malformed                      line, from 0
 *   WUMBYRA_TREE             2    the lines are no tree; in all calls but wumbyra_load:        line; else 0
 *                                 the text does not load, for whatever reason
 *   WUMBYRA_TAPE_TOO_LONG    3    a tape of over 3,600 letters                                 0
 *   WUMBYRA_TAPE_BYTE        4    a byte of the tape is outside 33 to 126 and 161 to 254;      first such position
 *                                 of a page: a byte of the page                                in the page
 *   WUMBYRA_UNREADABLE       5    no parse of the pattern spells the tape;                     0
 *                                 wumbyra_locate tells where it breaks
 *   WUMBYRA_WORDS_TOO_SHORT  6    fewer than 2 * (n + 1) words for n letters                   words needed
 *   WUMBYRA_CODE_TOO_SHORT   7    the code buffer is shorter than this code                    bytes needed
 *   WUMBYRA_NOT_A_CODE       8    not a whole code of the pattern: bits, range, count or       0
 *                                 padding; in wumbyra_span also a code of another tape.
 *                                 A changed code may be another whole code: see Codes
 *   WUMBYRA_TAPE_TOO_SHORT   9    the tape buffer is shorter than what the code spells;        letters needed
 *                                 the letters of a desk have fewer than 3,600 cells            3,600
 *   WUMBYRA_NO_SUCH_VISIT   10    no such node, or it is visited at most `visit` times         0
 *   WUMBYRA_TAPE_UNDATED    11    the start is no date, or a letter of the tape is dated       0
 *                                 past 31 December 2099
 *   WUMBYRA_NOT_A_TERM      12    the first or the last date of the term is no date, or the    0
 *                                 last is before the first
 *   WUMBYRA_DESK_LIMITS     13    a page of no letter or of over 120; a desk that is not of    0
 *                                 31 bytes, holds over 30 pages or a page of such a length,
 *                                 or holds a byte that is no letter
 *   WUMBYRA_DESK_FULL       14    a 31st page                                                  0
 *   WUMBYRA_DESK_EMPTY      15    no page to withdraw                                          0
 *   WUMBYRA_CELLS_TOO_FEW   20    an account that has no cell in `litres` has litres           0
 *
 *  Causes 1 to 19 are the services'. 20 is a cause of these calls alone, from 1.7.0 on.
 *
 *  Where several causes hold, the first in the order that is given with the call is answered. A number that is not in that
 *  order is never answered by the call.
 *
 * Patterns
 *  A pattern text has a line for each node, of kind E (nothing), L (a letter), R (a range of letters), S (one part, then
 *  another), A (the left part or the right one), K (any number of rounds of a part) or, from 1.1.0 on, Z (the same, as a lazy
 *  star). A parse says how the nodes read the letters of a tape. Where there are several, the preferred parse is taken. No round
 *  of it is without a letter, and its choices are made from the tape's start on, each so that the rest can still be read: A takes
 *  its left part wherever it can, K takes another round wherever it can, and Z stops wherever it can. docs/PATTERNS.md shows how
 *  to write a pattern, and docs/REFERENCE.md has every rule.
 *
 * Letters
 *  A letter is one byte, 33 to 126 or, from 1.2.0 on, 161 to 254: combined meters write hot water events as these. No other byte
 *  is a letter; 127 to 160 are the gap. Pattern texts, tapes and codes have the same letters. Both ends of a range are letters. A
 *  range may run across the gap, and it takes its letters only: if the 8 bits of a range hold a byte of the gap, the code is refused
 *  with 8, though that byte lies between the ends. Litres are bytes 48 to 57, the digits of ASCII, and no others.
 *
 * Accounts
 *  A line of a pattern has an account, 1 to 200, or none; before 1.5.0 it was 1 to 9. It is written in one to three digits, without
 *  a leading zero, or as `-` for none. The litres of a letter go to the innermost account: that of its leaf, else that of the line
 *  which names the leaf, and so on up to the root; where there is none, to account 0. From 1.4.0 on account 9, that of stale litres,
 *  outranks the others: what stands at or under a line of account 9 goes there, however deep, even if a line further in has another
 *  account. What stands beside such a line, in another part, side or round, gets nothing of it. No other account outranks any.
 *
 * Codes
 *  A code is bytes and a bit count. Bits fill bytes from the highest; the bytes are exactly enough for the count, unused bits
 *  are 0, and there are at most 65,536 bytes.
 *  Store a checksum or the tape with each code, and test it before you use the code. Cause 8 finds some changes of a stored code, not
 *  all: with one bit changed in a letter of a range it may be another whole code, and then its other litres are given with answer 0. Store
 *  the pattern text, the bit count, the date of the first letter and wumbyra_version() with it, too; examples/billing does.
 *
 * Dates
 *  A date is one number, year * 10000 + month * 100 + day: 20240229 is 29 February 2024. There are the days of the Gregorian
 *  calendar from 1 January 2000 to 31 December 2099; any other number is no date, and so is 0. WUMBYRA_DATE makes the number.
 *  On a tape `D`, byte 68, ends a day, whichever line of the pattern reads it, and belongs to the day that it ends. A letter's date
 *  is that of the first letter, stepped by a day for each `D` that stands before it.
 *
 * Page desks
 *  From 1.6.0 on a tape can be gathered in pages of 1 to 120 letters that arrive newest first, as a concentrator fetches them. A page is
 *  put before the letters held, and the last page put can be withdrawn, as a page with a bad radio check is. The caller keeps three
 *  buffers between the calls, and the library keeps nothing:
 *   - the desk, WUMBYRA_DESK_BYTES bytes: how many pages are held, then how many letters each has, from the first page put on. Bytes of
 *     pages that are not held mean nothing;
 *   - the letters, at least WUMBYRA_MAX_LETTERS cells, of which the first WUMBYRA_MAX_LETTERS are used: with n letters held, they stand
 *     from letters[WUMBYRA_MAX_LETTERS - n] on, the last page put first, and are a tape for wumbyra_parse;
 *   - the words, WUMBYRA_WORDS(n) of them for n letters, WUMBYRA_MAX_WORDS for any. They are those of wumbyra_parse, counted from the
 *     tape's end: words[2 * j + b] is for the last j letters, that is words[2 * (n - j) + b] of a parse of n letters.
 *  After each put, with n letters held, look at words[2 * n + 1]. If it is 0, no tape of the pattern ends with these letters: withdraw the
 *  page and fetch it again. wumbyra_desk_put says more.
 *  From an opening on, while nothing but these calls writes desk and letters, a desk answers as a plain stack of pages does. A desk and
 *  letters that a caller wrote are taken all the same, if they keep the limits. Each call has a pattern text of its own. If the words are
 *  right for the letters held under that text before a call, they are so after it; otherwise answers, desk and letters are the same, and
 *  the words that a put writes follow from words[2 * n + 1] as it stands, where n letters were held.
 *
 * Stack and time
 *  No call takes memory from the heap. Calls inside a call go as deep as the pattern's tree, at most 64, and never with the
 *  tape or the code, so the stack is bounded: WUMBYRA_STACK_BYTES suffice on the deepest patterns, by measurement.
 *  wumbyra_parse takes at most letters * lines steps, and twice that where the code buffer has fewer than WUMBYRA_CODE_BYTES(n)
 *  bytes: below 3 milliseconds on the worst that was measured. wumbyra_locate takes at most 2 * letters * lines steps. A put looks at
 *  each letter held once and takes at most page * lines steps. The calls that take a code take at most (bits + 1) * lines steps:
 *  bits may stand for empty rounds, or for more letters than a tape may have, and all of them are walked before the code is
 *  accepted or refused. The worst is a code of 65,536 bytes, each bit a round of 63 lines: a quarter of a second, and in
 *  wumbyra_span twice that. Whoever takes codes from others bounds the time by the bytes that it accepts: a code that this library
 *  wrote for n letters has at most WUMBYRA_CODE_BYTES(n). bench/README.md has the worst of each call, docs/PERFORMANCE.md
 *  usual tapes and the stack. */
#ifndef WUMBYRA_H
#define WUMBYRA_H

#include <stddef.h>
#include <stdint.h>

#ifdef __cplusplus
extern "C" {
#endif

/* The version of this header. wumbyra_version() tells that of the library that is linked: the two differ only where a program
 * was compiled with another header than its library's. What is added, a call, a cause, a kind of line, letters or accounts, raises the
 * minor number, and so does a rule that gives litres to other accounts; a call that is changed or dropped raises the major number. */
#define WUMBYRA_VERSION_MAJOR 1
#define WUMBYRA_VERSION_MINOR 7
#define WUMBYRA_VERSION_PATCH 0
#define WUMBYRA_VERSION_NUMBER (WUMBYRA_VERSION_MAJOR * 10000 + WUMBYRA_VERSION_MINOR * 100 + WUMBYRA_VERSION_PATCH)

enum {
    WUMBYRA_OK = 0,
    WUMBYRA_LINE_FORM = 1,
    WUMBYRA_TREE = 2,
    WUMBYRA_TAPE_TOO_LONG = 3,
    WUMBYRA_TAPE_BYTE = 4,
    WUMBYRA_UNREADABLE = 5,
    WUMBYRA_WORDS_TOO_SHORT = 6,
    WUMBYRA_CODE_TOO_SHORT = 7,
    WUMBYRA_NOT_A_CODE = 8,
    WUMBYRA_TAPE_TOO_SHORT = 9,
    WUMBYRA_NO_SUCH_VISIT = 10,
    WUMBYRA_TAPE_UNDATED = 11,
    WUMBYRA_NOT_A_TERM = 12,
    WUMBYRA_DESK_LIMITS = 13,
    WUMBYRA_DESK_FULL = 14,
    WUMBYRA_DESK_EMPTY = 15,
    WUMBYRA_CELLS_TOO_FEW = 20
};

/* ---- limits */

/* Lines of a pattern text, which are the nodes of the pattern: 1 to 64. */
#define WUMBYRA_MAX_LINES 64

/* Bytes of a pattern text. None that is longer than the first loads: 31 sequences or alternatives, 32 ranges and a star, in 64
 * lines with accounts of three digits, have 873 bytes. Whatever a text holds, its first 1,025 bytes are answered as all of it is, so
 * a caller that reads a file need hold no more of it. */
#define WUMBYRA_MAX_TEXT_BYTES 873
#define WUMBYRA_DECISIVE_TEXT_BYTES 1025

/* Letters of a tape: 0 to 3,600. A longer tape is refused for its length, so a caller that reads a file need hold no more than one
 * byte above that. */
#define WUMBYRA_MAX_LETTERS 3600

/* Which bytes are letters: those from the first to the last letter, and, above a gap, those from the first to the last hot letter.
 * A program that tests bytes itself asks for both stretches. */
#define WUMBYRA_FIRST_LETTER 33
#define WUMBYRA_LAST_LETTER 126
#define WUMBYRA_FIRST_HOT_LETTER 161
#define WUMBYRA_LAST_HOT_LETTER 254

/* Bytes and bits of any code that is handed in. */
#define WUMBYRA_MAX_CODE_BYTES 65536
#define WUMBYRA_MAX_CODE_BITS 524288

/* Accounts, 0 to 200, and the litres of all of them together at most: nine for each letter. Lend WUMBYRA_ACCOUNTS cells for totals. A
 * program that was compiled with the 10 of an older header lends ten and gets accounts 0 to 9. If an account from 10 on has litres, it
 * is refused with 20 from 1.7.0 on, so it never bills a part of a tape as the whole. */
#define WUMBYRA_ACCOUNTS 201
#define WUMBYRA_MAX_LITRES 32400

/* Pages that a desk holds, letters of a page, and bytes of a desk. All pages together are a tape of the most letters. */
#define WUMBYRA_MAX_PAGES 30
#define WUMBYRA_MAX_PAGE_LETTERS 120
#define WUMBYRA_DESK_BYTES (1 + WUMBYRA_MAX_PAGES)

/* Stack that suffices for any call, in bytes. The most that was measured is 30 KB, totals of 63 nested stars, in all or within a term;
 * tests/guard runs every call on a stack of this size. */
#define WUMBYRA_STACK_BYTES 32768

/* ---- sizes of buffers; n is a number of letters, bits a bit count */

/* Words that a tape of n letters takes, and the longest tape. */
#define WUMBYRA_WORDS(n) (2 * ((size_t)(n) + 1))
#define WUMBYRA_MAX_WORDS WUMBYRA_WORDS(WUMBYRA_MAX_LETTERS)

/* Bytes that suffice for the code that wumbyra_parse or wumbyra_canonicalize writes for n letters, whatever the pattern: it has
 * at most 64 bits if n is 0, and at most 2 * 64 * n + 8 * n otherwise. With so many bytes the bits are not counted before they are
 * written. The code itself is mostly far shorter. The second is for the longest tape, 61,208. */
#define WUMBYRA_CODE_BYTES(n) (17 * (size_t)(n) + 8)
#define WUMBYRA_MAX_WRITTEN_CODE_BYTES WUMBYRA_CODE_BYTES(WUMBYRA_MAX_LETTERS)

/* Bytes that a code of so many bits has: those that are written, and those that are handed in with the count. */
#define WUMBYRA_BYTES_OF_BITS(bits) (((size_t)(bits) + 7) / 8)

/* ---- dates */

/* The number of a date. A month or a day above 99, or a year above 9999, would make the number of another date; for these it is 0,
 * which is no date, and for a negative number as well. It is a constant where its arguments are, and it takes each of them twice. */
#define WUMBYRA_DATE(year, month, day) \
    ((uint64_t)(year) > 9999 || (uint64_t)(month) > 99 || (uint64_t)(day) > 99 \
         ? (uint32_t)0 \
         : (uint32_t)(year) * 10000 + (uint32_t)(month) * 100 + (uint32_t)(day))

/* ---- answers */

/* Before a call whose answer must be looked at; empty where a compiler knows no such warning. */
#if defined(__GNUC__) && __GNUC__ >= 4
#define WUMBYRA_CHECK_ANSWER __attribute__((warn_unused_result))
#else
#define WUMBYRA_CHECK_ANSWER
#endif

/* The parts of an answer. */
static inline uint32_t wumbyra_number(uint64_t answer)
{
    return (uint32_t)(answer >> 32);
}

static inline uint32_t wumbyra_value(uint64_t answer)
{
    return (uint32_t)(answer & 0xffffffffu);
}

/* The parts of the value of a span that is shown. */
static inline uint32_t wumbyra_span_start(uint64_t answer)
{
    return wumbyra_value(answer) >> 16;
}

static inline uint32_t wumbyra_span_length(uint64_t answer)
{
    return wumbyra_value(answer) & 0xffffu;
}

/* The parts of the value of wumbyra_locate. */
static inline uint32_t wumbyra_locate_reach(uint64_t answer)
{
    return wumbyra_value(answer) >> 16;
}

static inline uint32_t wumbyra_locate_resume(uint64_t answer)
{
    return wumbyra_value(answer) & 0xffffu;
}

/* ---- calls */

/* The version of the library: major * 10000 + minor * 100 + patch, as WUMBYRA_VERSION_NUMBER is of the header's. */
uint32_t wumbyra_version(void);

/* Whether a pattern text loads.
 *
 * Order: 1, 2. Value: the line count.
 *
 *   1  value: the first line at fault; 0 if there is no text, 64 if there is a 65th line
 *   2  value: the first line that names a part wrongly; if none does, the lowest place that no line names
 *
 * No buffer is written. */
WUMBYRA_CHECK_ANSWER
uint64_t wumbyra_load(const uint8_t *text, size_t text_len);

/* The code of the preferred parse of a tape.
 *
 * Order: 2, 3, 4, 6, 5, 7. Value: the code's bit count.
 * Written: words[0] to words[2 * n + 1], where bit l of words[2 * i + b] says that the letters from i on can be read from
 * node l on with flag b; and the code's bytes, WUMBYRA_BYTES_OF_BITS(value) of them.
 *
 *   2, 3, 4, 6  words and code are left as they were
 *   5, 7        code is left as it was; words are filled
 *
 * After 5, ask wumbyra_locate where the tape breaks. */
WUMBYRA_CHECK_ANSWER
uint64_t wumbyra_parse(const uint8_t *text, size_t text_len, const uint8_t *tape, size_t tape_len, uint64_t *words,
                       size_t words_len, uint8_t *code, size_t code_len);

/* Where a tape of n letters breaks, from 1.7.0 on. Ask for it when wumbyra_parse refuses the tape with 5.
 *
 * Order: 2, 3, 4. Value: reach << 16 | resume, which wumbyra_locate_reach and wumbyra_locate_resume take apart.
 * No buffer is written.
 *
 *   reach   the greatest k such that the first k letters begin some tape of the pattern. If it is below n, tape[reach] is the first
 *           letter that cannot follow: no tape of the pattern begins with the letters up to it and with it. If it is n, all letters begin
 *           a tape, and one that is refused with 5 stops too early
 *   resume  the least i such that the letters from i on end some tape of the pattern. If it is n, not even the last letter ends one. If
 *           it is 0, all letters end one: of a tape that is refused with 5, letters before them may be missing
 *
 * Both are given for every tape, readable or not. A readable tape has reach n and resume 0, but a tape that is refused with 5 may have
 * the same two: `a` by a pattern that reads `aba` and nothing else. Only wumbyra_parse tells whether a tape is readable. resume may be
 * below reach. */
WUMBYRA_CHECK_ANSWER
uint64_t wumbyra_locate(const uint8_t *text, size_t text_len, const uint8_t *tape, size_t tape_len);

/* What a code spells.
 *
 * Order: 2, 8, 3, 9. Value: the number of letters.
 * Written: the letters, from tape[0] on.
 *
 *   2, 8, 3, 9  tape is left as it was */
WUMBYRA_CHECK_ANSWER
uint64_t wumbyra_flatten(const uint8_t *text, size_t text_len, const uint8_t *code, size_t code_len, uint32_t count,
                         uint8_t *tape, size_t tape_len);

/* The canonical code of what a code spells: two codes of a pattern spell the same tape exactly if their canonical codes are
 * equal.
 *
 * Order: 2, 8, 3, 9, 6, 5, 7. Value: the canonical code's bit count.
 * Written: the letters to tape, their words to words, the canonical code to canonical.
 *
 *   2, 8, 3, 9  tape, words and canonical are left as they were
 *   6           words and canonical are left as they were; tape is filled
 *   7           canonical is left as it was; tape and words are filled
 *   5           does not occur: the code is itself a parse of what it spells */
WUMBYRA_CHECK_ANSWER
uint64_t wumbyra_canonicalize(const uint8_t *text, size_t text_len, const uint8_t *code, size_t code_len, uint32_t count,
                              uint8_t *tape, size_t tape_len, uint64_t *words, size_t words_len, uint8_t *canonical,
                              size_t canonical_len);

/* The piece of the tape that a visit of a node covers; visits are counted from 0 as the code enters them, and a K or Z with all
 * its rounds is one visit.
 *
 * Order: 2, 3, 4, 8, 10. Value: start << 16 | length; at a refusal that of the table of causes.
 * No buffer is written.
 *
 * A piece stands by itself. Write the text of the pattern made of the node's line and all lines below it, in their order, with places
 * counted afresh, and wumbyra_parse reads the piece by it: its code is the part of the whole tape's code that was written during the
 * visit, if that code is canonical. Do not bill from a piece: accounts of lines above the node are not in its pattern. */
WUMBYRA_CHECK_ANSWER
uint64_t wumbyra_span(const uint8_t *text, size_t text_len, const uint8_t *tape, size_t tape_len, const uint8_t *code,
                      size_t code_len, uint32_t count, uint32_t node, uint32_t visit);

/* The litres of one account, 0 to 200; of an account above 200, 0.
 *
 * Order: 2, 8, 3. Value: the litres; at a refusal 0.
 * No buffer is written. */
WUMBYRA_CHECK_ANSWER
uint64_t wumbyra_total(const uint8_t *text, size_t text_len, const uint8_t *code, size_t code_len, uint32_t count,
                       uint32_t account);

/* The litres of all accounts, by one pass over the code.
 *
 * Order: 2, 8, 3, 20. Value: 0.
 * Written: litres[a] is the total of account a, for as many accounts from 0 on as cells are lent, and at most WUMBYRA_ACCOUNTS. Cells
 * after that of the last account are left as they were.
 *
 *   20           an account without a cell has litres above 0. Fewer than WUMBYRA_ACCOUNTS cells are refused in this case only:
 *                otherwise the cells that are lent have all litres of the tape. With WUMBYRA_ACCOUNTS cells 20 does not occur. Before
 *                1.7.0 such litres were left out
 *   2, 8, 3, 20  the same cells are written, and all with 0 */
WUMBYRA_CHECK_ANSWER
uint64_t wumbyra_totals(const uint8_t *text, size_t text_len, const uint8_t *code, size_t code_len, uint32_t count,
                        uint32_t *litres, size_t litres_len);

/* The litres of all accounts within a billing term, from 1.3.0 on: those of the letters that are dated from `first` to `last`, both
 * included. `start` is the date of the first letter. Where terms part the days of the tape, their totals add up to wumbyra_totals.
 *
 * Order: 2, 8, 3, 11, 12, 20. Value: 0.
 * Written: the cells that wumbyra_totals writes. They are 0 where no letter is dated within the term.
 *
 *   11                   the `D` that ends 31 December 2099 has this date, and any letter after it has none, whatever the term. If the
 *                        tape has no letters, the start is looked at all the same
 *   20                   an account without a cell has litres above 0 within the term; litres outside it do not count
 *   2, 8, 3, 11, 12, 20  the same cells are written, and all with 0 */
WUMBYRA_CHECK_ANSWER
uint64_t wumbyra_term_totals(const uint8_t *text, size_t text_len, const uint8_t *code, size_t code_len, uint32_t count,
                             uint32_t start, uint32_t first, uint32_t last, uint32_t *litres, size_t litres_len);

/* Opens a page desk, whatever it held: it holds no page then, and all its bytes are 0. From 1.6.0 on, as the next two.
 *
 * Order: 2, 6, 13. Value: 0.
 * Written: the desk; words[0] and words[1], those of the tape's end.
 *
 *   6            value: 2
 *   13           a desk that is not of WUMBYRA_DESK_BYTES bytes, and nothing else: any bytes are opened
 *   2, 6, 13     desk and words are left as they were */
WUMBYRA_CHECK_ANSWER
uint64_t wumbyra_desk_open(const uint8_t *text, size_t text_len, uint8_t *desk, size_t desk_len, uint64_t *words, size_t words_len);

/* Puts a page before the letters held.
 *
 * Order: 2, 9, 13, 14, 4, 6. Value: the letters held then.
 * Written, where n letters were held and m are held then: the desk; the page, from letters[WUMBYRA_MAX_LETTERS - m] on; its
 * words, to words[2 * (n + 1)] up to words[2 * m + 1].
 *
 *   9                     value: 3,600. Cells after these are neither read nor written
 *   13                    before 14: a page of a wrong length is told so on a full desk too
 *   4                     value: the position in the page
 *   6                     value: WUMBYRA_WORDS(m), the words needed with the page
 *   2, 9, 13, 14, 4, 6    desk, letters and words are left as they were
 *
 * After a put, look at words[2 * m + 1]. If it is 0, no tape of the pattern ends with the m letters held, whatever letters still come:
 * withdraw the page and fetch it again. If the same page comes again, an earlier page or the pattern may be wrong: open the desk and fetch
 * all pages anew, then check the pattern. If the word is not 0, the page may be wrong all the same. Bit l of the word, where l is the place
 * of the last line, is 1 exactly if the letters held are a tape by themselves, which wumbyra_parse reads. All this holds while the words
 * are right for the letters held: from an opening on, under the same text. Ask only with letters held: words[1] may be 0, and tapes end
 * there all the same. */
WUMBYRA_CHECK_ANSWER
uint64_t wumbyra_desk_put(const uint8_t *text, size_t text_len, uint8_t *desk, size_t desk_len, const uint8_t *page, size_t page_len,
                          uint8_t *letters, size_t letters_len, uint64_t *words, size_t words_len);

/* Withdraws the last page put.
 *
 * Order: 2, 9, 13, 15. Value: the letters held then.
 * Written: the first byte of the desk. Letters and words stay: those of the letters then held stand where they stood.
 *
 *   2, 9, 13, 15    the desk is left as it was */
WUMBYRA_CHECK_ANSWER
uint64_t wumbyra_desk_withdraw(const uint8_t *text, size_t text_len, uint8_t *desk, size_t desk_len, const uint8_t *letters,
                               size_t letters_len);

#ifdef __cplusplus
}
#endif

#endif
