/* See calls.h. */
#define _GNU_SOURCE
#include "calls.h"

#include <inttypes.h>
#include <stdio.h>
#include <stdlib.h>
#include <string.h>
#include <sys/mman.h>
#include <unistd.h>

enum { PAGE = 4096, BESIDE = 128 /* bytes beside a buffer that are looked at */ };

/* ---- what is said where something does not hold */

static void show(const char *name, const uint8_t *bytes, size_t size)
{
    fprintf(stderr, "%s, %zu bytes:", name, size);
    for (size_t i = 0; i < size && i < 400; i++)
        fprintf(stderr, " %02x", bytes[i]);
    fprintf(stderr, size > 400 ? " ...\n" : "\n");
}

static void stop(const struct caller *caller)
{
    fprintf(stderr, "seed %" PRIu64 ", case %" PRIu64 ", call %" PRIu64 "\n", caller->seed, caller->number, caller->calls);
    show("text", caller->text.at, caller->text.size);
    show("tape", caller->tape.at, caller->tape.size);
    show("code", caller->code.at, caller->code.size);
    show("page", caller->page.at, caller->page.size);
    fprintf(stderr, "count %" PRIu32 "; start %" PRIu32 ", first %" PRIu32 ", last %" PRIu32 "\n", caller->count, caller->start,
            caller->first, caller->last);
    _Exit(1);
}

void expect(const struct caller *caller, bool holds, const char *what)
{
    if (holds)
        return;
    fprintf(stderr, "FAILED: %s\n", what);
    stop(caller);
}

void expect_answer(const struct caller *caller, struct answer found, uint32_t number, uint32_t value, const char *what)
{
    if (found.number == number && found.value == value)
        return;
    fprintf(stderr, "FAILED: %s: %" PRIu32 " with %" PRIu32 ", and %" PRIu32 " with %" PRIu32 " is due\n", what, found.number,
            found.value, number, value);
    stop(caller);
}

/* ---- pages */

static void *checked(void *mapped)
{
    if (mapped == MAP_FAILED) {
        perror("mmap");
        exit(2);
    }
    return mapped;
}

/* Maps memory for `size` bytes between two unreadable pages; for inputs once more, as the only view of it that can be written. */
static struct pages open_pages(size_t size, bool written)
{
    struct pages pages;
    int file = memfd_create("guard", 0);
    uint8_t *around;
    pages.size = (size + PAGE - 1) / PAGE * PAGE;
    if (file < 0 || ftruncate(file, (off_t)pages.size) != 0) {
        perror("memfd_create");
        exit(2);
    }
    around = checked(mmap(NULL, pages.size + 2 * PAGE, PROT_NONE, MAP_PRIVATE | MAP_ANONYMOUS, -1, 0));
    pages.lent = checked(mmap(around + PAGE, pages.size, written ? PROT_READ | PROT_WRITE : PROT_READ, MAP_SHARED | MAP_FIXED, file, 0));
    pages.fill = written ? pages.lent : checked(mmap(NULL, pages.size, PROT_READ | PROT_WRITE, MAP_SHARED, file, 0));
    close(file);
    return pages;
}

static void close_pages(struct pages *pages)
{
    if (pages->fill != pages->lent)
        munmap(pages->fill, pages->size);
    munmap(pages->lent - PAGE, pages->size + 2 * PAGE);
}

void open_caller(struct caller *caller)
{
    memset(caller, 0, sizeof *caller);
    caller->text.pages = open_pages(TEXT_ROOM, false);
    caller->tape.pages = open_pages(LETTER_ROOM, false);
    caller->code.pages = open_pages(CODE_ROOM, false);
    caller->words.pages = open_pages((WUMBYRA_MAX_WORDS + 8) * sizeof(uint64_t), true);
    caller->letters.pages = open_pages(LETTER_ROOM, true);
    caller->written.pages = open_pages(WUMBYRA_MAX_CODE_BYTES, true);
    caller->litres.pages = open_pages((WUMBYRA_ACCOUNTS + 8) * sizeof(uint32_t), true);
    caller->page.pages = open_pages(LETTER_ROOM, false);
    caller->held.pages = open_pages(CELL_ROOM, false);
    caller->desk.pages = open_pages(DESK_ROOM, true);
}

void close_caller(struct caller *caller)
{
    struct pages *all[] = {&caller->text.pages,    &caller->tape.pages,    &caller->code.pages,  &caller->words.pages,
                           &caller->letters.pages, &caller->written.pages, &caller->litres.pages, &caller->page.pages,
                           &caller->held.pages,    &caller->desk.pages};
    for (size_t i = 0; i < sizeof all / sizeof *all; i++)
        close_pages(all[i]);
}

/* Where a buffer of this size begins: with the pages, or so that it ends with them. */
static size_t place(struct caller *caller, const struct pages *pages, size_t size)
{
    return chance(&caller->source, 4) ? 0 : pages->size - size;
}

void hand(struct caller *caller, struct input *input, const uint8_t *bytes, size_t size)
{
    const size_t at = place(caller, &input->pages, size);
    memcpy(input->pages.fill + at, bytes, size);
    input->at = input->pages.lent + at;
    input->size = size;
}

/* The cells beside a buffer on the side that has no unreadable page. */
static uint8_t *beside(const struct output *output)
{
    return output->at == output->pages.lent ? output->at + output->size : output->at - BESIDE;
}

static size_t beside_size(const struct output *output)
{
    const size_t left = output->pages.size - output->size;
    return left < BESIDE ? 0 : BESIDE;
}

static void *lend(struct caller *caller, struct output *output, size_t size)
{
    output->at = output->pages.lent + place(caller, &output->pages, size);
    output->size = size;
    caller->filling = (uint8_t)draw(&caller->source, 256);
    memset(output->at, caller->filling, size);
    memset(beside(output), caller->filling, beside_size(output));
    return output->at;
}

static bool filled(const uint8_t *bytes, size_t size, uint8_t filling)
{
    return size == 0 || (bytes[0] == filling && memcmp(bytes, bytes + 1, size - 1) == 0);
}

/* What the call may not have touched: the buffer behind its first `used` bytes, and the cells beside it. */
static void unchanged(struct caller *caller, const struct output *output, uint8_t filling, size_t used, const char *what)
{
    expect(caller, used <= output->size, what);
    expect(caller, filled(output->at + used, output->size - used, filling), what);
    expect(caller, filled(beside(output), beside_size(output), filling), what);
}

/* ---- calls */

/* The parts of an answer, which must be one of these numbers; a number of no value is beside 0. */
static struct answer taken(struct caller *caller, uint64_t packed, const char *numbers, const char *what)
{
    static const char names[] = "0123456789xyzabc....d"; /* no cause has a number from 16 to 19 */
    struct answer answer = {wumbyra_number(packed), wumbyra_value(packed)};
    caller->calls++;
    expect(caller, answer.number <= CAUSES && strchr(numbers, names[answer.number]) != NULL, what);
    caller->answers[answer.number]++;
    if (answer.number == 3 || answer.number == 5 || answer.number == 8 || answer.number >= 10)
        expect(caller, answer.value == 0, what);
    return answer;
}

static bool is_one_of(uint32_t number, uint32_t a, uint32_t b, uint32_t c)
{
    return number == a || number == b || number == c;
}

/* Bytes of a code that is written, whose unused bits are 0. */
static size_t code_size(struct caller *caller, const uint8_t *code, struct answer answer)
{
    if (answer.number != WUMBYRA_OK)
        return 0;
    if (answer.value % 8 != 0)
        expect(caller, (code[answer.value / 8] & 0xff >> answer.value % 8) == 0, "unused bits are 0");
    return WUMBYRA_BYTES_OF_BITS(answer.value);
}

struct answer call_load(struct caller *c)
{
    return taken(c, wumbyra_load(c->text.at, c->text.size), "012", "load answers");
}

struct answer call_parse(struct caller *c, size_t words, size_t bytes)
{
    uint64_t *marks = lend(c, &c->words, words * sizeof *marks);
    const uint8_t filling = c->filling;
    uint8_t *code = lend(c, &c->written, bytes);
    uint64_t packed = wumbyra_parse(c->text.at, c->text.size, c->tape.at, c->tape.size, marks, words, code, bytes);
    struct answer answer = taken(c, packed, "0234657", "parse answers");
    const size_t used = is_one_of(answer.number, 0, 5, 7) ? WUMBYRA_WORDS(c->tape.size) * sizeof *marks : 0;
    unchanged(c, &c->words, filling, used, "parse leaves words");
    unchanged(c, &c->written, c->filling, code_size(c, code, answer), "parse leaves code");
    return answer;
}

struct answer call_flatten(struct caller *c, size_t cells)
{
    uint8_t *tape = lend(c, &c->letters, cells);
    uint64_t packed = wumbyra_flatten(c->text.at, c->text.size, c->code.at, c->code.size, c->count, tape, cells);
    struct answer answer = taken(c, packed, "02839", "flatten answers");
    const size_t used = answer.number == WUMBYRA_OK ? answer.value : 0;
    unchanged(c, &c->letters, c->filling, used, "flatten leaves tape");
    for (size_t i = 0; i < used; i++)
        expect(c, is_letter(tape[i]), "flatten writes letters");
    return answer;
}

struct answer call_canonicalize(struct caller *c, struct room room, size_t letters)
{
    uint8_t *tape = lend(c, &c->letters, room.cells);
    const uint8_t filling = c->filling;
    uint64_t *marks = lend(c, &c->words, room.words * sizeof *marks);
    const uint8_t other = c->filling;
    uint8_t *code = lend(c, &c->written, room.bytes);
    uint64_t packed = wumbyra_canonicalize(c->text.at, c->text.size, c->code.at, c->code.size, c->count, tape, room.cells, marks,
                                           room.words, code, room.bytes);
    struct answer answer = taken(c, packed, "0283967", "canonicalize answers");
    const size_t cells = is_one_of(answer.number, 0, 6, 7) ? letters : 0;
    const size_t words = is_one_of(answer.number, 0, 7, 7) ? WUMBYRA_WORDS(letters) : 0;
    unchanged(c, &c->letters, filling, cells, "canonicalize leaves tape");
    unchanged(c, &c->words, other, words * sizeof *marks, "canonicalize leaves words");
    unchanged(c, &c->written, c->filling, code_size(c, code, answer), "canonicalize leaves code");
    return answer;
}

struct answer call_span(struct caller *c, uint32_t node, uint32_t visit)
{
    uint64_t packed = wumbyra_span(c->text.at, c->text.size, c->tape.at, c->tape.size, c->code.at, c->code.size, c->count, node, visit);
    struct answer answer = taken(c, packed, "02348x", "span answers");
    if (answer.number == WUMBYRA_OK)
        expect(c, wumbyra_span_start(packed) + wumbyra_span_length(packed) <= c->tape.size, "a piece lies inside the tape");
    return answer;
}

struct answer call_locate(struct caller *c)
{
    struct answer answer = taken(c, wumbyra_locate(c->text.at, c->text.size, c->tape.at, c->tape.size), "0234", "locate answers");
    if (answer.number == WUMBYRA_OK)
        expect(c, answer.value >> 16 <= c->tape.size && (answer.value & 0xffff) <= c->tape.size, "a tape breaks inside itself or at its end");
    return answer;
}

struct answer call_total(struct caller *c, uint32_t account)
{
    uint64_t packed = wumbyra_total(c->text.at, c->text.size, c->code.at, c->code.size, c->count, account);
    return taken(c, packed, "0283", "total answers");
}

/* What both calls that write litres leave in them. */
static void expect_litres(struct caller *c, struct answer answer, const uint32_t *litres, size_t cells)
{
    const size_t used = cells < WUMBYRA_ACCOUNTS ? cells : WUMBYRA_ACCOUNTS;
    expect(c, answer.value == 0, "totals answer 0");
    unchanged(c, &c->litres, c->filling, used * sizeof *litres, "totals leave litres");
    for (size_t i = 0; answer.number != WUMBYRA_OK && i < used; i++)
        expect(c, litres[i] == 0, "refused totals are 0");
}

struct answer call_totals(struct caller *c, size_t cells)
{
    uint32_t *litres = lend(c, &c->litres, cells * sizeof *litres);
    uint64_t packed = wumbyra_totals(c->text.at, c->text.size, c->code.at, c->code.size, c->count, litres, cells);
    struct answer answer = taken(c, packed, "0283d", "totals answers");
    expect_litres(c, answer, litres, cells);
    return answer;
}

struct answer call_term_totals(struct caller *c, size_t cells)
{
    uint32_t *litres = lend(c, &c->litres, cells * sizeof *litres);
    uint64_t packed = wumbyra_term_totals(c->text.at, c->text.size, c->code.at, c->code.size, c->count, c->start, c->first, c->last,
                                          litres, cells);
    struct answer answer = taken(c, packed, "0283yzd", "term totals answers");
    expect_litres(c, answer, litres, cells);
    return answer;
}

/* ---- page desks */

/* Lends a copy of these bytes. */
static void *lend_copy(struct caller *caller, struct output *output, const void *bytes, size_t size)
{
    lend(caller, output, size);
    memcpy(output->at, bytes, size);
    return output->at;
}

/* Takes back what was lent: but for `count` bytes from `from` on it must be as it was, and so must the cells beside it. */
static void take_back(struct caller *c, const struct output *output, uint8_t filling, void *bytes, size_t from, size_t count,
                      const char *what)
{
    const size_t end = from + count;
    expect(c, filled(beside(output), beside_size(output), filling), what);
    expect(c, end <= output->size || count == 0, what);
    if (count == 0)
        expect(c, memcmp(output->at, bytes, output->size) == 0, what);
    else
        expect(c, memcmp(output->at, bytes, from) == 0 && memcmp(output->at + end, (uint8_t *)bytes + end, output->size - end) == 0, what);
    memcpy(bytes, output->at, output->size);
}

struct answer call_desk_open(struct caller *c, struct kept *kept, struct desk_room room)
{
    uint8_t *desk = lend_copy(c, &c->desk, kept->desk, room.desk);
    const uint8_t filling = c->filling;
    uint64_t *words = lend_copy(c, &c->words, kept->words, room.words * sizeof *words);
    uint64_t packed = wumbyra_desk_open(c->text.at, c->text.size, desk, room.desk, words, room.words);
    struct answer answer = taken(c, packed, "026a", "desk open answers");
    const bool done = answer.number == WUMBYRA_OK;
    take_back(c, &c->desk, filling, kept->desk, 0, done ? WUMBYRA_DESK_BYTES : 0, "opening leaves the desk");
    take_back(c, &c->words, c->filling, kept->words, 0, done ? 2 * sizeof *words : 0, "opening leaves words");
    return answer;
}

struct answer call_desk_put(struct caller *c, struct kept *kept, struct desk_room room, size_t held)
{
    uint8_t *desk = lend_copy(c, &c->desk, kept->desk, room.desk);
    const uint8_t filling = c->filling;
    uint8_t *letters = lend_copy(c, &c->letters, kept->letters, room.cells);
    const uint8_t other = c->filling;
    uint64_t *words = lend_copy(c, &c->words, kept->words, room.words * sizeof *words);
    uint64_t packed = wumbyra_desk_put(c->text.at, c->text.size, desk, room.desk, c->page.at, c->page.size, letters, room.cells, words,
                                       room.words);
    struct answer answer = taken(c, packed, "029ab46", "desk put answers");
    const size_t put = answer.number == WUMBYRA_OK ? c->page.size : 0, size = sizeof *words;
    take_back(c, &c->desk, filling, kept->desk, 0, put > 0 ? WUMBYRA_DESK_BYTES : 0, "a put leaves the desk");
    take_back(c, &c->letters, other, kept->letters, put > 0 ? WUMBYRA_MAX_LETTERS - held - put : 0, put, "a put leaves letters");
    take_back(c, &c->words, c->filling, kept->words, 2 * (held + 1) * size, 2 * put * size, "a put leaves words");
    return answer;
}

struct answer call_desk_withdraw(struct caller *c, struct kept *kept, struct desk_room room)
{
    uint8_t *desk = lend_copy(c, &c->desk, kept->desk, room.desk);
    uint64_t packed;
    struct answer answer;
    hand(c, &c->held, kept->letters, room.cells);
    packed = wumbyra_desk_withdraw(c->text.at, c->text.size, desk, room.desk, c->held.at, c->held.size);
    answer = taken(c, packed, "029ac", "desk withdraw answers");
    take_back(c, &c->desk, c->filling, kept->desk, 0, answer.number == WUMBYRA_OK ? 1 : 0, "a withdrawal leaves the desk");
    return answer;
}
