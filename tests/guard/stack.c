/* stack: every call on the deepest patterns there are, on a stack of WUMBYRA_STACK_BYTES between unreadable pages. A call that takes
 * more ends the program. It is built without sanitizers, which would take stack of their own. */
#define _GNU_SOURCE
#include "cases.h"

#include <stdio.h>
#include <stdlib.h>
#include <string.h>
#include <sys/mman.h>
#include <ucontext.h>

enum { PAGE = 4096, DRAWN = 300, CALLS = 12 };

static ucontext_t outside, inside;
static const uint8_t *text;
static size_t size;
static struct parse parse;
static uint64_t words[WUMBYRA_MAX_WORDS];
static uint8_t tape[WUMBYRA_MAX_LETTERS], written[WUMBYRA_MAX_WRITTEN_CODE_BYTES];
static uint32_t litres[WUMBYRA_ACCOUNTS], dated[WUMBYRA_ACCOUNTS];
static uint8_t desk[WUMBYRA_DESK_BYTES], held[WUMBYRA_MAX_LETTERS];
static const uint8_t page[] = {'0'};
static uint64_t answers[CALLS];

/* Twelve calls, of which none may run out of stack. Their buffers are elsewhere. */
static void call_all(void)
{
    const uint8_t *letters = parse.letters, *code = parse.code;
    const size_t count = parse.count, bytes = WUMBYRA_BYTES_OF_BITS(parse.bits);
    answers[0] = wumbyra_load(text, size);
    answers[1] = wumbyra_parse(text, size, letters, count, words, WUMBYRA_MAX_WORDS, written, sizeof written);
    answers[2] = wumbyra_flatten(text, size, code, bytes, parse.bits, tape, sizeof tape);
    answers[3] = wumbyra_canonicalize(text, size, code, bytes, parse.bits, tape, sizeof tape, words, WUMBYRA_MAX_WORDS, written,
                                      sizeof written);
    answers[4] = wumbyra_span(text, size, letters, count, code, bytes, parse.bits, parse.watched, parse.visits - 1);
    answers[5] = wumbyra_total(text, size, code, bytes, parse.bits, 1);
    answers[6] = wumbyra_totals(text, size, code, bytes, parse.bits, litres, WUMBYRA_ACCOUNTS);
    answers[7] = wumbyra_term_totals(text, size, code, bytes, parse.bits, 20000101, 20000101, 20991231, dated, WUMBYRA_ACCOUNTS);
    answers[8] = wumbyra_desk_open(text, size, desk, sizeof desk, words, WUMBYRA_MAX_WORDS);
    answers[9] = wumbyra_desk_put(text, size, desk, sizeof desk, page, 1, held, sizeof held, words, WUMBYRA_MAX_WORDS);
    answers[10] = wumbyra_desk_withdraw(text, size, desk, sizeof desk, held, sizeof held);
    answers[11] = wumbyra_locate(text, size, letters, count);
}

static int on_small_stack(const struct pattern *pattern, uint8_t *stack)
{
    text = pattern->text;
    size = pattern->size;
    getcontext(&inside);
    inside.uc_stack.ss_sp = stack;
    inside.uc_stack.ss_size = WUMBYRA_STACK_BYTES;
    inside.uc_link = &outside;
    makecontext(&inside, call_all, 0);
    if (swapcontext(&outside, &inside) != 0)
        return 1;
    for (int i = 0; i < CALLS; i++)
        if (wumbyra_number(answers[i]) != WUMBYRA_OK && !(i == 4 && parse.visits == 0)) {
            fprintf(stderr, "FAILED: call %d is refused with %u\n", i, wumbyra_number(answers[i]));
            return 1;
        }
    if (wumbyra_value(answers[11]) != parse.count << 16) {
        fprintf(stderr, "FAILED: a tape that can be read breaks\n");
        return 1;
    }
    if (memcmp(dated, litres, sizeof litres) != 0) {
        fprintf(stderr, "FAILED: a term of all days has not the totals of the tape\n");
        return 1;
    }
    return 0;
}

/* A leaf under 63 lines of kind K or Z, or under 31 of kind S or A, whose other part is a leaf, down to the left or to the right. */
static void chain(struct pattern *pattern, char kind, int right)
{
    const bool star = kind == 'K' || kind == 'Z';
    char *end = (char *)pattern->text;
    uint32_t last = 0;
    end += sprintf(end, "0\tR\t1\t0\t9\n");
    pattern->node[0] = (struct node){'R', 1, 0, 0, '0', '9'};
    pattern->count = 1;
    while (pattern->count + (star ? 1 : 2) <= WUMBYRA_MAX_LINES) {
        uint32_t leaf = pattern->count;
        if (star) {
            pattern->node[leaf] = (struct node){kind, 0, last, 0, 0, 0};
            end += sprintf(end, "%u\t%c\t-\t%u\n", leaf, kind, last);
            last = leaf;
        } else {
            uint32_t first = right ? leaf : last, second = right ? last : leaf;
            pattern->node[leaf] = (struct node){'R', 2, 0, 0, '0', '9'};
            pattern->node[leaf + 1] = (struct node){kind, 0, first, second, 0, 0};
            end += sprintf(end, "%u\tR\t2\t0\t9\n%u\t%c\t-\t%u\t%u\n", leaf, leaf + 1, kind, first, second);
            last = leaf + 1;
        }
        pattern->count = last + 1;
    }
    pattern->size = (size_t)(end - (char *)pattern->text);
}

/* The code of the longest tape under 63 stars, as it must be written. Of kind K the innermost star takes all letters. Of kind Z each
 * star stops as soon as its round has a letter, so that the outermost takes a round for each. */
static void longest(char kind)
{
    const uint32_t stars = WUMBYRA_MAX_LINES - 1;
    parse.bits = 0;
    parse.count = WUMBYRA_MAX_LETTERS;
    parse.watched = stars;
    parse.visits = 1;
    for (uint32_t i = 0; i < parse.count; i++) {
        parse.letters[i] = (uint8_t)('0' + i % 10);
        for (uint32_t star = kind == 'K' && i > 0 ? stars - 1 : 0; star < stars; star++)
            put_bits(&parse, kind == 'Z', 1);
        put_bits(&parse, parse.letters[i], 8);
        for (uint32_t star = 1; star < stars && kind == 'Z'; star++)
            put_bits(&parse, 0, 1);
    }
    for (uint32_t star = kind == 'Z' ? stars - 1 : 0; star < stars; star++)
        put_bits(&parse, kind == 'K', 1);
}

static int read_longest(struct pattern *pattern, char kind, uint8_t *stack)
{
    chain(pattern, kind, 0);
    longest(kind);
    if (on_small_stack(pattern, stack) != 0)
        return 1;
    /* What settling wrote stands where the parse wrote before. */
    if (wumbyra_value(answers[1]) != parse.bits || wumbyra_value(answers[3]) != parse.bits ||
        memcmp(written, parse.code, WUMBYRA_BYTES_OF_BITS(parse.bits)) != 0 || memcmp(tape, parse.letters, parse.count) != 0) {
        fprintf(stderr, "FAILED: the code of the longest tape under 63 stars of kind %c\n", kind);
        return 1;
    }
    printf("%u letters under 63 stars of kind %c: %u bits\n", parse.count, kind, parse.bits);
    return 0;
}

int main(void)
{
    static const struct {
        char kind;
        int right;
    } chains[] = {{'K', 0}, {'Z', 0}, {'S', 0}, {'S', 1}, {'A', 0}, {'A', 1}};
    static struct pattern pattern;
    struct source source = {1};
    uint8_t *around = mmap(NULL, WUMBYRA_STACK_BYTES + 2 * PAGE, PROT_NONE, MAP_PRIVATE | MAP_ANONYMOUS, -1, 0);
    int failed = 0;
    if (around == MAP_FAILED || mprotect(around + PAGE, WUMBYRA_STACK_BYTES, PROT_READ | PROT_WRITE) != 0) {
        perror("mmap");
        return 2;
    }
    for (size_t i = 0; i < sizeof chains / sizeof *chains + DRAWN && !failed; i++) {
        if (i < sizeof chains / sizeof *chains)
            chain(&pattern, chains[i].kind, chains[i].right);
        else
            draw_pattern(&source, &pattern, false);
        draw_parse(&source, &pattern, &parse, 90, 40);
        failed = on_small_stack(&pattern, around + PAGE);
    }
    failed = failed || read_longest(&pattern, 'K', around + PAGE) || read_longest(&pattern, 'Z', around + PAGE);
    if (!failed)
        printf("%zu patterns, twelve calls each, on %d bytes of stack\n", sizeof chains / sizeof *chains + DRAWN, WUMBYRA_STACK_BYTES);
    return failed;
}
