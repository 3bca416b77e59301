// The longest that a call takes: patterns, tapes and codes that nobody has, and that anybody may hand over. Each answer is compared with
// the one that is due. Of five runs of a call the shortest is printed, in the processor's time: others may use the machine as well.
//
// Reading takes time as letters x nodes, and going over a code as bits x nodes: a round of a star takes one bit, and all nodes of the
// round may be ones that take no bit. So each pattern here has 64 lines, and its star's round goes through all the others.
#define _POSIX_C_SOURCE 200809L
#include "wumbyra.h"
#include <stdio.h>
#include <stdlib.h>
#include <string.h>
#include <time.h>

enum { LETTERS = WUMBYRA_MAX_LETTERS, BYTES = WUMBYRA_MAX_CODE_BYTES, BITS = 8 * BYTES, NODES = WUMBYRA_MAX_LINES, LONG_TEXT = 1 << 26 };

static char text[8192];
static size_t size;
static int lines;
static uint8_t tape[LETTERS], spelled[LETTERS], code[BYTES], settled[BYTES], *long_text;
static size_t code_bytes;
static uint64_t words[WUMBYRA_WORDS(LETTERS)];
static uint32_t count, litres[WUMBYRA_ACCOUNTS];

// ---- patterns

static int line(const char *rest) {
  size += sprintf(text + size, "%d\t%s\n", lines, rest);
  return lines++;
}

static int parts(char kind, int first, int second) {
  char rest[32];
  if (kind == 'K' || kind == 'Z') sprintf(rest, "%c\t-\t%d", kind, first);
  else sprintf(rest, "%c\t-\t%d\t%d", kind, first, second);
  return line(rest);
}

// A star over 32 leaves in a row, the last of them another one; the row is a chain of sequences down to the left or to the right.
static void row_of(const char *leaf, const char *last, int left) {
  size = lines = 0;
  int row = line(left ? leaf : last);
  for (int i = 1; i < 32; i++) {
    int next = line(left && i == 31 ? last : leaf);
    row = left ? parts('S', row, next) : parts('S', next, row);
  }
  parts('K', row, 0);
}

// (A*B*C*..)*, 21 stars in a star.
static void stars_in_a_star(void) {
  size = lines = 0;
  int row = -1;
  for (int i = 0; i < 21; i++) {
    char leaf[16];
    sprintf(leaf, "L\t-\t%c", 'A' + i);
    int star = parts('K', line(leaf), 0);
    row = row < 0 ? star : parts('S', row, star);
  }
  parts('K', row, 0);
}

// 63 lazy stars around a letter: each letter takes a round of every one of them, so that its code is nearly as long as any.
static void lazy_stars(void) {
  size = lines = 0;
  int star = line("R\t1\t!\t~");
  while (lines < NODES) star = parts('Z', star, 0);
}

// ---- times

static uint64_t load(void) { return wumbyra_load((uint8_t *)text, size); }
static uint64_t load_long(void) { return wumbyra_load(long_text, LONG_TEXT); }
static uint64_t parse(void) {
  return wumbyra_parse((uint8_t *)text, size, tape, LETTERS, words, WUMBYRA_WORDS(LETTERS), code, BYTES);
}
static uint64_t locate(void) { return wumbyra_locate((uint8_t *)text, size, tape, LETTERS); }
// Into a buffer that is just long enough, so that bits are counted before they are written.
static uint64_t parse_exact(void) {
  return wumbyra_parse((uint8_t *)text, size, tape, LETTERS, words, WUMBYRA_WORDS(LETTERS), code, code_bytes);
}
static uint64_t flatten(void) { return wumbyra_flatten((uint8_t *)text, size, code, code_bytes, count, spelled, LETTERS); }
static uint64_t totals(void) { return wumbyra_totals((uint8_t *)text, size, code, code_bytes, count, litres, WUMBYRA_ACCOUNTS); }
// All days there are, of a tape that begins with the first.
static uint64_t term_totals(void) {
  return wumbyra_term_totals((uint8_t *)text, size, code, code_bytes, count, 20000101, 20000101, 20991231, litres, WUMBYRA_ACCOUNTS);
}
static uint64_t canonicalize(void) {
  return wumbyra_canonicalize((uint8_t *)text, size, code, code_bytes, count, spelled, LETTERS, words, WUMBYRA_WORDS(LETTERS), settled,
                              BYTES);
}
// The last leaf of the round, and a visit that there is not: all of the code is gone over before that is known.
static uint64_t span(void) { return wumbyra_span((uint8_t *)text, size, tape, 0, code, code_bytes, count, 1, UINT32_MAX); }
static uint64_t span_of_root(void) { return wumbyra_span((uint8_t *)text, size, tape, 0, code, code_bytes, count, NODES - 1, 0); }
static uint64_t span_of_letters(void) { return wumbyra_span((uint8_t *)text, size, tape, LETTERS, code, code_bytes, count, 1, 0); }

static double now(void) {
  struct timespec t;
  clock_gettime(CLOCK_PROCESS_CPUTIME_ID, &t);
  return t.tv_sec * 1e3 + t.tv_nsec * 1e-6;
}

static void row(const char *what, const char *call, uint64_t (*run)(void), uint64_t due, double steps) {
  double shortest = 1e9;
  for (int i = 0; i < 5; i++) {
    double start = now();
    uint64_t answer = run();
    double took = now() - start;
    if (took < shortest) shortest = took;
    if (answer == due) continue;
    printf("%s, %s: the answer is %llu with %llu\n", what, call, (unsigned long long)(answer >> 32), (unsigned long long)(uint32_t)answer);
    exit(1);
  }
  printf("| %s | %s | ", what, call);
  if (due >> 32) printf("refused with %d", (int)(due >> 32));
  else printf("%llu", (unsigned long long)due);
  printf(" | %.3f | ", shortest);
  if (steps > 0) printf("%.1f |\n", shortest * 1e6 / steps);
  else puts("|");
}

static uint64_t refused(uint64_t number) { return number << 32; }

// ---- tables

// The longest code: rounds, one bit each, and the bit that stops them.
static void longest_code(void) {
  memset(code, 0, BYTES);
  code[BYTES - 1] = 1;
  code_bytes = BYTES;
  count = BITS;
}

static void on_codes(int left) {
  const double steps = (double)BITS * NODES;
  const char *side = left ? "left" : "right";
  char empty[80], many[80];
  sprintf(empty, "524,287 empty rounds of 32 nothings, chained to the %s", side);
  sprintf(many, "16,777,184 letters, 32 a round, chained to the %s", side);
  row_of("E\t-", "E\t-", left);
  longest_code();
  row(empty, "flatten", flatten, 0, steps);
  row(empty, "totals", totals, 0, steps);
  row(empty, "totals within a term", term_totals, 0, steps);
  row(empty, "canonicalize", canonicalize, 1, steps);
  row(empty, "span of a visit that there is not", span, refused(WUMBYRA_NO_SUCH_VISIT), steps);
  row(empty, "span of the root", span_of_root, 0, steps);
  row_of("L\t1\t7", "L\t1\t7", left);
  row(many, "flatten", flatten, refused(WUMBYRA_TAPE_TOO_LONG), steps);
  row(many, "totals", totals, refused(WUMBYRA_TAPE_TOO_LONG), steps);
  row(many, "totals within a term", term_totals, refused(WUMBYRA_TAPE_TOO_LONG), steps);
  row(many, "canonicalize", canonicalize, refused(WUMBYRA_TAPE_TOO_LONG), steps);
  memset(tape, '7', LETTERS);
  row(many, "span", span_of_letters, refused(WUMBYRA_NOT_A_CODE), steps);
}

static void read_tape(const char *what) {
  const double steps = (double)LETTERS * NODES;
  uint64_t answer = parse();
  code_bytes = (answer + 7) / 8;
  row(what, "parse", parse, answer, steps);
  row(what, "parse into a buffer that is just long enough", parse_exact, answer, steps);
  count = answer;
  row(what, "canonicalize its code", canonicalize, answer, steps);
}

static void on_tapes(void) {
  memset(tape, '7', LETTERS);
  row_of("E\t-", "R\t1\t!\t~", 1);
  read_tape("3,600 rounds of 31 nothings and a letter, chained to the left");
  row_of("E\t-", "R\t1\t!\t~", 0);
  read_tape("3,600 rounds of 31 nothings and a letter, chained to the right");
  stars_in_a_star();
  for (int i = 0; i < LETTERS; i++) tape[i] = 'A' + 20 - i % 21;
  read_tape("21 stars in a star, letters in falling order");
  lazy_stars();
  read_tape("63 nested lazy stars");
  unsigned state = 1;
  for (int i = 0; i < LETTERS; i++) {
    state = state * 1103515245u + 12345u;
    tape[i] = '!' + (state >> 16) % 94;
  }
  row_of("R\t1\t!\t~", "R\t1\t!\t~", 1);
  // 3,600 letters are 112 rounds and a half, so they begin a tape and end one.
  row("3,600 letters, 32 leaves that take each", "parse", parse, refused(WUMBYRA_UNREADABLE), (double)LETTERS * NODES);
  row("3,600 letters, 32 leaves that take each", "locate", locate, (uint64_t)LETTERS << 16, (double)LETTERS * NODES);
}

int main(void) {
  puts("| What is handed over, 64 nodes | Call | Answer | ms | ns a step |\n|---|---|---|---|---|");
  on_codes(1);
  on_codes(0);
  on_tapes();
  row("the text of the last pattern", "load", load, NODES, 0);
  long_text = malloc(LONG_TEXT);
  if (!long_text) return 1;
  memset(long_text, '0', LONG_TEXT);
  row("a text of 64 MB in one line", "load", load_long, refused(WUMBYRA_LINE_FORM), 0);
  memset(long_text, '\n', LONG_TEXT);
  row("a text of 64 MB of line ends", "load", load_long, refused(WUMBYRA_LINE_FORM), 0);
  return 0;
}
