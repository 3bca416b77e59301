// Times the proved reader against the C of reader.c and against matchers, all in one run, and prints tables. Before a time is taken all
// results are compared. Calls that are compared take turns; of each the shortest and the median time are kept.
#define _GNU_SOURCE
#include "matchers.h"
#include "patterns.h"
#include "reader.h"
#include "wumbyra.h"
#include <stdio.h>
#include <stdlib.h>
#include <string.h>
#include <time.h>
#include <ucontext.h>

enum { LETTERS = 3600, CELLS = 2 * (LETTERS + 1), BYTES = 65536, ROUNDS = 2000, JOBS = 24 };

// Side 0 is the proved reader's, side 1 C's. The code that walks are given is that of side 0.
static Table table;
static Masks masks;
static uint8_t text[8192], tape[LETTERS], unread[LETTERS], spelled[2][LETTERS], codes[2][BYTES + 8], settled[2][BYTES + 8];
static uint64_t words[2][CELLS];
static uint32_t litres[2][ACCOUNTS], bits;
static size_t size, n, bytes;
static char expression[8192];
static volatile uint64_t sink;
static int wanting;  // bounds that are not met

// Calls of the proved reader.
static void p_load(void) { sink = wumbyra_load(text, size); }
static uint64_t parse_of(const uint8_t *what, size_t letters, size_t cells) {
  return wumbyra_parse(text, size, what, letters, words[0], cells, codes[0], BYTES);
}
static void p_parse(void) { sink = parse_of(tape, n, CELLS); }
static void p_unread(void) { sink = parse_of(unread, n, CELLS); }
static void p_locate(void) { sink = wumbyra_locate(text, size, tape, n); }
static void p_locate_unread(void) { sink = wumbyra_locate(text, size, unread, n); }
static void p_tests(void) { sink = parse_of(tape, n, 0); }
static void p_one(void) { sink = parse_of(unread, 1, CELLS); }
static void p_one_tests(void) { sink = parse_of(unread, 1, 0); }
static void p_walk(void) { sink = wumbyra_flatten(text, size, codes[0], bytes, bits, spelled[0], 0); }
static void p_spell(void) { sink = wumbyra_flatten(text, size, codes[0], bytes, bits, spelled[0], LETTERS); }
static void p_totals(void) { sink = wumbyra_totals(text, size, codes[0], bytes, bits, litres[0], ACCOUNTS); }
// Terms of a tape that begins with the year 2000: all of its days, which are the most litres to add, and a month of them.
enum { START = 20000101, BEFORE = 20000115, FIRST = 20000116, LAST = 20000215, BEHIND = 20000216, END = 20991231 };
static uint64_t term_of(uint32_t first, uint32_t last) {
  return wumbyra_term_totals(text, size, codes[0], bytes, bits, START, first, last, litres[0], ACCOUNTS);
}
static void p_term(void) { sink = term_of(START, END); }
static void p_month(void) { sink = term_of(FIRST, LAST); }
// The page desk: the tape of no parse in 30 pages, its last letters first. Without words a put is refused with 6 after all its tests, and
// the desk is as it was; the count is set by hand, so that each page is put on the desk that is its own.
enum { PAGE = WUMBYRA_MAX_PAGE_LETTERS, PAGES = LETTERS / PAGE };
static uint8_t desks[2][WUMBYRA_DESK_BYTES], held[2][LETTERS];
static uint64_t tails[2][CELLS];
static const uint8_t *page_of(int k) { return unread + LETTERS - PAGE * (k + 1); }
static uint64_t put_of(int k, size_t room) {
  return wumbyra_desk_put(text, size, desks[0], WUMBYRA_DESK_BYTES, page_of(k), PAGE, held[0], LETTERS, tails[0], room);
}
static void p_pages(void) {
  desks[0][0] = 0;
  for (int k = 0; k < PAGES; k++) sink = put_of(k, CELLS);
}
static void p_page_tests(void) {
  for (int k = 0; k < PAGES; k++) {
    desks[0][0] = k;
    sink = put_of(k, 0);
  }
  desks[0][0] = PAGES;
}
// A visit that there is not: all of the code is searched, and the answer is 10.
static void p_span(void) { sink = wumbyra_span(text, size, tape, n, codes[0], bytes, bits, 0, UINT32_MAX); }
static void p_settle(void) {
  sink = wumbyra_canonicalize(text, size, codes[0], bytes, bits, spelled[0], LETTERS, words[0], CELLS, settled[0], BYTES);
}

// The same by hand.
static void c_masks(void) { make_masks(&table, &masks); }
static void c_fill(void) { fill_words(&masks, unread, n, words[1]); }
static void c_masks_fill(void) { c_masks(), c_fill(); }
static void c_parse(void) {
  make_masks(&table, &masks);
  fill_words(&masks, tape, n, words[1]);
  sink = write_code(&table, &masks, words[1], tape, n, codes[1]);
}
static void c_walk(void) { sink = check_code(&table, codes[0], bytes, bits); }
static void c_spell(void) { sink = spell(&table, codes[0], spelled[1]); }
static void c_flatten(void) { sink = flatten(&table, codes[0], bytes, bits, spelled[1], LETTERS); }
static void c_totals(void) { sink = totals(&table, codes[0], bytes, bits, litres[1]); }
static void c_settle(void) {
  c_flatten();
  make_masks(&table, &masks);
  fill_words(&masks, spelled[1], n, words[1]);
  sink = write_code(&table, &masks, words[1], spelled[1], n, settled[1]);
}

static Matcher matchers[MATCHERS];
static void m_0(void) { sink = matchers[0].match(matchers[0].made, tape, n); }
static void m_1(void) { sink = matchers[1].match(matchers[1].made, tape, n); }
static void m_2(void) { sink = matchers[2].match(matchers[2].made, tape, n); }
static void m_3(void) { sink = matchers[3].match(matchers[3].made, tape, n); }
static void m_4(void) { sink = matchers[4].match(matchers[4].made, tape, n); }
static void m_5(void) { sink = matchers[5].match(matchers[5].made, tape, n); }
static void (*const match_calls[MATCHERS])(void) = {m_0, m_1, m_2, m_3, m_4, m_5};

static void c_pages(void) {
  desks[1][0] = 0;
  for (int k = 0; k < PAGES; k++)
    sink = desk_put(&table, desks[1], WUMBYRA_DESK_BYTES, page_of(k), PAGE, held[1], LETTERS, tails[1], CELLS);
}
static void c_grow(void) {
  for (int k = 0; k < PAGES; k++) grow_words(&masks, page_of(k), PAGE, PAGE * k, tails[1]);
}

static double now(void) {
  struct timespec t;
  clock_gettime(CLOCK_MONOTONIC, &t);
  return t.tv_sec * 1e6 + t.tv_nsec * 1e-3;
}

// Times in microseconds.
typedef struct {
  double shortest, median;
} Time;

static Time minus(Time a, Time b) { return (Time){a.shortest - b.shortest, a.median - b.median}; }

typedef struct {
  void (*call)(void);
  void (*call_with)(int);  // where `call` is 0
  int with;
  Time time;
} Job;

static int rising(const void *a, const void *b) {
  double x = *(const double *)a, y = *(const double *)b;
  return (x > y) - (x < y);
}

// Runs the jobs in turns until `budget` microseconds are used up, at least 3 rounds.
static void time_jobs(Job *jobs, int count, double budget) {
  static double took[JOBS][ROUNDS];
  double start = now();
  int rounds = 0;
  while (rounds < ROUNDS && (rounds < 3 || now() - start < budget)) {
    for (int k = 0; k < count; k++) {
      double begun = now();
      if (jobs[k].call) jobs[k].call();
      else jobs[k].call_with(jobs[k].with);
      took[k][rounds] = now() - begun;
    }
    rounds++;
  }
  for (int k = 0; k < count; k++) {
    qsort(took[k], rounds, sizeof(double), rising);
    jobs[k].time = (Time){took[k][0], took[k][rounds / 2]};
  }
}

static void same(const char *what, int equal) {
  if (equal) return;
  printf("the two readers differ: %s\n", what);
  exit(1);
}

// Takes the table over, with a random tape of so many letters that it reads, and that tape with a first letter that no leaf takes, `~`
// where that is one: all words of it are filled, and no code is written.
static void take(size_t letters, unsigned lefts) {
  n = letters;
  size = write_text(&table, (char *)text);
  if (!random_tape(&table, n, lefts, tape)) {
    printf("the pattern reads no tape of %zu letters\n", n);
    exit(1);
  }
  memcpy(unread, tape, n);
  c_masks();
  for (unread[0] = '~'; masks.takers[unread[0]];) unread[0]--;
}

// A term of all days has the totals of the tape, which stand on side 1, and three terms that part the days add up to them.
static void compare_terms(void) {
  static const uint32_t terms[][2] = {{START, BEFORE}, {FIRST, LAST}, {BEHIND, END}};
  uint32_t sums[ACCOUNTS] = {0};
  same("a term of all days", term_of(START, END) == 0 && !memcmp(litres[0], litres[1], sizeof litres[0]));
  for (int k = 0; k < 3; k++) {
    same("a term", term_of(terms[k][0], terms[k][1]) == 0);
    for (int a = 0; a < ACCOUNTS; a++) sums[a] += litres[0][a];
  }
  same("terms that part the tape", !memcmp(sums, litres[1], sizeof sums));
  same("causes 11 and 12", term_of(END, START) == 12ull << 32 &&
                             wumbyra_term_totals(text, size, codes[0], bytes, bits, 0, 0, 0, litres[0], ACCOUNTS) == 11ull << 32);
}

// Both desks hold the tape, with the words of a parse, counted from its end; a page more is refused, and each can be withdrawn.
static void compare_desks(void) {
  const size_t all = WUMBYRA_DESK_BYTES;
  same("opening a desk",
       wumbyra_desk_open(text, size, desks[0], all, tails[0], 2) == 0 && desk_open(&table, desks[1], all, tails[1], 2) == 0);
  p_pages();
  same("the letters held", sink == LETTERS);
  c_pages();
  same("C's letters held", sink == LETTERS);
  same("a desk's letters", !memcmp(held[0], unread, LETTERS) && !memcmp(held[1], unread, LETTERS));
  same("a desk's words", !memcmp(tails[0], tails[1], sizeof tails[0]) && !memcmp(desks[0], desks[1], all));
  fill_words(&masks, unread, LETTERS, words[1]);
  for (size_t j = 0; j <= LETTERS; j++) same("words from the end", !memcmp(tails[0] + 2 * j, words[1] + 2 * (LETTERS - j), 16));
  same("cause 14", put_of(0, CELLS) == 14ull << 32);
  p_page_tests();
  same("cause 6 of a put", sink == (6ull << 32) + CELLS);
  for (int k = PAGES; k > 0; k--)
    same("a withdrawal", wumbyra_desk_withdraw(text, size, desks[0], all, held[0], LETTERS) == (uint64_t)PAGE * (k - 1) &&
                           desk_withdraw(&table, desks[1], all, held[1], LETTERS) == (uint64_t)PAGE * (k - 1));
  same("cause 15", wumbyra_desk_withdraw(text, size, desks[0], all, held[0], LETTERS) == 15ull << 32);
  p_pages();
}

static void compare(void) {
  same("the line count", wumbyra_load(text, size) == (uint64_t)table.count);
  c_masks();
  same("cause 5", parse_of(unread, n, CELLS) == 5ull << 32);
  fill_words(&masks, unread, n, words[1]);
  same("words of a tape that does not read", !memcmp(words[0], words[1], 16 * (n + 1)));
  p_locate_unread();
  same("where a tape breaks at its first letter", sink == 1);
  p_locate();
  same("where a tape breaks that reads", sink == (uint64_t)n << 16);
  same("cause 6", parse_of(tape, n, 0) == (6ull << 32) + 2 * (n + 1));
  bits = parse_of(tape, n, CELLS);
  bytes = (bits + 7) / 8;
  c_parse();
  same("the bit count", bits == sink);
  same("words", !memcmp(words[0], words[1], 16 * (n + 1)));
  same("the code", !memcmp(codes[0], codes[1], bytes));
  same("the walk", wumbyra_flatten(text, size, codes[0], bytes, bits, spelled[0], 0) == (9ull << 32) + n);
  same("C's walk", check_code(&table, codes[0], bytes, bits) == (int)n && check_code(&table, codes[0], bytes, bits - 1) < 0);
  p_spell();
  same("the letter count", sink == n && spell(&table, codes[0], spelled[1]) == n);
  c_flatten();
  same("C's letter count", sink == n);
  same("C's causes 8 and 9", flatten(&table, codes[0], bytes, bits - 1, spelled[1], LETTERS) == 8ull << 32 &&
                               flatten(&table, codes[0], bytes, bits, spelled[1], n - 1) == (9ull << 32) + n);
  same("letters", !memcmp(spelled[0], tape, n) && !memcmp(spelled[1], tape, n));
  p_totals();
  same("totals", sink == 0);
  c_totals();
  same("C's totals", sink == 0 && !memcmp(litres[0], litres[1], sizeof litres[0]));
  for (int a = 0; a < ACCOUNTS; a++) same("litres", wumbyra_total(text, size, codes[0], bytes, bits, a) == litres[1][a]);
  compare_terms();
  p_span();
  same("cause 10", sink == 10ull << 32);
  p_settle();
  same("the settled bit count", sink == bits);
  c_settle();
  same("C's settled bit count", sink == bits);
  same("the settled code", !memcmp(settled[0], codes[0], bytes) && !memcmp(settled[1], codes[0], bytes));
}

static void row(const char *pattern, const char *work, Time p, Time c, double bound) {
  double ratio = p.shortest / c.shortest;
  printf("| %s | %s | %.1f (%.1f) | %.1f (%.1f) | %.2f (%.2f) |", pattern, work, p.shortest, p.median, c.shortest, c.median, ratio,
         p.median / c.median);
  if (bound == 0) printf(" |\n");
  else printf(" at most %g: %s |\n", bound, ratio <= bound ? "met" : "NOT MET");
  wanting += bound > 0 && ratio > bound;
}

// Bounds for every pattern, as ratios to C, and that of a term, as ratio to totals.
static const double walk_bound = 3, flatten_bound = 2.2, term_bound = 1.5, desk_bound = 1;

static void against_c(const char *name, double fill_bound, double parse_bound) {
  enum { LOAD, PARSE, PARSE_C, UNREAD, FILL_C, TESTS, ONE, MASKS_C, ONE_TESTS, MASKS_FILL_C, WALK, WALK_C, SPELL, FLATTEN_C, SPELL_C,
         TOTALS, TOTALS_C, SETTLE, SETTLE_C, SPAN, COUNT };
  Job j[COUNT] = {{p_load}, {p_parse}, {c_parse}, {p_unread}, {c_fill}, {p_tests}, {p_one}, {c_masks}, {p_one_tests}, {c_masks_fill},
                  {p_walk}, {c_walk}, {p_spell}, {c_flatten}, {c_spell}, {p_totals}, {c_totals}, {p_settle}, {c_settle}, {p_span}};
  time_jobs(j, COUNT, 5e6);
  Time load = j[LOAD].time, masks_p = minus(j[ONE].time, j[ONE_TESTS].time), sweep = minus(j[UNREAD].time, j[TESTS].time);
  row(name, "first sweep, letters alone", minus(sweep, masks_p), j[FILL_C].time, fill_bound);
  row(name, "masks", masks_p, j[MASKS_C].time, 0);
  row(name, "first sweep with masks", sweep, j[MASKS_FILL_C].time, 0);
  row(name, "first sweep with masks and tests", minus(j[UNREAD].time, load), j[MASKS_FILL_C].time, 0);
  row(name, "second sweep (C writes at once)", minus(j[PARSE].time, j[UNREAD].time), minus(j[PARSE_C].time, j[MASKS_FILL_C].time), 0);
  row(name, "parse: both sweeps, masks, all tests", minus(j[PARSE].time, load), j[PARSE_C].time, parse_bound);
  row(name, "walk of a code", minus(j[WALK].time, load), j[WALK_C].time, walk_bound);
  row(name, "flatten (C makes the same tests)", minus(j[SPELL].time, load), j[FLATTEN_C].time, flatten_bound);
  row(name, "flatten (C tests nothing)", minus(j[SPELL].time, load), j[SPELL_C].time, 0);
  row(name, "totals (C makes the same tests)", minus(j[TOTALS].time, load), j[TOTALS_C].time, 0);
  row(name, "settle (C tests the code too)", minus(j[SETTLE].time, load), j[SETTLE_C].time, 0);
  row(name, "span of a visit that there is not (C: one walk of the code)", minus(j[SPAN].time, load), j[WALK_C].time, 0);
}

// Totals within a term as ratios to totals of the whole tape, by the same walk over the code: what the dates cost.
static void against_totals(const char *name, double bound) {
  Job j[4] = {{p_load}, {p_totals}, {p_term}, {p_month}};
  time_jobs(j, 4, 2e6);
  Time load = j[0].time, totals_p = minus(j[1].time, load);
  row(name, "all days", minus(j[2].time, load), totals_p, bound);
  row(name, "a month", minus(j[3].time, load), totals_p, bound);
}

// Where a tape breaks, as ratio to a parse of the tape that reads: what it costs to locate a tape that is refused with 5. Of the one that reads
// all letters are gone over from both ends, of the other from its last letter only.
static void against_parse(const char *name) {
  Job j[4] = {{p_load}, {p_parse}, {p_locate}, {p_locate_unread}};
  time_jobs(j, 4, 1e6);
  Time load = j[0].time, parse_p = minus(j[1].time, load);
  row(name, "it reads", minus(j[2].time, load), parse_p, 0);
  row(name, "its first letter is one that no leaf takes", minus(j[3].time, load), parse_p, 0);
}

static Time times(int k, Time a) { return (Time){k * a.shortest, k * a.median}; }

// 30 pages of 120 letters, against the same pages by C, and against one first sweep over the same 3,600 letters: what it costs that a tape
// arrives in pages. Each put makes the masks and looks at the letters held, so only the words of the letters are bounded, against C's.
static void pages(const char *name, double bound) {
  enum { LOAD, PAGES_P, PAGE_TESTS, UNREAD, TESTS, ONE, ONE_TESTS, GROW_C, FILL_C, PAGES_C, COUNT };
  Job j[COUNT] = {{p_load}, {p_pages}, {p_page_tests}, {p_unread}, {p_tests}, {p_one}, {p_one_tests}, {c_grow}, {c_fill}, {c_pages}};
  time_jobs(j, COUNT, 3e6);
  Time masks_p = minus(j[ONE].time, j[ONE_TESTS].time), sweep = minus(j[UNREAD].time, j[TESTS].time);
  Time words_p = minus(j[PAGES_P].time, j[PAGE_TESTS].time), puts_p = minus(j[PAGES_P].time, times(PAGES, j[LOAD].time));
  Time letters_p = minus(words_p, times(PAGES, masks_p));
  row(name, "words of the letters alone, against C's", letters_p, j[GROW_C].time, bound);
  row(name, "puts, against C's puts with the same tests", puts_p, j[PAGES_C].time, 0);
  row(name, "words of the letters alone, against one first sweep", letters_p, minus(sweep, masks_p), 0);
  row(name, "the same, both by C", j[GROW_C].time, j[FILL_C].time, 0);
  row(name, "words with the masks of each call, against one first sweep with masks", words_p, sweep, 0);
  row(name, "puts with masks and all tests, against one first sweep with both", puts_p, minus(j[UNREAD].time, j[LOAD].time), 0);
}

static void matcher_row(const char *pattern, const char *matcher, Time parse, Time m, int bound) {
  double ratio = parse.shortest / m.shortest;
  printf("| %s | %s | %.1f (%.1f) | %.1f (%.1f) | %.2f (%.2f) |%s |\n", pattern, matcher, parse.shortest, parse.median, m.shortest, m.median,
         ratio, parse.median / m.median, !bound ? "" : ratio < 1 ? " below 1: met" : " below 1: NOT MET");
  wanting += bound && ratio >= 1;
}

// `reads` is what a matcher has to say of the tape.
static void against_matchers(const char *name, int reads) {
  Job jobs[3 + MATCHERS] = {{p_load}, {p_parse}, {reads ? c_parse : c_masks_fill}};
  int of[MATCHERS], count = 3;
  write_expression(&table, expression);
  make_matchers(expression, matchers);
  for (int k = 0; k < MATCHERS; k++) {
    if (!matchers[k].made) continue;
    int said = ask(&matchers[k], tape, n);
    if (said != reads) {
      matchers[k].made = 0;
      if (said >= 0) matchers[k].why = "answers wrongly";
      continue;
    }
    of[k] = count;
    jobs[count++].call = match_calls[k];
  }
  time_jobs(jobs, count, 4e6);
  Time parse = minus(jobs[1].time, jobs[0].time);
  matcher_row(name, "(C of the same sweeps)", parse, jobs[2].time, 0);
  for (int k = 0; k < MATCHERS; k++) {
    if (matchers[k].made) matcher_row(name, matchers[k].name, parse, jobs[of[k]].time, reads && (k == 2 || k == 4));
    else printf("| %s | %s | %.1f (%.1f) | %s | | |\n", name, matchers[k].name, parse.shortest, parse.median, matchers[k].why);
  }
}

// Patterns of several sizes with tapes of several lengths, all of them taking turns. Of shorter tapes a turn reads several, 3,600 letters
// together, so that no case is short enough for the processor to learn by heart.
enum { CASES = 7 };
static const int grown_nodes[CASES] = {64, 64, 64, 64, 16, 32, 64}, grown_letters[CASES] = {450, 900, 1800, 3600, 3600, 3600, 3600};
static struct {
  Table table;
  uint8_t text[8192], tapes[LETTERS];
  size_t size, n;
} cases[CASES];

static void grown_load(int k) {
  for (size_t i = 0; i < LETTERS; i += cases[k].n) sink = wumbyra_load(cases[k].text, cases[k].size);
}
static void grown_parse(int k) {
  for (size_t i = 0; i < LETTERS; i += cases[k].n)
    sink = wumbyra_parse(cases[k].text, cases[k].size, cases[k].tapes + i, cases[k].n, words[0], CELLS, codes[0], BYTES);
}
static void grown_c(int k) {
  for (size_t i = 0; i < LETTERS; i += cases[k].n) {
    make_masks(&cases[k].table, &masks);
    fill_words(&masks, cases[k].tapes + i, cases[k].n, words[1]);
    sink = write_code(&cases[k].table, &masks, words[1], cases[k].tapes + i, cases[k].n, codes[1]);
  }
}

static void grow(int k, void (*pattern)(Table *, int)) {
  pattern(&table, grown_nodes[k]);
  cases[k].table = table;
  cases[k].n = grown_letters[k];
  for (size_t i = 0; i < LETTERS; i += n) {
    take(grown_letters[k], 12);
    compare();
    memcpy(cases[k].tapes + i, tape, n);
  }
  memcpy(cases[k].text, text, size);
  cases[k].size = size;
}

static void growth(const char *name, void (*pattern)(Table *, int)) {
  Job jobs[3 * CASES];
  for (int k = 0; k < CASES; k++) {
    grow(k, pattern);
    jobs[3 * k] = (Job){0, grown_load, k, {0, 0}};
    jobs[3 * k + 1] = (Job){0, grown_parse, k, {0, 0}};
    jobs[3 * k + 2] = (Job){0, grown_c, k, {0, 0}};
  }
  time_jobs(jobs, 3 * CASES, 8e6);
  double before = 0;
  for (int k = 0; k < CASES; k++) {
    double tapes = LETTERS / cases[k].n, letters = cases[k].n;
    Time p = minus(jobs[3 * k + 1].time, jobs[3 * k].time), c = jobs[3 * k + 2].time;
    double each = p.shortest / tapes;
    printf("| %s | %d | %zu | %.1f (%.1f) | %.1f |", name, grown_nodes[k], cases[k].n, each, p.median / tapes, 1e3 * each / letters);
    if (0 < k && k < 4) printf(" %.1f |", 1e3 * (each - before) / (letters / 2));
    else printf(" |");
    printf(" %.2f | %.1f (%.1f) |\n", 1e3 * each / letters / grown_nodes[k], c.shortest / tapes, c.median / tapes);
    before = each;
  }
}

enum { STACK = 1 << 20, PAINT = 0xa5 };

enum { STACK_BOUND = 16384 };  // bytes of a parse with the load before it

// The bytes of a painted stack that a call changes.
static size_t stack_of(void (*call)(void)) {
  static uint8_t stack[STACK] __attribute__((aligned(64)));
  ucontext_t here, there;
  memset(stack, PAINT, STACK);
  getcontext(&there);
  there.uc_stack.ss_sp = stack;
  there.uc_stack.ss_size = STACK;
  there.uc_link = &here;
  makecontext(&there, call, 0);
  swapcontext(&here, &there);
  size_t i = 0;
  while (i < STACK && stack[i] == PAINT) i++;
  return STACK - i;
}

static void no_call(void) {}

static void stacks(const char *name) {
  size_t none = stack_of(no_call), parse = stack_of(p_parse) - none;
  wanting += parse > STACK_BOUND;
  printf("| %s | %d | %zu | %zu, %s | %zu | %zu | %zu | %zu | %zu | %zu | %zu | %zu | %zu |\n", name, depth(&table), stack_of(p_load) - none,
         parse, parse > STACK_BOUND ? "NOT MET" : "met", stack_of(p_locate) - none, stack_of(p_walk) - none, stack_of(p_spell) - none,
         stack_of(p_totals) - none, stack_of(p_term) - none, stack_of(p_settle) - none, stack_of(p_span) - none, stack_of(p_pages) - none,
         stack_of(c_parse) - none);
}

static void meter(void) { meter_pattern(&table, 64); }
static void hostile(void) { hostile_pattern(&table, 64); }
static void stress(void) { stress_pattern(&table); }
static void stars(void) { stars_pattern(&table, 'K'); }
static void lazy_stars(void) { stars_pattern(&table, 'Z'); }
static void left_chain(void) { chain_pattern(&table, 1); }
static void right_chain(void) { chain_pattern(&table, 0); }

// The first are timed; of all of them, the deepest too, the stack is measured. A bound of 0 is none: the time is printed without one.
enum { TIMED = 3, PATTERNS = 7 };
static const struct {
  const char *name;
  void (*make)(void);
  unsigned lefts;
  double fill_bound, parse_bound;
} patterns[PATTERNS] = {{"meter tape", meter, 12, 2, 1.3},
                        {"hostile", hostile, 12, 3, 1.3},
                        {"stress", stress, 1, 2, 0},
                        {"63 nested stars", stars, 12, 0, 0},
                        {"63 nested lazy stars", lazy_stars, 12, 0, 0},
                        {"31 sequences down to the left", left_chain, 12, 0, 0},
                        {"31 sequences down to the right", right_chain, 12, 0, 0}};

static void pattern(int k) {
  patterns[k].make();
  take(LETTERS, patterns[k].lefts);
  compare();
}

// Letters of the hot side, and a range across the gap: compared, not timed. A code that names byte 127 or 160 is none, though they lie
// between the ends of the range.
static void hot_letters(void) {
  static const uint8_t named[][2] = {{0x6f, 0xf0}, {0x74, 0x10}};  // 0 11 01111111 1 and 0 11 10100000 1
  hot_pattern(&table);
  take(LETTERS, 8);
  compare();
  for (int k = 0; k < 2; k++) {
    same("a byte of the gap", wumbyra_flatten(text, size, named[k], 2, 12, spelled[0], LETTERS) == 8ull << 32);
    same("C's byte of the gap", flatten(&table, named[k], 2, 12, spelled[1], LETTERS) == 8ull << 32);
  }
  tape[0] = 160;
  same("byte 160 of a tape", parse_of(tape, n, CELLS) == 4ull << 32);
}

// A tape of days without litres, so that each letter steps the date: the most that dates can cost.
static void days_alone(void) {
  days_pattern(&table);
  take(LETTERS, 8);
  compare();
}

// A tape that the meter's pattern does not read: a restart, and stale litres to the end.
static void never_closed(void) {
  pattern(0);
  memset(tape, '7', n);
  tape[0] = 'X';
  memcpy(unread, tape, n);
  same("cause 5", parse_of(tape, n, CELLS) == 5ull << 32);
}

// For other tools: `bench text K` and `bench tape K` write pattern K's, `bench loop K` parses its tape for five seconds.
// `bench stack` prints the table of the stack alone, `bench version` the library's version.
static int single(const char *what, int k) {
  pattern(k);
  for (double start = now(); !strcmp(what, "loop") && now() - start < 5e6;) p_parse();
  if (!strcmp(what, "text")) fwrite(text, size, 1, stdout);
  if (!strcmp(what, "tape")) fwrite(tape, n, 1, stdout);
  return 0;
}

static int version(void) {
  uint32_t v = wumbyra_version();
  same("the version", v == WUMBYRA_VERSION_NUMBER);
  printf("%u.%u.%u\n", v / 10000, v / 100 % 100, v % 100);
  return 0;
}

static void print_stacks(void) {
  puts("\n### Stack: bytes that a call changes, with the load before it\n");
  printf("| Pattern | Depth | Load | Parse, at most %d | Locate | Walk | Flatten | Totals | Term | Settle | Span | Puts | C's parse |\n", STACK_BOUND);
  puts("|---|---|---|---|---|---|---|---|---|---|---|---|---|");
  for (int k = 0; k < PATTERNS; k++) pattern(k), compare_desks(), stacks(patterns[k].name);
}

int main(int argc, char **argv) {
  if (argc > 2) return single(argv[1], atoi(argv[2]) % PATTERNS);
  if (argc > 1 && !strcmp(argv[1], "version")) return version();
  if (argc > 1) return print_stacks(), 0;
  puts("### Against hand-written C: 64 nodes, 3,600 letters\n");
  puts("| Pattern | Work | Proved, µs | C, µs | Ratio | Bound |");
  puts("|---|---|---|---|---|---|");
  for (int k = 0; k < TIMED; k++) pattern(k), against_c(patterns[k].name, patterns[k].fill_bound, patterns[k].parse_bound);
  puts("\n### Against matchers: 64 nodes, 3,600 letters\n");
  puts("| Pattern | Matcher | Parse, µs | Matcher, µs | Ratio | Bound |");
  puts("|---|---|---|---|---|---|");
  for (int k = 0; k < TIMED; k++) pattern(k), against_matchers(patterns[k].name, 1);
  never_closed();
  against_matchers("meter tape, restart never closed", 0);
  puts("\n### Growth of parsing\n");
  puts("| Pattern | Nodes | Letters | Parse, µs | ns a letter | ns a letter more than in the row above | ns a letter and node | C, µs |");
  puts("|---|---|---|---|---|---|---|---|");
  growth("meter tape", meter_pattern);
  growth("hostile", hostile_pattern);
  print_stacks();
  // At the end, so that the tapes above are drawn as ever.
  puts("\n### Totals within a term: 3,600 letters\n");
  puts("| Pattern | Term | Term's totals, µs | Totals, µs | Ratio | Bound |");
  puts("|---|---|---|---|---|---|");
  for (int k = 0; k < TIMED; k++) pattern(k), against_totals(patterns[k].name, term_bound);
  days_alone();
  against_totals("each letter a `D`, 2 nodes", 0);
  puts("\n### A page desk: 3,600 letters in 30 pages of 120\n");
  puts("| Pattern | Work | 30 pages, µs | Against, µs | Ratio | Bound |");
  puts("|---|---|---|---|---|---|");
  for (int k = 0; k < TIMED; k++) pattern(k), compare_desks(), pages(patterns[k].name, desk_bound);
  puts("\n### Where a tape breaks: 3,600 letters\n");
  puts("| Pattern | Tape | Locate, µs | Parse of the tape that reads, µs | Ratio | Bound |");
  puts("|---|---|---|---|---|---|");
  for (int k = 0; k < TIMED; k++) pattern(k), against_parse(patterns[k].name);
  hot_letters();
  compare_desks();
  printf("\nBounds not met: %d.\n", wanting);
  return 0;
}
