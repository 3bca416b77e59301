#include "patterns.h"
#include <ctype.h>
#include <stdio.h>
#include <stdlib.h>
#include <string.h>

static Table *made;

static int node(char kind, int first, int second) {
  made->node[made->count] = (Node){kind, first, second, 0};
  return made->count++;
}

static int letter(char c) { return node('L', c, 0); }
static int range(char low, char high) { return node('R', low, high); }
static int nothing(void) { return node('E', 0, 0); }
static int digit(void) { return range('0', '9'); }
static int star(int l) { return node('K', l, 0); }
static int either(int l, int r) { return node('A', l, r); }
static int then(int l, int r) { return node('S', l, r); }

static int charged(int l, int account) {
  made->node[l].account = account;
  return l;
}

static int digits(int n) {
  int l = digit();
  if (n == 1) return l;
  int rest = digits(n - 1);
  return then(l, rest);
}

// An hour's litres: a digit, or + and two digits.
static int hour(void) {
  int small = digit(), plus = letter('+');
  return either(small, then(plus, digits(2)));
}

// Groups of stale litres after a restart: (digit* (,|nothing))*, whose rounds may be empty.
static int stale(void) {
  int litres = star(digit()), comma = letter(',');
  return charged(star(then(litres, either(comma, nothing()))), 8);
}

// D, perhaps / and a month a to l, six hours at the night's rate, hours at the day's, perhaps ! for a leak, and ;
static int day(void) {
  int d = letter('D');
  int slash = letter('/'), month = range('a', 'l');
  int date = either(then(slash, month), nothing());
  int night = charged(digits(6), 2);
  int hours = charged(star(hour()), 1);
  int quiet = nothing();
  int leak = either(quiet, letter('!'));
  int rest = then(leak, letter(';'));
  return then(d, then(date, then(night, then(hours, rest))));
}

// T, who tests (a to f), pairs of digits, t: litres of a test run
static int test_run(void) {
  int begin = letter('T'), who = range('a', 'f');
  int pairs = star(digits(2));
  return charged(then(begin, then(who, then(pairs, letter('t')))), 9);
}

// X, perhaps the cause (p to s), stale litres, and .
static int restart(void) {
  int begin = letter('X'), cause = range('p', 's');
  int why = either(cause, nothing());
  int litres = stale();
  return then(begin, then(why, then(litres, letter('.'))));
}

static void meter_64(void) {
  int d = day(), t = test_run(), r = restart();
  star(either(d, either(t, either(r, letter('=')))));
}

static void meter_32(void) {
  int d = letter('D'), night = charged(digits(2), 2), hours = charged(star(hour()), 1);
  d = then(d, then(night, then(hours, letter(';'))));
  int t = letter('T');
  t = charged(then(t, star(digit())), 9);
  int r = letter('X');
  r = then(r, stale());
  star(either(d, either(t, r)));
}

static void meter_16(void) {
  int d = letter('D'), hours = charged(star(digit()), 1);
  d = then(d, then(hours, letter(';')));
  int t = letter('T');
  t = charged(then(t, digit()), 9);
  int r = letter('X');
  r = then(r, charged(star(digit()), 8));
  star(either(d, either(t, r)));
}

static void checked(Table *t, int nodes) {
  if (t->count == nodes) return;
  printf("a pattern has %d nodes, not %d\n", t->count, nodes);
  exit(1);
}

void meter_pattern(Table *t, int nodes) {
  made = t;
  t->count = 0;
  nodes == 64 ? meter_64() : nodes == 32 ? meter_32() : meter_16();
  checked(t, nodes);
}

void hostile_pattern(Table *t, int nodes) {
  made = t;
  t->count = 0;
  int rest = star(range('a', 'b')), a = letter('a');
  rest = then(a, rest);
  while (t->count < nodes) {
    int leaf = range('a', 'b');
    rest = then(leaf, rest);
  }
  checked(t, nodes);
}

void stress_pattern(Table *t) {
  made = t;
  t->count = 0;
  int rest = letter('A');
  for (int i = 1; i < 31; i++) {
    int leaf = i % 3 ? letter('A' + i) : range('A' + i, 'A' + i);
    rest = either(leaf, rest);
  }
  while (t->count < 64) rest = star(rest);
  checked(t, 64);
}

void stars_pattern(Table *t, char kind) {
  made = t;
  t->count = 0;
  int rest = range('a', 'b');
  while (t->count < 64) rest = node(kind, rest, 0);
  checked(t, 64);
}

void hot_pattern(Table *t) {
  made = t;
  t->count = 0;
  int cold = charged(digit(), 1), hot = letter('\xa1');
  hot = then(hot, charged(digit(), 2));
  int other = charged(range('a', '\xfe'), 3);
  star(either(cold, either(hot, other)));
  checked(t, 8);
}

void days_pattern(Table *t) {
  made = t;
  t->count = 0;
  star(letter('D'));
  checked(t, 2);
}

void chain_pattern(Table *t, int left) {
  made = t;
  t->count = 0;
  int rest = star(range('a', 'b'));
  while (t->count < 64) {
    int leaf = range('a', 'b');
    rest = left ? then(rest, leaf) : then(leaf, rest);
  }
  checked(t, 64);
}

int depth(const Table *t) {
  int below[64];
  for (int l = 0; l < t->count; l++) {
    Node d = t->node[l];
    int parts = strchr("SA", d.kind) ? 2 : strchr("KZ", d.kind) != 0;
    below[l] = 1 + (parts ? below[d.first] : 0);
    if (parts == 2 && below[d.second] >= below[l]) below[l] = 1 + below[d.second];
  }
  return below[t->count - 1];
}

size_t write_text(const Table *t, char *text) {
  char *s = text;
  for (int l = 0; l < t->count; l++) {
    Node d = t->node[l];
    s += sprintf(s, "%d\t%c\t", l, d.kind);
    s += d.account ? sprintf(s, "%d", d.account) : sprintf(s, "-");
    switch (d.kind) {
      case 'L': s += sprintf(s, "\t%c", d.first); break;
      case 'R': s += sprintf(s, "\t%c\t%c", d.first, d.second); break;
      case 'K':
      case 'Z': s += sprintf(s, "\t%d", d.first); break;
      case 'S':
      case 'A': s += sprintf(s, "\t%d\t%d", d.first, d.second); break;
    }
    *s++ = '\n';
  }
  return s - text;
}

static char *write_byte(char *s, int c) { return s + sprintf(s, isalnum(c) ? "%c" : "\\x%02x", c); }

static char *write_node(const Table *t, char *s, int l);

static char *write_part(const Table *t, char *s, int l) {
  *s++ = '(';
  s = write_node(t, s, l);
  *s++ = ')';
  return s;
}

static char *write_node(const Table *t, char *s, int l) {
  Node d = t->node[l];
  switch (d.kind) {
    case 'E': return s;
    case 'L': return write_byte(s, d.first);
    case 'R':
      *s++ = '[';
      s = write_byte(s, d.first);
      *s++ = '-';
      s = write_byte(s, d.second);
      *s++ = ']';
      return s;
  }
  s = write_part(t, s, d.first);
  if (d.kind == 'K' || d.kind == 'Z') {
    *s++ = '*';
    if (d.kind == 'Z') *s++ = '?';
    return s;
  }
  if (d.kind == 'A') *s++ = '|';
  return write_part(t, s, d.second);
}

void write_expression(const Table *t, char *expression) { *write_node(t, expression, t->count - 1) = 0; }

static unsigned draw(unsigned below) {
  static unsigned state = 1;
  state = state * 1103515245u + 12345u;
  return (state >> 16) % below;
}

// A letter of a range. What is no letter is drawn again, and that is drawn only where the range goes across the gap.
static unsigned draw_between(unsigned low, unsigned high) {
  unsigned c;
  do c = low + draw(high - low + 1);
  while (!is_letter(c));
  return c;
}

typedef struct {
  const Table *t;
  const Masks *m;
  const uint64_t *words;  // which nodes can be gone on with, whatever the letters, so that the tape ends at n
  uint8_t *tape;
  size_t at, n;
  unsigned lefts;
  int flag;
} Drawing;

static int can(const Drawing *w, int l, int flag) { return w->words[2 * w->at + flag] >> l & 1; }

// Whether a star may stop here: what follows it can be gone on with.
static int can_stop(const Drawing *w, int l, int flag) {
  if (w->m->in_star[l] && !flag) return 0;
  if (w->m->follower[l] == 64) return flag && w->at == w->n;
  return can(w, w->m->follower[l], flag);
}

static void draw_node(Drawing *w, int l) {
  Node d = w->t->node[l];
  switch (d.kind) {
    case 'L':
    case 'R':
      w->tape[w->at++] = d.kind == 'L' ? d.first : draw_between(d.first, d.second);
      w->flag = 1;
      break;
    case 'S':
      draw_node(w, d.first);
      draw_node(w, d.second);
      break;
    case 'A': {
      int left = can(w, d.first, w->flag), right = can(w, d.second, w->flag);
      draw_node(w, left && (!right || draw(16) < w->lefts) ? d.first : d.second);
      break;
    }
    case 'K':
    case 'Z': {
      int flag = w->flag;
      while (can(w, d.first, 0) && (!can_stop(w, l, flag) || draw(16))) {
        w->flag = 0;
        draw_node(w, d.first);
        flag = 1;
      }
      w->flag = flag;
    }
  }
}

int random_tape(const Table *t, size_t n, unsigned lefts, uint8_t *tape) {
  static uint64_t words[2 * (3600 + 1)];
  Masks m;
  make_masks(t, &m);
  uint64_t leaves = 0;
  for (int c = 0; c < 256; c++) leaves |= m.takers[c];
  m.takers[0] = leaves;  // the letter 0 stands for any
  memset(tape, 0, n);
  fill_words(&m, tape, n, words);
  if (!(words[1] >> (t->count - 1) & 1)) return 0;
  Drawing w = {t, &m, words, tape, 0, n, lefts, 1};
  draw_node(&w, t->count - 1);
  return w.at == n;
}
