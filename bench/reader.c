#include "reader.h"
#include <string.h>

typedef struct {
  const Table *t;
  Masks *m;
  uint64_t leaves[2][64];
  uint8_t known[2][64], ends[2][64];
} Making;

static void followers(Making *g, int l, int behind, int in_star) {
  const Node *d = &g->t->node[l];
  g->m->follower[l] = behind;
  g->m->in_star[l] = in_star;
  switch (d->kind) {
    case 'S':
      followers(g, d->first, d->second, 0);
      followers(g, d->second, behind, in_star);
      break;
    case 'A':
      followers(g, d->first, behind, in_star);
      followers(g, d->second, behind, in_star);
      break;
    case 'K':
    case 'Z':
      followers(g, d->first, l, 1);
      break;
  }
}

static uint64_t reached(Making *g, int l, int flag);

static uint64_t onward(Making *g, int l, int flag, uint8_t *ends) {
  int f = g->m->follower[l];
  if (g->m->in_star[l] && !flag) return 0;
  if (f == 64) {
    *ends |= flag;
    return 0;
  }
  uint64_t s = reached(g, f, flag);
  *ends |= g->ends[flag][f];
  return s;
}

static uint64_t into(Making *g, int part, int flag, uint8_t *ends) {
  uint64_t s = reached(g, part, flag);
  *ends |= g->ends[flag][part];
  return s;
}

static uint64_t reached(Making *g, int l, int flag) {
  if (g->known[flag][l]) return g->leaves[flag][l];
  const Node *d = &g->t->node[l];
  uint64_t s = 0;
  uint8_t ends = 0;
  switch (d->kind) {
    case 'E': s = onward(g, l, flag, &ends); break;
    case 'L':
    case 'R': s = 1ull << l; break;
    case 'S': s = into(g, d->first, flag, &ends); break;
    case 'A': s = into(g, d->first, flag, &ends) | into(g, d->second, flag, &ends); break;
    case 'K':
    case 'Z': s = into(g, d->first, 0, &ends) | onward(g, l, flag, &ends); break;
  }
  g->known[flag][l] = 1;
  g->ends[flag][l] = ends;
  return g->leaves[flag][l] = s;
}

// Marks a range's letters for its leaf. Bytes of the gap, 127 to 160, are none of them.
static void mark_range(Masks *m, Node d, uint64_t bit) {
  int cold = d.second < 126 ? d.second : 126, hot = d.first > 161 ? d.first : 161;
  for (int c = d.first; c <= cold; c++) m->takers[c] |= bit;
  for (int c = hot; c <= d.second; c++) m->takers[c] |= bit;
}

void make_masks(const Table *t, Masks *m) {
  Making g;
  g.t = t;
  g.m = m;
  memset(g.known, 0, sizeof g.known);
  memset(m, 0, sizeof *m);
  followers(&g, t->count - 1, 64, 0);
  for (int l = 0; l < t->count; l++) {
    const Node *d = &t->node[l];
    uint64_t bit = 1ull << l;
    for (uint64_t s = reached(&g, l, 0); s; s &= s - 1) m->leaf[__builtin_ctzll(s)].zero |= bit;
    for (uint64_t s = reached(&g, l, 1); s; s &= s - 1) m->leaf[__builtin_ctzll(s)].one |= bit;
    if (g.ends[1][l]) m->end |= bit;
    if (m->follower[l] < 64) m->leaf[l].behind = 1ull << m->follower[l];
    if (d->kind == 'L') m->takers[d->first] |= bit;
    if (d->kind == 'R') mark_range(m, *d, bit);
  }
}

void fill_words(const Masks *m, const uint8_t *tape, size_t n, uint64_t *words) {
  uint64_t next = m->end;
  words[2 * n] = 0;
  words[2 * n + 1] = next;
  if (n == 0) return;
  uint64_t zero = 0, one = 0;
  for (uint64_t left = m->takers[tape[n - 1]]; left; left &= left - 1) {
    const LeafMasks *x = &m->leaf[__builtin_ctzll(left)];
    if (x->behind && !(next & x->behind)) continue;
    zero |= x->zero;
    one |= x->one;
  }
  words[2 * n - 2] = zero;
  words[2 * n - 1] = next = one;
  for (size_t i = n - 1; i-- > 0;) {
    zero = one = 0;
    for (uint64_t left = m->takers[tape[i]]; left; left &= left - 1) {
      const LeafMasks *x = &m->leaf[__builtin_ctzll(left)];
      uint64_t open = -(uint64_t)((next & x->behind) != 0);
      zero |= x->zero & open;
      one |= x->one & open;
    }
    words[2 * i] = zero;
    words[2 * i + 1] = next = one;
  }
}

typedef struct {
  const Node *node;
  const Masks *m;
  const uint64_t *words;  // of the present position
  const uint8_t *tape, *end;
  uint8_t *code;
  uint64_t held;  // bits not yet stored, `filled` of them
  int filled, flag;
} Writing;

static void put(Writing *w, unsigned bits, int n) {
  w->held = w->held << n | bits;
  w->filled += n;
  if (w->filled >= 32) {
    w->filled -= 32;
    uint32_t big = __builtin_bswap32(w->held >> w->filled);
    memcpy(w->code, &big, 4);
    w->code += 4;
  }
}

static void write_node(Writing *w, int l);

// Whether what follows a star can be gone on with: the tape's end, or a node behind it, or a star that it is in, and that only if the
// round has a letter.
static int may_stop(const Writing *w, int l) {
  int f = w->m->follower[l];
  if (f == 64) return w->flag && w->tape == w->end;
  if (w->m->in_star[l] && !w->flag) return 0;
  return w->words[w->flag] >> f & 1;
}

static void write_lazy_star(Writing *w, int l) {
  while (!may_stop(w, l)) {
    put(w, 1, 1);
    w->flag = 0;
    write_node(w, w->node[l].first);
  }
  put(w, 0, 1);
}

static void write_node(Writing *w, int l) {
  for (;;) {
    Node d = w->node[l];
    switch (d.kind) {
      case 'E': return;
      case 'R': put(w, *w->tape, 8);  // fall through
      case 'L':
        w->tape++;
        w->words += 2;
        w->flag = 1;
        return;
      case 'S':
        write_node(w, d.first);
        l = d.second;
        break;
      case 'A': {
        int left = w->words[w->flag] >> d.first & 1;
        put(w, !left, 1);
        l = left ? d.first : d.second;
        break;
      }
      case 'Z': write_lazy_star(w, l); return;
      default: {
        int flag = w->flag;
        while (w->words[0] >> d.first & 1) {
          put(w, 0, 1);
          w->flag = 0;
          write_node(w, d.first);
          flag = 1;
        }
        w->flag = flag;
        put(w, 1, 1);
        return;
      }
    }
  }
}

uint32_t write_code(const Table *t, const Masks *m, const uint64_t *words, const uint8_t *tape, size_t n, uint8_t *code) {
  Writing w = {t->node, m, words, tape, tape + n, code, 0, 0, 1};
  write_node(&w, t->count - 1);
  uint32_t bits = 8 * (w.code - code) + w.filled;
  for (; w.filled > 0; w.filled -= 8) *w.code++ = w.filled >= 8 ? w.held >> (w.filled - 8) : w.held << (8 - w.filled);
  return bits;
}

static int bit_at(const uint8_t *code, uint32_t at) { return code[at / 8] >> (7 - at % 8) & 1; }

// The eight bits from `at` on; the code has a byte to spare behind them, or they end with a byte.
static int byte_at(const uint8_t *code, uint32_t at) {
  uint32_t r = at % 8;
  const uint8_t *p = code + at / 8;
  return r ? (uint8_t)(p[0] << r | p[1] >> (8 - r)) : p[0];
}

typedef struct {
  const Node *node;
  const uint8_t *code;
  uint32_t count, letters;
} Checking;

enum { BAD = 0xffffffff };

static uint32_t check_node(Checking *w, int l, uint32_t at) {
  for (;;) {
    Node d = w->node[l];
    switch (d.kind) {
      case 'E': return at;
      case 'L': w->letters++; return at;
      case 'R': {
        if (w->count - at < 8) return BAD;
        int c = byte_at(w->code, at);
        if (c < d.first || c > d.second || !is_letter(c)) return BAD;
        w->letters++;
        return at + 8;
      }
      case 'S':
        at = check_node(w, d.first, at);
        if (at == BAD) return BAD;
        l = d.second;
        break;
      case 'A':
        if (at >= w->count) return BAD;
        l = bit_at(w->code, at++) ? d.second : d.first;
        break;
      case 'Z':
        for (;;) {
          if (at >= w->count) return BAD;
          if (!bit_at(w->code, at++)) return at;
          at = check_node(w, d.first, at);
          if (at == BAD) return BAD;
        }
      default:
        for (;;) {
          if (at >= w->count) return BAD;
          if (bit_at(w->code, at++)) return at;
          at = check_node(w, d.first, at);
          if (at == BAD) return BAD;
        }
    }
  }
}

int check_code(const Table *t, const uint8_t *code, size_t bytes, uint32_t count) {
  if (bytes > 65536 || bytes != ((size_t)count + 7) / 8) return -1;
  if (count % 8 && (uint8_t)(code[bytes - 1] << count % 8)) return -1;
  Checking w = {t->node, code, count, 0};
  return check_node(&w, t->count - 1, 0) == count ? (int)w.letters : -1;
}

typedef struct {
  const Node *node;
  const uint8_t *code;
  uint8_t *tape;
} Spelling;

static uint32_t spell_node(Spelling *w, int l, uint32_t at) {
  for (;;) {
    Node d = w->node[l];
    switch (d.kind) {
      case 'E': return at;
      case 'L': *w->tape++ = d.first; return at;
      case 'R': *w->tape++ = byte_at(w->code, at); return at + 8;
      case 'S':
        at = spell_node(w, d.first, at);
        l = d.second;
        break;
      case 'A': l = bit_at(w->code, at++) ? d.second : d.first; break;
      case 'Z':
        while (bit_at(w->code, at++)) at = spell_node(w, d.first, at);
        return at;
      default:
        while (!bit_at(w->code, at++)) at = spell_node(w, d.first, at);
        return at;
    }
  }
}

uint32_t spell(const Table *t, const uint8_t *code, uint8_t *tape) {
  Spelling w = {t->node, code, tape};
  spell_node(&w, t->count - 1, 0);
  return w.tape - tape;
}

// The account of stale litres. What stands under a node that has it goes there, whatever account is nearer.
enum { STALE = 9 };

typedef struct {
  const Node *node;
  const uint8_t *code;
  uint32_t *litres;
} Charging;

static void add(const Charging *w, int account, unsigned c) {
  if (c - '0' < 10) w->litres[account] += c - '0';
}

static uint32_t charge_node(const Charging *w, int l, int account, uint32_t at) {
  for (;;) {
    Node d = w->node[l];
    if (d.account && account != STALE) account = d.account;
    switch (d.kind) {
      case 'E': return at;
      case 'L': add(w, account, d.first); return at;
      case 'R': add(w, account, byte_at(w->code, at)); return at + 8;
      case 'S':
        at = charge_node(w, d.first, account, at);
        l = d.second;
        break;
      case 'A': l = bit_at(w->code, at++) ? d.second : d.first; break;
      case 'Z':
        while (bit_at(w->code, at++)) at = charge_node(w, d.first, account, at);
        return at;
      default:
        while (!bit_at(w->code, at++)) at = charge_node(w, d.first, account, at);
        return at;
    }
  }
}

void charge(const Table *t, const uint8_t *code, uint32_t litres[ACCOUNTS]) {
  memset(litres, 0, ACCOUNTS * sizeof *litres);
  Charging w = {t->node, code, litres};
  charge_node(&w, t->count - 1, 0, 0);
}

// Notes a part of line l: it has to be below l and not noted before.
static int name(uint64_t *named, int l, int part) {
  if (part >= l || *named >> part & 1) return 0;
  *named |= 1ull << part;
  return 1;
}

static int good_node(uint64_t *named, int l, Node d) {
  if (d.account > MAX_ACCOUNT) return 0;
  switch (d.kind) {
    case 'E': return 1;
    case 'L': return is_letter(d.first);
    case 'R': return is_letter(d.first) && is_letter(d.second) && d.first <= d.second;
    case 'S':
    case 'A': return name(named, l, d.first) && name(named, l, d.second);
    case 'K':
    case 'Z': return name(named, l, d.first);
  }
  return 0;
}

// The rules of a pattern: 1 to 64 lines, letters and accounts within their limits, every line but the last named exactly once, from above.
static int obeys(const Table *t) {
  uint64_t named = 0;
  if (t->count < 1 || t->count > 64) return 0;
  for (int l = 0; l < t->count; l++)
    if (!good_node(&named, l, t->node[l])) return 0;
  return named == (1ull << (t->count - 1)) - 1;
}

enum { MAX_LETTERS = 3600 };

static uint64_t refused(uint64_t number, uint32_t value) { return number << 32 | value; }

// The number of letters, or the cause that holds.
static uint64_t tested(const Table *t, const uint8_t *code, size_t bytes, uint32_t count) {
  if (!obeys(t)) return refused(2, 0);
  int letters = check_code(t, code, bytes, count);
  if (letters < 0) return refused(8, 0);
  if (letters > MAX_LETTERS) return refused(3, 0);
  return letters;
}

uint64_t flatten(const Table *t, const uint8_t *code, size_t bytes, uint32_t count, uint8_t *tape, size_t cells) {
  uint64_t letters = tested(t, code, bytes, count);
  if (letters > MAX_LETTERS) return letters;
  if (cells < letters) return refused(9, letters);
  spell(t, code, tape);
  return letters;
}

uint64_t totals(const Table *t, const uint8_t *code, size_t bytes, uint32_t count, uint32_t litres[ACCOUNTS]) {
  uint64_t letters = tested(t, code, bytes, count);
  if (letters > MAX_LETTERS) {
    memset(litres, 0, ACCOUNTS * sizeof *litres);
    return letters;
  }
  charge(t, code, litres);
  return 0;
}

void grow_words(const Masks *m, const uint8_t *page, size_t n, size_t behind, uint64_t *words) {
  uint64_t next = words[2 * behind + 1];
  for (size_t j = 0; j < n; j++) {
    uint64_t zero = 0, one = 0, last = -(uint64_t)(behind + j == 0);
    for (uint64_t left = m->takers[page[n - 1 - j]]; left; left &= left - 1) {
      const LeafMasks *x = &m->leaf[__builtin_ctzll(left)];
      // A leaf that nothing follows is open at the tape's end alone.
      uint64_t open = x->behind ? -(uint64_t)((next & x->behind) != 0) : last;
      zero |= x->zero & open;
      one |= x->one & open;
    }
    words[2 * (behind + j + 1)] = zero;
    words[2 * (behind + j + 1) + 1] = next = one;
  }
}

enum { MAX_PAGES = 30, MAX_PAGE_LETTERS = 120, DESK_BYTES = 1 + MAX_PAGES };

static size_t first_bad(const uint8_t *letters, size_t n) {
  size_t i = 0;
  while (i < n && is_letter(letters[i])) i++;
  return i;
}

// The letters held, or -1 where the desk is none.
static int held(const uint8_t *desk, size_t size, const uint8_t *letters) {
  if (size != DESK_BYTES || desk[0] > MAX_PAGES) return -1;
  int sum = 0;
  for (int k = 1; k <= desk[0]; k++) {
    if (desk[k] < 1 || desk[k] > MAX_PAGE_LETTERS) return -1;
    sum += desk[k];
  }
  return first_bad(letters + MAX_LETTERS - sum, sum) < (size_t)sum ? -1 : sum;
}

uint64_t desk_open(const Table *t, uint8_t *desk, size_t size, uint64_t *words, size_t room) {
  if (!obeys(t)) return refused(2, 0);
  if (room < 2) return refused(6, 2);
  if (size != DESK_BYTES) return refused(13, 0);
  Masks m;
  make_masks(t, &m);
  words[0] = 0;
  words[1] = m.end;
  memset(desk, 0, DESK_BYTES);
  return 0;
}

uint64_t desk_put(const Table *t, uint8_t *desk, size_t size, const uint8_t *page, size_t n, uint8_t *letters, size_t cells,
                  uint64_t *words, size_t room) {
  if (!obeys(t)) return refused(2, 0);
  if (cells < MAX_LETTERS) return refused(9, MAX_LETTERS);
  if (n < 1 || n > MAX_PAGE_LETTERS) return refused(13, 0);
  int behind = held(desk, size, letters);
  if (behind < 0) return refused(13, 0);
  if (desk[0] == MAX_PAGES) return refused(14, 0);
  size_t bad = first_bad(page, n), after = behind + n;
  if (bad < n) return refused(4, bad);
  if (room < 2 * (after + 1)) return refused(6, 2 * (after + 1));
  Masks m;
  make_masks(t, &m);
  grow_words(&m, page, n, behind, words);
  memcpy(letters + MAX_LETTERS - after, page, n);
  desk[0]++;
  desk[desk[0]] = n;
  return after;
}

uint64_t desk_withdraw(const Table *t, uint8_t *desk, size_t size, const uint8_t *letters, size_t cells) {
  if (!obeys(t)) return refused(2, 0);
  if (cells < MAX_LETTERS) return refused(9, MAX_LETTERS);
  int sum = held(desk, size, letters);
  if (sum < 0) return refused(13, 0);
  if (desk[0] == 0) return refused(15, 0);
  return sum - desk[desk[0]--];
}
