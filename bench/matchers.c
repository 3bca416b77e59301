#define _GNU_SOURCE
#include "matchers.h"
#include <dlfcn.h>
#include <stdio.h>
#include <string.h>

static const char *gave_up;  // how the last match was given up, 0 if it was not

int ask(Matcher *m, const uint8_t *tape, size_t n) {
  gave_up = 0;
  int found = m->match(m->made, tape, n);
  if (!gave_up) return found;
  m->why = gave_up;
  return -1;
}

typedef struct {
  void *code, *data, *context;
} Pcre;

static int (*pcre_match_fn)(void *, const uint8_t *, size_t, size_t, uint32_t, void *, void *);

static int pcre_match(void *made, const uint8_t *tape, size_t n) {
  Pcre *p = made;
  int found = pcre_match_fn(p->code, tape, n, 0, 0, p->data, p->context);
  switch (found) {
    case -1: return 0;
    case -46: gave_up = "gives up: its JIT stack of 16 MB is full"; return 0;
    case -47: gave_up = "gives up: its limit of match steps"; return 0;
    case -53: gave_up = "gives up: its limit of depth"; return 0;
    case -63: gave_up = "gives up: its limit of heap"; return 0;
  }
  if (found < 0) gave_up = "gives up with another error";
  return found >= 0;
}

// By name: no header is needed.
static void make_pcre(const char *expression, Matcher *plain, Matcher *jit) {
  static Pcre made[2];
  void *lib = dlopen("libpcre2-8.so.0", RTLD_NOW);
  plain->why = jit->why = "not installed";
  if (!lib) return;
  void *(*compile)(const char *, size_t, uint32_t, int *, size_t *, void *) = dlsym(lib, "pcre2_compile_8");
  void *(*room)(void *, void *) = dlsym(lib, "pcre2_match_data_create_from_pattern_8");
  void *(*context)(void *) = dlsym(lib, "pcre2_match_context_create_8");
  int (*jit_compile)(void *, uint32_t) = dlsym(lib, "pcre2_jit_compile_8");
  void *(*stack)(size_t, size_t, void *) = dlsym(lib, "pcre2_jit_stack_create_8");
  void (*assign)(void *, void *, void *) = dlsym(lib, "pcre2_jit_stack_assign_8");
  pcre_match_fn = dlsym(lib, "pcre2_match_8");
  int error;
  size_t where;
  const uint32_t anchored = 0x80000000u, whole = 0x20000000u;
  plain->why = jit->why = "refuses the expression";
  for (int k = 0; k < 2; k++) {
    Matcher *m = k ? jit : plain;
    made[k].code = compile(expression, strlen(expression), anchored | whole, &error, &where, 0);
    if (!made[k].code) return;
    made[k].data = room(made[k].code, 0);
    made[k].context = context(0);
    m->match = pcre_match;
    if (k) {
      jit->why = "has no JIT here";
      if (jit_compile(made[k].code, 1) != 0) return;
      assign(made[k].context, 0, stack(32768, 16 << 20, 0));
    }
    m->made = &made[k];
  }
}

// RE2 and Rust's regex: small libraries that bench/run builds where it finds their sources.
static void make_built(const char *file, const char *prefix, const char *expression, Matcher *groups, Matcher *none) {
  char name[64];
  groups->why = none->why = "not installed";
  void *lib = dlopen(file, RTLD_NOW);
  if (!lib) return;
  void *(*compile)(const char *);
  snprintf(name, sizeof name, "%s_compile", prefix);
  compile = dlsym(lib, name);
  groups->why = none->why = "refuses the expression";
  groups->made = none->made = compile(expression);
  snprintf(name, sizeof name, "%s_groups", prefix);
  groups->match = dlsym(lib, name);
  snprintf(name, sizeof name, "%s_whole", prefix);
  none->match = dlsym(lib, name);
}

void make_matchers(const char *expression, Matcher m[MATCHERS]) {
  memset(m, 0, MATCHERS * sizeof *m);
  m[0].name = "PCRE2, groups";
  m[1].name = "PCRE2 with JIT, groups";
  m[2].name = "RE2, groups";
  m[3].name = "RE2, yes or no";
  m[4].name = "Rust's regex, groups";
  m[5].name = "Rust's regex, yes or no";
  make_pcre(expression, &m[0], &m[1]);
  make_built("target/bench_files/libre2_matcher.so", "re2", expression, &m[2], &m[3]);
  make_built("target/bench_files/librust_matcher.so", "rust", expression, &m[4], &m[5]);
}
