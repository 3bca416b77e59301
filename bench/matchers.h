// What a user would take in place of the reader: each is opened at run time, where it is there.
#ifndef MATCHERS_H
#define MATCHERS_H
#include <stddef.h>
#include <stdint.h>

typedef struct {
  const char *name;
  int (*match)(void *made, const uint8_t *tape, size_t n);  // 1 if the whole tape matches
  void *made;                                               // 0 if it is not there or takes no such expression
  const char *why;                                          // why not, where `made` is 0
} Matcher;

enum { MATCHERS = 6 };

// PCRE2, the same with its JIT, RE2 with groups and without, Rust's regex with groups and without.
void make_matchers(const char *expression, Matcher matchers[MATCHERS]);

// What a matcher says of a tape, 1 or 0; or -1, and `why` says how it gave up.
int ask(Matcher *m, const uint8_t *tape, size_t n);
#endif
