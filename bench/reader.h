// The reader by hand in C: the same masks, words, codes and walks as the proved one, which is measured against it.
#ifndef READER_H
#define READER_H
#include <stddef.h>
#include <stdint.h>

// Letters are the bytes 33 to 126, and those with the highest bit set as well, 161 to 254.
static inline int is_letter(int c) { return (c & 127) >= 33 && (c & 127) <= 126; }

// Accounts are 1 to MAX_ACCOUNT, and 0 is for litres without one.
enum { MAX_ACCOUNT = 200, ACCOUNTS = MAX_ACCOUNT + 1 };

// first and second: the parts, or a range's limits, or a letter
typedef struct {
  uint8_t kind, first, second, account;  // kind: E L R S A K Z; account: 0 for none
} Node;

typedef struct {
  int count;
  Node node[64];
} Table;

// Of a leaf: the nodes that reach it without a letter, with flag 0 and 1, and its follower as a bit (0 for the tape's end).
typedef struct {
  uint64_t behind, zero, one;
} LeafMasks;

typedef struct {
  LeafMasks leaf[64];
  uint64_t takers[256];  // by byte: the leaves that take it; none where it is no letter
  uint64_t end;          // the nodes that reach the tape's end with flag 1
  uint8_t follower[64];  // the node behind a node; 64 for the tape's end
  uint8_t in_star[64];   // whether that follower is a star that the node is in
} Masks;

// The two sweeps: no test of what is handed over. A code is written in whole words, so its buffer has 8 bytes to spare.
void make_masks(const Table *t, Masks *m);
void fill_words(const Masks *m, const uint8_t *tape, size_t n, uint64_t *words);
uint32_t write_code(const Table *t, const Masks *m, const uint64_t *words, const uint8_t *tape, size_t n, uint8_t *code);

// One walk that tests everything about a code: bytes, padding, bits left, ranges, that all bits are used. The letters, or -1.
int check_code(const Table *t, const uint8_t *code, size_t bytes, uint32_t count);

// Walks over a code that is known to be whole: they test nothing.
uint32_t spell(const Table *t, const uint8_t *code, uint8_t *tape);
void charge(const Table *t, const uint8_t *code, uint32_t litres[ACCOUNTS]);

// The services on codes with the tests that the proved ones make, in the same order and in the same two passes: the rules of the table
// (cause 2); one walk over the whole code that tests everything and counts the letters (8); the limit of letters (3); for `flatten` the
// cells of the tape (9). Only then does a second walk, which tests nothing, write letters or add litres. Answers are those of the C
// interface: number << 32 | value, which is the number of letters for `flatten` and 0 for `totals`. Litres are zeros where it refuses.
uint64_t flatten(const Table *t, const uint8_t *code, size_t bytes, uint32_t count, uint8_t *tape, size_t cells);
uint64_t totals(const Table *t, const uint8_t *code, size_t bytes, uint32_t count, uint32_t litres[ACCOUNTS]);

// The words of a page that is put before `behind` letters, counted from the tape's end: those of the last j letters are words[2 * j] and
// words[2 * j + 1]. It tests nothing.
void grow_words(const Masks *m, const uint8_t *page, size_t n, size_t behind, uint64_t *words);

// The page desk with the tests that the proved one makes, in the same order. A desk is 31 bytes, as in the C interface.
uint64_t desk_open(const Table *t, uint8_t *desk, size_t size, uint64_t *words, size_t room);
uint64_t desk_put(const Table *t, uint8_t *desk, size_t size, const uint8_t *page, size_t n, uint8_t *letters, size_t cells,
                  uint64_t *words, size_t room);
uint64_t desk_withdraw(const Table *t, uint8_t *desk, size_t size, const uint8_t *letters, size_t cells);
#endif
