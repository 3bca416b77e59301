// Patterns of the bench, as table, text and expression, and random tapes that they read.
#ifndef PATTERNS_H
#define PATTERNS_H
#include "reader.h"

void meter_pattern(Table *t, int nodes);    // a month of a meter's tape; 16, 32 or 64 nodes
void hostile_pattern(Table *t, int nodes);  // (nodes - 4) / 2 times a or b, then a, then the star of a or b
void stress_pattern(Table *t);              // one of 31 letters, in 3 nested stars
void hot_pattern(Table *t);                 // a combined meter's: a digit, byte 161 and a digit, or a letter of a to 254, any number of times
void days_pattern(Table *t);                // any number of D

// The deepest patterns: 63 stars of kind K or Z around a or b; any number of a or b and 31 more, a chain of 31 sequences down to the left or to the right.
void stars_pattern(Table *t, char kind);
void chain_pattern(Table *t, int left);

// How many nodes lie on the longest way from the root to a leaf.
int depth(const Table *t);

size_t write_text(const Table *t, char *text);

// The same expression for a matcher, a group around each part, so that it says where each node was last.
void write_expression(const Table *t, char *expression);

// A random tape of exactly n letters that the pattern reads; 0 if it reads none of that length. Of 16 choices that are free, `lefts` go
// left; of 16 stars that may stop, 15 go on.
int random_tape(const Table *t, size_t n, unsigned lefts, uint8_t *tape);
#endif
