// The same sittings in plain C: a trie in an array, and the report by recursion over it. Nothing is checked, but by plain_write
// and plain_salvage.
#pragma once
#include "stores.h"
#include <stddef.h>
#include <stdint.h>

enum { NODES = 8192, ROOT = 0, UNSEEN = NODES - 1 }; // the last node stands for every context that is not held

typedef struct {
    uint32_t count[2][8];
    uint32_t child[8];       // by the next older symbol; 0 is none
    uint8_t joint, split[2]; // the decision: 0 shared leaf, 1 two separate trees, 2 split of both; which separate trees split
} node;

typedef struct {
    uint32_t alphabet, depth, weight, used, size[2];
    uint8_t text[2][LONGEST];
    node nodes[NODES];
} trie;

// A sitting that is to be written as a file.
typedef struct {
    const uint8_t *sample[2];
    size_t size[2];
    uint32_t alphabet, depth;
} recording;

// The weight is that of the penalty, in quarters.
void plain_start(trie *t, uint32_t alphabet, uint32_t depth, uint32_t weight);
void plain_feed_all(trie *t, uint32_t sample, const uint8_t *symbols, uint32_t many);
// How many contexts the sitting holds: those seen at a place from D+1 on.
uint32_t plain_held(const trie *t);
// Writes the rows at the beginning of the sheet; answers how many.
uint32_t plain_report(trie *t, uint32_t *sheet, int64_t *score);
// Which samples saw a context (1 the first, 2 the second, 3 both), and a symbol's shares in it and their difference.
uint32_t plain_chart(const trie *t, uint32_t length, uint32_t code, uint32_t symbol, double shares[3]);
// Writes the sitting file; answers its length.
size_t plain_file(const recording *r, uint8_t *file);
// The same after the library's checks: 15 where the alphabet, the depth, a length or any symbol is outside its limits, else 19
// where the file has more than `room` bytes. Answers 0 where it is written.
uint32_t plain_write(const recording *r, uint8_t *file, size_t room, size_t *written);
// Writes the file of what can be kept of a damaged one, after the library's checks: 13 to 15 for the header, else 19. `told` gets what is
// missing and dropped of each sample, and what is cut off. Answers 0 where it is written.
uint32_t plain_salvage(const uint8_t *damaged, size_t many, uint8_t *file, size_t room, size_t *written, uint64_t told[5]);
// Computes the logarithms of 1 to `largest`, which is the length of both samples together. To be called before a report.
void plain_logarithms(uint32_t largest);
