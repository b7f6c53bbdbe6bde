// The same calls of two builds of the library, as jobs: side.c is compiled once for each build.
#pragma once
#include "timing.h"
#include <stdint.h>

// Sittings of 512 + 512 symbols, since a library from before request E2 refuses longer ones; the strings use so many of the alphabet's
// symbols, with so much noise (stores.h).
typedef struct {
    uint32_t alphabet, depth, uses, noise;
} shape;

enum { SHAPES = 6, CALLS = 9, CASES = SHAPES * CALLS, FEEDS = 3 };
// The last two have few contexts: there what a report costs besides them shows.
static const shape shapes[SHAPES] = {{4, 4, 4, 4}, {8, 6, 8, 100}, {8, 6, 8, 1}, {2, 6, 2, 4}, {4, 4, 4, 32}, {8, 6, 3, 64}};
// Every call at a store; that at FEEDS is made for each symbol, and so is slow.
static const char *const calls[CALLS] = {"report", "soundness test", "feed_all", "feeds one by one", "make",
                                         "open",   "close",          "room",     "chart"};

// The contexts that the sitting holds, and what its report answered: row count, score, and a sum over its rows.
typedef struct {
    uint32_t contexts, rows;
    int64_t score;
    uint64_t sum;
} answer;

// The jobs of the calls of each shape, in the order of the lists above, and the reports' answers.
void side_now(job jobs[CASES], answer answers[SHAPES]);
void side_before(job jobs[CASES], answer answers[SHAPES]);
