// Plain loops over a store's live records, to measure the soundness test against.
#pragma once
#include <stdint.h>

// The sum of the 17 numbers of each live record that stand for something: its key and sixteen counts.
uint64_t sum_live(const uint32_t *store);
// The sum of all 24 numbers of each live record, one run without gaps.
uint64_t sum_whole(const uint32_t *store);
