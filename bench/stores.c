#include "stores.h"
#include "sobumikeyo.h"
#include "timing.h"
#include <stdlib.h>
#include <string.h>

enum { BIG_DESKS = 6, TOP_UP = 6, SPARE_TOP_UP = 2, NEVER = 7 };

#define SEED 88172645463325252ull
static uint64_t state = SEED;

static uint32_t any(void) {
    state ^= state << 13;
    state ^= state >> 7;
    state ^= state << 17;
    return (uint32_t)(state >> 20);
}

static uint8_t next_symbol(habit h, uint8_t last, uint8_t before) {
    if (any() % h.noise == 0) return any() % h.uses;
    return (last + before + h.drift) % h.uses;
}

void string_of(uint8_t *to, size_t many, habit h) {
    for (size_t i = 0; i < many; i++) to[i] = next_symbol(h, i > 0 ? to[i - 1] : 0, i > 1 ? to[i - 2] : 1);
}

// Which prototype the library has is read from the header that this is compiled with: one from before request E5 names no weight.
uint32_t open_plain(uint32_t *store, size_t len, uint32_t desk, uint32_t alphabet, uint32_t depth, uint32_t reserved) {
#ifdef SOBUMIKEYO_PLAIN_WEIGHT
    return sobumikeyo_open(store, len, desk, alphabet, depth, SOBUMIKEYO_PLAIN_WEIGHT, reserved);
#else
    return sobumikeyo_open(store, len, desk, alphabet, depth, reserved);
#endif
}

uint32_t *reservation(filled *f, uint32_t desk) { return &f->numbers[16 + 32 * desk + 4]; }

// Feeds a desk's samples in turn, USUAL symbols each, unless its reservation stops a feed.
static void feed_until_full(filled *f, uint32_t desk, habit h) {
    uint8_t last[2] = {0, 1}, before[2] = {1, 0};
    for (uint32_t step = 0; step < 2 * USUAL; step++) {
        uint32_t i = step % 2, x = next_symbol(h, last[i], before[i]);
        if (sobumikeyo_feed(f->numbers, f->len, desk, i, x) != 0) return;
        before[i] = last[i];
        last[i] = x;
    }
}

void open_and_fill(filled *f, uint32_t desk, uint32_t depth, uint32_t quota, habit h) {
    uint32_t before = f->numbers[1];
    must(open_plain(f->numbers, f->len, desk, 8, depth, quota) == 0, "open");
    feed_until_full(f, desk, h);
    *reservation(f, desk) = f->numbers[1] - before;
    f->live = f->numbers[1];
}

// After a symbol that desk 0 never had, the next feed adds all the contexts that end in it.
static void make_ready(filled *f) {
    *reservation(f, 0) += 2 * DEEPEST;
    must(sobumikeyo_feed(f->numbers, f->len, 0, 0, NEVER) == 0, "a new symbol");
}

// How many contexts a feed adds; the store stays as kept.
static uint32_t adds(filled *f, uint32_t desk, uint32_t sample) {
    if (sobumikeyo_feed(f->numbers, f->len, desk, sample, 0) != 0) return UINT32_MAX;
    uint32_t more = f->numbers[1] - f->live;
    restore(f);
    return more;
}

static void find_feeds(filled *f) {
    f->adds = adds(f, 0, 0);
    f->old_desk = TOP_UP;
    for (uint32_t at = 2; at < 2 * BIG_DESKS; at++) {
        if (adds(f, at / 2, at % 2) != 0) continue;
        f->old_desk = at / 2;
        f->old_sample = at % 2;
    }
}

filled new_store(uint32_t room) {
    filled f = {.len = HEADER + WIDTH * (size_t)room};
    f.numbers = calloc(f.len, sizeof *f.numbers);
    f.kept = calloc(f.len, sizeof *f.kept);
    must(sobumikeyo_make(f.numbers, f.len, room) == 0, "make");
    state = SEED;
    return f;
}

filled fill(uint32_t room, uint32_t live, int spare) {
    filled f = new_store(room);
    habit h = {.uses = NEVER, .noise = 2, .drift = 0};
    for (uint32_t desk = 0; desk < BIG_DESKS; desk++) {
        uint32_t quota = (live - 2) * (desk + 1) / BIG_DESKS - f.numbers[1];
        open_and_fill(&f, desk, DEEPEST, quota, h);
        if (spare && desk == 0) make_ready(&f);
    }
    open_and_fill(&f, TOP_UP, 1, live - f.numbers[1], h);
    if (spare) *reservation(&f, TOP_UP) += SPARE_TOP_UP;
    memcpy(f.kept, f.numbers, f.len * sizeof *f.kept);
    must(sobumikeyo_sound(f.numbers, f.len), "a sound store");
    if (spare) find_feeds(&f);
    return f;
}

void restore(void *with) {
    filled *f = with;
    size_t touched = HEADER + WIDTH * ((size_t)f->live + DEEPEST + SPARE_TOP_UP);
    memcpy(f->numbers, f->kept, (touched < f->len ? touched : f->len) * sizeof *f->kept);
}
