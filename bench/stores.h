// Strings from a seeded generator, and stores that hold as many contexts as are asked for.
#pragma once
#include <stddef.h>
#include <stdint.h>

enum { HEADER = 2048, WIDTH = 24, LONGEST = 2048, DEEPEST = 6 };
// Most sittings measured here have samples of so many symbols, the limit before request E2: so they compare with earlier runs and libraries.
enum { USUAL = 512 };

// How a string goes on: one symbol in `noise` is any of `uses`, the others are the last two added up, and `drift` more.
typedef struct {
    uint32_t uses, noise, drift;
} habit;

void string_of(uint8_t *to, size_t many, habit h);

// Opens a desk with the plain weight, or, in a library from before request E5, with none.
uint32_t open_plain(uint32_t *store, size_t len, uint32_t desk, uint32_t alphabet, uint32_t depth, uint32_t reserved);

// A store with its content kept aside, and feeds that it would accept.
typedef struct {
    uint32_t *numbers, *kept;
    size_t len;
    uint32_t live;                 // the contexts held
    uint32_t adds;                 // how many contexts a feed to desk 0's first sample adds
    uint32_t old_desk, old_sample; // where a feed adds none
} filled;

// A new store of room K, and one desk opened in it (A 8) and fed until its contexts come near a quota or its samples have USUAL
// symbols; its contexts are then its reservation.
filled new_store(uint32_t room);
void open_and_fill(filled *f, uint32_t desk, uint32_t depth, uint32_t quota, habit h);
// Where the header has a desk's reservation.
uint32_t *reservation(filled *f, uint32_t desk);

// A store of room K with that many contexts: most at desks 0 to 5 (D 6), the rest at desk 6 (D 1); desk 7 is closed.
// With `spare`, desks 0 and 6 have reservations to go on: that takes at most 15 more than the contexts held.
// The same numbers give the same content.
filled fill(uint32_t room, uint32_t live, int spare);
// Puts the kept content back. For a job: takes a filled store.
void restore(void *with);
