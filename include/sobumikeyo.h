/*
 * sobumikeyo: two samples of coded symbols side by side, and which habits they share.
 *
 * A sitting has two samples, 0 and 1. It is fed at a desk of a store, and up to
 * eight desks share one store. A report splits what was seen into contexts (what
 * came just before) that both samples treat alike and contexts that are one
 * sample's own, writes a row for each, and scores the whole.
 *
 * Each sample counts its symbols from place depth + 1 on, for contexts of every
 * length, so that deep and shallow trees are scored over the same acts. The `depth`
 * symbols before that place are only what came just before.
 *
 *     make, open, feed or feed_all, report and chart, close
 *
 * Each function answers 0, or the number of a refusal from the lists below. A
 * refused call writes nothing: store, sheet, file and outputs stay as they were.
 * Where several refusals apply, the first in the order given is given: that of the
 * lists, where the numbers rise but for 20 and 24 (an opening: 1, 2, 3, 5, 20, 6, 7;
 * a report: 1, 2, 4, 11, 24, 12). Two functions answer something else:
 * sobumikeyo_feed_all and sobumikeyo_sound.
 *
 * All memory is the caller's. No function allocates or keeps a pointer. A slice is
 * a pointer and how many elements it has, not how many bytes; no pointer may be
 * null, also where the length is 0. What is written may overlap no other argument.
 *
 * One store is used by one call at a time. Threads that share a store, also at
 * different desks, hold a lock of the caller's for each call; without one, two calls
 * at once may spoil it. Only calls that take the store as const may run beside each
 * other. Stores have nothing in common: each may have a thread.
 *
 * Link with libsobumikeyo.a. What each function promises is written down in
 * crates/told/specs/Told.antt, and its code is proved to keep it.
 */
#ifndef SOBUMIKEYO_H
#define SOBUMIKEYO_H

#include <stdbool.h>
#include <stddef.h>
#include <stdint.h>

#ifdef __cplusplus
extern "C" {
#endif

/* The refusals of calls at a store. */
#define SOBUMIKEYO_UNSOUND 1           /* the store does not pass sobumikeyo_sound */
#define SOBUMIKEYO_NO_SUCH_DESK 2      /* desk above 7 */
#define SOBUMIKEYO_ALREADY_OPEN 3      /* opening a desk that is open */
#define SOBUMIKEYO_NOT_OPEN 4          /* any other call at a desk that is not open */
#define SOBUMIKEYO_OUTSIDE_LIMITS 5    /* alphabet not 2 to 8, or depth above 6 */
#define SOBUMIKEYO_WEIGHT_OUTSIDE 20   /* weight above 16 */
#define SOBUMIKEYO_BAD_RESERVATION 6   /* reservation 0, or above the store's room */
#define SOBUMIKEYO_NO_ROOM 7           /* reservation above the room left */
#define SOBUMIKEYO_NOT_OF_SITTING 8    /* a sample, symbol or context that the sitting cannot have */
#define SOBUMIKEYO_SAMPLE_FULL 9       /* the sample has 2048 symbols */
#define SOBUMIKEYO_PAST_RESERVATION 10 /* the feed needs more contexts than are reserved */
#define SOBUMIKEYO_SAMPLE_EMPTY 11     /* a report while either sample is empty */
#define SOBUMIKEYO_SAMPLE_SHORT 24     /* a report while either has symbols, but no more than the depth */
#define SOBUMIKEYO_SHEET_SHORT 12      /* the rows do not fit the sheet from that place on */

/* The refusals of sitting files; of a file that is read or salvaged, the first fault from the left. */
/* A salvage gets 13 to 15 for the four numbers of the header alone, and never 16. */
#define SOBUMIKEYO_ENDS_EARLY 13       /* the file ends before its last number does */
#define SOBUMIKEYO_NOT_SHORTEST 14     /* a number is not in its shortest form */
#define SOBUMIKEYO_FILE_OUTSIDE 15     /* a number, read or to be written, is outside its limits */
#define SOBUMIKEYO_BYTES_LEFT 16       /* there are bytes after the last symbol */
#define SOBUMIKEYO_BUFFER_SHORT 19     /* fewer bytes are lent than the file to be written or saved has */

/* The refusals of a making. */
#define SOBUMIKEYO_ROOM_OUTSIDE 17     /* room not 1 to 4096 */
#define SOBUMIKEYO_STORE_SHORT 18      /* fewer numbers than SOBUMIKEYO_STORE_SIZE(room) */

/* How many numbers a store for so many contexts has. No number after them is ever written. */
#define SOBUMIKEYO_STORE_SIZE(room) ((size_t)2048 + (size_t)24 * (room))

/* How many numbers a row has: kind (0 shared, 1 first's own, 2 second's own), length, code, eight counts. */
#define SOBUMIKEYO_ROW_WIDTH 11

/* The weight of a sitting's penalty, in quarters: 0 to the largest. The plain one is what the program `sitting` takes. */
#define SOBUMIKEYO_PLAIN_WEIGHT 4
#define SOBUMIKEYO_LARGEST_WEIGHT 16

/* How many bytes are enough for the file of two samples of so many symbols, whatever they are. */
/* For a salvage as many as the damaged file has are enough. */
#define SOBUMIKEYO_FILE_ROOM(first_len, second_len) ((size_t)6 + (first_len) + (second_len))

/* Makes a store for `room` contexts, whatever the numbers are. No desk is open. */
uint32_t sobumikeyo_make(uint32_t *store, size_t store_len, uint32_t room);

/* Opens a desk, 0 to 7, for symbols below `alphabet` and contexts of up to `depth` symbols. */
/* `weight` is what a report's contexts are charged by: a whole number of quarters from 0 to 16; 4 is the plain penalty. */
/* It stays the sitting's until the desk is closed. With 0 no context costs anything, and a report may have very many rows. */
/* Both samples are empty. The sitting may have `reservation` contexts and no more. */
uint32_t sobumikeyo_open(uint32_t *store, size_t store_len, uint32_t desk, uint32_t alphabet, uint32_t depth, uint32_t weight, uint32_t reservation);

/* One more symbol of sample 0 or 1. Where `depth` symbols are before it, it is counted in the depth + 1 contexts that they end in; */
/* where fewer are, it is only kept. So a sitting holds no context until a sample has more than `depth` symbols. */
/* That feed adds depth + 1 contexts at once, a later one at most `depth`. */
uint32_t sobumikeyo_feed(uint32_t *store, size_t store_len, uint32_t desk, uint32_t sample, uint32_t symbol);

/* Feeds the symbols in their order, up to the first that is refused; answers how many were accepted. */
/* `why` is 0 where all were, or the refusal that the next feed got. The accepted ones stay fed. */
/* Quicker than as many feeds: the store is tested once. */
uint32_t sobumikeyo_feed_all(uint32_t *store, size_t store_len, uint32_t desk, uint32_t sample, const uint8_t *symbols, size_t symbols_len, uint32_t *why);

/* Closes a desk. What it reserved is free for any later opening. */
uint32_t sobumikeyo_close(uint32_t *store, size_t store_len, uint32_t desk);

/* How many contexts are left to reserve. Only refusal 1 applies. */
uint32_t sobumikeyo_room(const uint32_t *store, size_t store_len, uint32_t *left);

/* Writes the report's rows from row `place` of the sheet on; no number outside those rows is written. */
/* `rows` is how many there are: by an argument on paper, not by proof, no more than 2 + 2 * (alphabet - 1) * reservation. */
/* `score` is the sum of each row's fit less its cost, and never above 0. With counts c and total t the fit is eightfold, */
/* 8 * (the sum of c * L(c), less t * L(t)), and the cost weight * (alphabet - 1) * L(the length of its sample, or of both where shared); */
/* L(n) is 1024 times the logarithm of n to base 2, rounded down, and L(0) is 0. */
/* A row's code is the sum of symbol times 8^j, where j is 0 for the most recent symbol of its context. */
/* Its counts are those of the places from depth + 1 on. Where a sample has no such place there is no report: */
/* 11 where it is empty, then 24 where it has symbols, but no more than `depth`; both go before 12. */
uint32_t sobumikeyo_report(const uint32_t *store, size_t store_len, uint32_t desk, uint32_t *sheet, size_t sheet_len, uint32_t place, uint32_t *rows, int64_t *score);

/* How often, of the times that a sample saw the context of that length and code, the symbol came next: places from depth + 1 on. */
/* `seen` is 0 where neither sample saw the context, 1 the first alone, 2 the second alone, 3 both. */
/* `first` and `second` are the shares of the samples that saw it; `gap`, first less second, only where both did. */
/* A share that is not answered stays as it was. */
uint32_t sobumikeyo_chart(const uint32_t *store, size_t store_len, uint32_t desk, uint32_t length, uint32_t code, uint32_t symbol, uint32_t *seen, double *first, double *second, double *gap);

/* Reads a sitting file. `shape` gets its alphabet, its depth and the lengths n and m of its samples. */
/* The symbols are then the file's last n + m bytes, one each, the first sample's before the second's. */
uint32_t sobumikeyo_read(const uint8_t *file, size_t file_len, uint32_t shape[4]);

/* Writes the sitting file of two samples, always in shortest form, from the beginning of `file` on. */
/* `written` is the file's length, and the bytes from there on stay. sobumikeyo_read reads the same sitting back. */
/* Refusals 15 and 19: a value that a file may not have goes before bytes that are too few. */
uint32_t sobumikeyo_write(const uint8_t *first, size_t first_len, const uint8_t *second, size_t second_len, uint32_t alphabet, uint32_t depth, uint8_t *file, size_t file_len, size_t *written);

/* Salvages a damaged sitting file: from the beginning of `file` on, writes the valid file of what can be kept. */
/* Each sample takes its next n or m bytes as far as they exist; the others are missing. It keeps those before the first that is */
/* not below the alphabet; the others are dropped. Bytes after both samples are cut off. A sound file comes out the same. */
/* `told` gets how many are missing and dropped of the first sample, missing and dropped of the second, and cut off. */
/* `written` is the saved file's length, never above `damaged_len`, and the bytes from there on stay. sobumikeyo_read accepts it. */
/* Refusals 13 to 15 where the header cannot be read within limits, as sobumikeyo_read says; then 19. */
/* Nothing is saved in place: `file` may overlap `damaged` as little as any other argument. */
uint32_t sobumikeyo_salvage(const uint8_t *damaged, size_t damaged_len, uint8_t *file, size_t file_len, size_t *written, uint64_t told[5]);

/* Whether the numbers are a store: those that refusal 1 is not given for. Every store that calls have left is one. */
bool sobumikeyo_sound(const uint32_t *store, size_t store_len);

#ifdef __cplusplus
}
#endif

#endif
