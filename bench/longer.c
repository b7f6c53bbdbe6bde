// Sittings of 2,048 + 2,048 symbols beside those of the first 512 of each string: feeding for each symbol, report and soundness test for each
// context. Contexts held, rows and score must be those of plain C. LONGER contexts only says how many contexts the two sittings of each shape have.
#include "plain.h"
#include "sobumikeyo.h"
#include "timing.h"
#include <stdio.h>
#include <string.h>

enum { ROOM = 4096, LEN = SOBUMIKEYO_STORE_SIZE(ROOM), SHEET = SOBUMIKEYO_ROW_WIDTH * 4096, SHAPES = 4 };

// What the sittings are opened for, how their strings go on (stores.h), and the bounds (0: there is none): for each symbol fed and each
// context of a report, and for each context of a soundness test.
typedef struct {
    uint32_t alphabet, depth, uses, noise;
    double bound, unchanged;
} shape;

// The strings are drawn one after another from one seed. Of the two with A 8, one has few contexts and one nearly as many as a store may have.
static const shape shapes[SHAPES] = {{4, 4, 4, 4, 1.25, 1.10}, {8, 6, 8, 100, 0, 0}, {8, 6, 8, 8, 0, 0}, {2, 6, 2, 4, 0, 0}};

typedef struct {
    shape s;
    uint32_t many;                 // symbols of each sample
    uint32_t rows;                 // of its report
    uint32_t store[LEN], fed[LEN]; // one with its strings, one to be fed
} sitting;

static uint8_t text[2][LONGEST];
static sitting usual, longest;
static trie twin;
static uint32_t sheet[SHEET], plain_sheet[SHEET], rows, why;
static int64_t score, plain_score;
static volatile uint64_t sink;

static void begin(void *with) {
    sitting *at = with;
    must(sobumikeyo_make(at->fed, LEN, ROOM) == 0, "make");
    must(open_plain(at->fed, LEN, 0, at->s.alphabet, at->s.depth, ROOM) == 0, "open");
}

static void feed_all(void *with) {
    sitting *at = with;
    for (uint32_t i = 0; i < 2; i++) sink += sobumikeyo_feed_all(at->fed, LEN, 0, i, text[i], at->many, &why);
}

static void report(void *with) {
    sitting *at = with;
    sink += sobumikeyo_report(at->store, LEN, 0, sheet, SHEET, 0, &rows, &score);
}

static void test(void *with) {
    sitting *at = with;
    sink += sobumikeyo_sound(at->store, LEN);
}

static uint32_t contexts(const sitting *at) { return at->store[1]; }

static void agree(const sitting *at) {
    plain_start(&twin, at->s.alphabet, at->s.depth, SOBUMIKEYO_PLAIN_WEIGHT);
    for (uint32_t i = 0; i < 2; i++) plain_feed_all(&twin, i, text[i], at->many);
    must(contexts(at) == plain_held(&twin), "contexts held as in plain C");
    must(plain_report(&twin, plain_sheet, &plain_score) == rows && plain_score == score, "row count and score as in plain C");
    must(memcmp(sheet, plain_sheet, rows * SOBUMIKEYO_ROW_WIDTH * sizeof *sheet) == 0, "rows as in plain C");
}

// The first so many symbols of both strings fed, and the report on them.
static void seat(sitting *at, shape s, uint32_t many) {
    at->s = s;
    at->many = many;
    begin(at);
    feed_all(at);
    must(why == 0, "feed_all");
    memcpy(at->store, at->fed, sizeof at->fed);
    must(sobumikeyo_report(at->store, LEN, 0, sheet, SHEET, 0, &rows, &score) == 0, "report");
    at->rows = rows;
    agree(at);
}

// How many times as long the first job takes as the second, for each of the things that they have so many of.
static double for_each(const job *jobs, uint32_t first, uint32_t second) { return jobs[0].ns / first / (jobs[1].ns / second); }

static void measure(shape s) {
    job feeds[] = {{begin, feed_all, &longest, 1, 0}, {begin, feed_all, &usual, 1, 0}};
    job reports[] = {{0, report, &longest, 4, 0}, {0, report, &usual, 4, 0}};
    job tests[] = {{0, test, &longest, 4, 0}, {0, test, &usual, 4, 0}};
    race_or_count(feeds, 2, 300);
    race_or_count(reports, 2, 1500);
    race_or_count(tests, 2, 1500);
    note("2,048 + 2,048 symbols by 512 + 512, A %u, D %u: contexts %u by %u, rows %u by %u", s.alphabet, s.depth, contexts(&longest),
         contexts(&usual), longest.rows, usual.rows);
    line(for_each(feeds, LONGEST, USUAL), s.bound, "    feed_all, time for each symbol");
    line(for_each(reports, contexts(&longest), contexts(&usual)), s.bound, "    report, time for each context");
    line(for_each(tests, contexts(&longest), contexts(&usual)), s.unchanged, "    soundness test, time for each live context");
}

int main(int words, char **word) {
    asked(words, word);
    plain_logarithms(2 * LONGEST);
    for (int k = 0; k < SHAPES; k++) {
        shape s = shapes[k];
        for (uint32_t i = 0; i < 2; i++) string_of(text[i], LONGEST, (habit){s.uses, s.noise, i});
        seat(&usual, s, USUAL);
        seat(&longest, s, LONGEST);
        if (words == 2) printf("%u %u\n", contexts(&longest), contexts(&usual));
        else measure(s);
    }
    return 0;
}
