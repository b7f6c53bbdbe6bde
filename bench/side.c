// One build of the library: sittings held in it, and its calls on them as jobs. SIDE is the name by which before.c asks for
// them; all else stays within this side (bench/before).
#include "side.h"
#include "sobumikeyo.h"
#include "stores.h"
#include <string.h>

enum { ROOM = 4096, LEN = SOBUMIKEYO_STORE_SIZE(ROOM), SHEET = SOBUMIKEYO_ROW_WIDTH * 40000 };

// A library from before request E5 answers a quarter of the score; its header names no weight.
#ifdef SOBUMIKEYO_PLAIN_WEIGHT
enum { TIMES_ITS_SCORE = 1 };
#else
enum { TIMES_ITS_SCORE = 4 };
#endif

typedef struct {
    shape s;
    uint32_t store[LEN], fed[LEN]; // one with its strings, one to be fed
    uint8_t text[2][USUAL];
    uint32_t recent; // the code of the last three symbols of the first string
} sitting;

static sitting sittings[SHAPES];
static uint32_t sheet[SHEET], rows, why;
static int64_t score;
static volatile uint64_t sink;

static void make(void *with) {
    sitting *at = with;
    must(sobumikeyo_make(at->fed, LEN, ROOM) == 0, "make");
}

// One context is left for another desk.
static void begin(void *with) {
    sitting *at = with;
    make(at);
    must(open_plain(at->fed, LEN, 0, at->s.alphabet, at->s.depth, ROOM - 1) == 0, "open");
}

// The store with its strings once more.
static void restore_fed(void *with) {
    sitting *at = with;
    memcpy(at->fed, at->store, sizeof at->fed);
}

static void open_next(void *with) {
    sitting *at = with;
    must(open_plain(at->fed, LEN, 1, at->s.alphabet, at->s.depth, 1) == 0, "open beside the sitting");
}

static void close_first(void *with) {
    sitting *at = with;
    must(sobumikeyo_close(at->fed, LEN, 0) == 0, "close");
}

static void feed_all(void *with) {
    sitting *at = with;
    for (uint32_t i = 0; i < 2; i++) sink += sobumikeyo_feed_all(at->fed, LEN, 0, i, at->text[i], USUAL, &why);
}

static void feed_each(void *with) {
    sitting *at = with;
    for (uint32_t i = 0; i < 2; i++)
        for (uint32_t k = 0; k < USUAL; k++) sink += sobumikeyo_feed(at->fed, LEN, 0, i, at->text[i][k]);
}

static void test(void *with) {
    sitting *at = with;
    sink += sobumikeyo_sound(at->store, LEN);
}

static void report(void *with) {
    sitting *at = with;
    sink += sobumikeyo_report(at->store, LEN, 0, sheet, SHEET, 0, &rows, &score);
}

static void ask_room(void *with) {
    sitting *at = with;
    uint32_t left;
    sink += sobumikeyo_room(at->store, LEN, &left);
}

static void chart(void *with) {
    sitting *at = with;
    uint32_t seen;
    double first, second, gap;
    sink += sobumikeyo_chart(at->store, LEN, 0, 3, at->recent, 0, &seen, &first, &second, &gap);
}

// Both strings fed, and the report on them.
static answer seated(sitting *at, shape s) {
    at->s = s;
    for (uint32_t i = 0; i < 2; i++) string_of(at->text[i], USUAL, (habit){s.uses, s.noise, i});
    begin(at);
    feed_all(at);
    must(why == 0, "feed_all");
    memcpy(at->store, at->fed, sizeof at->fed);
    const uint8_t *end = at->text[0] + USUAL;
    at->recent = end[-1] + 8 * end[-2] + 64 * end[-3];
    must(sobumikeyo_report(at->store, LEN, 0, sheet, SHEET, 0, &rows, &score) == 0, "report");
    answer a = {at->store[1], rows, TIMES_ITS_SCORE * score, 0};
    for (uint32_t k = 0; k < SOBUMIKEYO_ROW_WIDTH * rows; k++) a.sum = a.sum * 31 + sheet[k];
    return a;
}

void SIDE(job jobs[CASES], answer answers[SHAPES]) {
    for (uint32_t k = 0; k < SHAPES; k++) {
        sitting *at = &sittings[k];
        answers[k] = seated(at, shapes[k]);
        int inner = answers[k].contexts < 1000 ? 4 : 1;
        const job of_calls[CALLS] = {{0, report, at, inner, 0},
                                     {0, test, at, inner, 0},
                                     {begin, feed_all, at, 1, 0},
                                     {begin, feed_each, at, 1, 0},
                                     {0, make, at, inner, 0},
                                     {restore_fed, open_next, at, 1, 0},
                                     {restore_fed, close_first, at, 1, 0},
                                     {0, ask_room, at, inner, 0},
                                     {0, chart, at, inner, 0}};
        memcpy(&jobs[CALLS * k], of_calls, sizeof of_calls);
    }
}
