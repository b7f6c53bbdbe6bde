// One sitting of 512 + 512 symbols (A 4, D 4): feeding, report and chart against the same in plain C, whose answers must agree, the
// report's at every weight.
#include "plain.h"
#include "sobumikeyo.h"
#include "stores.h"
#include "timing.h"
#include <string.h>

enum { ALPHABET = 4, DEPTH = 4, ROOM = 512, LEN = HEADER + WIDTH * ROOM, SHEET = 11 * 1024 };

static uint8_t text[2][USUAL];
static uint32_t store[LEN], sheet[SHEET], plain_sheet[SHEET], rows, plain_rows, why;
static int64_t score, plain_score;
static trie twin;
static uint32_t weight;
static volatile uint64_t sink;

static void begin(void *with) {
    (void)with;
    sobumikeyo_make(store, LEN, ROOM);
    sobumikeyo_open(store, LEN, 0, ALPHABET, DEPTH, weight, ROOM);
}

static void feed_runs(void *with) {
    (void)with;
    for (uint32_t i = 0; i < 2; i++) sink += sobumikeyo_feed_all(store, LEN, 0, i, text[i], USUAL, &why);
}

static void feed_each(void *with) {
    (void)with;
    for (uint32_t i = 0; i < 2; i++)
        for (uint32_t k = 0; k < USUAL; k++) sink += sobumikeyo_feed(store, LEN, 0, i, text[i][k]);
}

static void feed_and_test(void *with) {
    (void)with;
    for (uint32_t i = 0; i < 2; i++)
        for (uint32_t k = 0; k < USUAL; k++)
            sink += sobumikeyo_sound(store, LEN) + sobumikeyo_feed(store, LEN, 0, i, text[i][k]);
}

static void plain_begin(void *with) {
    (void)with;
    plain_start(&twin, ALPHABET, DEPTH, weight);
}

static void plain_feed(void *with) {
    (void)with;
    for (uint32_t i = 0; i < 2; i++) plain_feed_all(&twin, i, text[i], USUAL);
}

static void plain_feed_each(void *with) {
    (void)with;
    for (uint32_t i = 0; i < 2; i++)
        for (uint32_t k = 0; k < USUAL; k++) plain_feed_all(&twin, i, &text[i][k], 1);
}

static void report(void *with) {
    (void)with;
    sink += sobumikeyo_report(store, LEN, 0, sheet, SHEET, 0, &rows, &score);
}

static void plain(void *with) {
    (void)with;
    plain_rows = plain_report(&twin, plain_sheet, &plain_score);
}

static void test(void *with) {
    (void)with;
    sink += sobumikeyo_sound(store, LEN);
}

// The shares of symbol 0 in every context of three symbols.
enum { CODES = 8 * 8 * 8 };

static void chart(void *with) {
    double *shares = with;
    for (uint32_t code = 0; code < CODES; code++) {
        uint32_t seen = 0;
        sink += sobumikeyo_chart(store, LEN, 0, 3, code, 0, &seen, &shares[0], &shares[1], &shares[2]) + seen;
    }
}

static void chart_plain(void *with) {
    for (uint32_t code = 0; code < CODES; code++) sink += plain_chart(&twin, 3, code, 0, with);
}

// A code with a symbol from A up is refused, and seen by no sample in plain C.
static void charts_agree(void) {
    for (uint32_t code = 0; code < CODES; code++) {
        double one[3] = {0, 0, 0}, two[3] = {0, 0, 0};
        uint32_t seen = 0;
        sobumikeyo_chart(store, LEN, 0, 3, code, 0, &seen, &one[0], &one[1], &one[2]);
        must(seen == plain_chart(&twin, 3, code, 0, two) && memcmp(one, two, sizeof one) == 0, "shares as in plain C");
    }
}

static void agree_at(uint32_t quarters) {
    weight = quarters;
    begin(0), feed_runs(0), plain_begin(0), plain_feed(0), report(0), plain(0);
    must(store[1] == plain_held(&twin), "contexts held as in plain C");
    must(rows == plain_rows && score == plain_score, "row count and score as in plain C");
    must(memcmp(sheet, plain_sheet, rows * 11 * sizeof *sheet) == 0, "rows as in plain C");
}

// At every weight, and last at the plain one, which is measured; charts do not know it.
static void agree(void) {
    for (uint32_t quarters = 0; quarters <= SOBUMIKEYO_LARGEST_WEIGHT; quarters++) agree_at(quarters);
    agree_at(SOBUMIKEYO_PLAIN_WEIGHT);
    charts_agree();
}

int main(int words, char **word) {
    asked(words, word);
    plain_logarithms(2 * USUAL);
    for (uint32_t noise = 1; noise <= 16; noise++) {
        for (uint32_t i = 0; i < 2; i++) string_of(text[i], USUAL, (habit){ALPHABET, noise, i});
        agree();
    }
    for (uint32_t i = 0; i < 2; i++) string_of(text[i], USUAL, (habit){ALPHABET, 4, i});
    agree();
    line(store[1], 0, "a sitting of 512 + 512 symbols, A 4, D 4: contexts");
    line(rows, 0, "    rows of its report, the same in plain C");
    job reports[] = {{0, report, 0, 4, 0}, {0, plain, 0, 4, 0}, {0, test, 0, 4, 0}};
    race_or_count(reports, 3, 2000);
    job feeds[] = {{begin, feed_runs, 0, 1, 0}, {plain_begin, plain_feed, 0, 1, 0}, {begin, feed_each, 0, 1, 0},
                   {begin, feed_and_test, 0, 1, 0}, {plain_begin, plain_feed_each, 0, 1, 0}};
    race_or_count(feeds, 5, 300);
    double shares[3];
    job charts[] = {{0, chart, shares, 1, 0}, {0, chart_plain, shares, 1, 0}, {0, test, 0, 4, 0}};
    race_or_count(charts, 3, 300);
    line(feeds[0].ns / feeds[1].ns, 10, "feed_all of both samples: times plain C");
    line(feeds[0].ns / (2 * USUAL), 0, "    ns for each symbol");
    line(feeds[2].ns / (feeds[3].ns - feeds[2].ns), 2, "feeds one by one, of the whole sitting: times their soundness tests");
    line(feeds[2].ns / feeds[4].ns, 0, "    times plain C, which tests nothing");
    line(charts[0].ns / charts[1].ns, 0, "chart questions: times plain C, which tests nothing");
    line((charts[0].ns - CODES * charts[2].ns) / charts[1].ns, 0, "    without their soundness tests: times plain C");
    line(reports[0].ns / reports[1].ns, 0, "report: times plain C");
    line((reports[0].ns - reports[2].ns) / reports[1].ns, 0, "    without its soundness test: times plain C");
    line(reports[0].ns, 0, "    ns");
    return 0;
}
