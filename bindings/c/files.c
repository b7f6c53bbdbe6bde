// Sitting files from C, by the header: refused calls leave what is lent, document 01's example is written, and it reads back. Spoilt
// and cut it is salvaged, and reads back too. The longest samples are written, read and fed, and one symbol more is refused. Samples
// too short for a report are refused, and one symbol more is enough. Openings with too large a weight are refused, and two desks of
// one store are reported on by their own weights. Answers 0 where all is so.
#include "sobumikeyo.h"
#include <stdio.h>
#include <string.h>

enum { LENGTH = 20, ROOM = SOBUMIKEYO_FILE_ROOM(8, 8), BLANK = 0xee, UNTOLD = 77 };

static const uint8_t learner[8] = {0, 1, 0, 1, 0, 1, 0, 1}, reference[8] = {0, 0, 1, 0, 0, 1, 0, 0};
static const uint8_t header[4] = {2, 1, 8, 8};
// The learner's seventh act spoilt and the reference's last three missing, and what is saved.
static const uint8_t damaged[17] = {2, 1, 8, 8, 0, 1, 0, 1, 0, 1, 2, 1, 0, 0, 1, 0, 0};
static const uint8_t saved[15] = {2, 1, 6, 5, 0, 1, 0, 1, 0, 1, 0, 0, 1, 0, 0};
static const uint64_t lost[5] = {0, 2, 3, 0, 0}, untold[5] = {UNTOLD, UNTOLD, UNTOLD, UNTOLD, UNTOLD};
static uint8_t file[ROOM], untouched[ROOM];
static size_t written;
static uint64_t told[5];

static uint32_t write_in(uint32_t alphabet, size_t room) {
    return sobumikeyo_write(learner, 8, reference, 8, alphabet, 1, file, room, &written);
}

static int wrong(const char *what) {
    fprintf(stderr, "from C, by the header: not so: %s\n", what);
    return 1;
}

static void lend(void) {
    memset(file, BLANK, ROOM);
    memset(untouched, BLANK, ROOM);
    written = UNTOLD;
    memcpy(told, untold, sizeof told);
}

// What stands in the file from its beginning on reads back as a sitting of that header.
static int reads_back(const uint8_t *expected) {
    uint32_t shape[4];
    if (sobumikeyo_read(file, written, shape)) return 0;
    for (int i = 0; i < 4; i++)
        if (shape[i] != expected[i]) return 0;
    return 1;
}

static int writing(void) {
    lend();
    if (write_in(1, 0) != SOBUMIKEYO_FILE_OUTSIDE) return wrong("bad values get 15 before a short buffer gets 19");
    if (write_in(2, LENGTH - 1) != SOBUMIKEYO_BUFFER_SHORT) return wrong("a short buffer gets 19");
    if (written != UNTOLD || memcmp(file, untouched, ROOM)) return wrong("a refused call writes nothing");
    if (write_in(2, ROOM) || written != LENGTH) return wrong("the file is written, and its length told");
    if (memcmp(file, header, 4) || memcmp(file + 4, learner, 8) || memcmp(file + 12, reference, 8)) return wrong("the bytes are those of the file");
    if (memcmp(file + LENGTH, untouched, ROOM - LENGTH)) return wrong("bytes past the end stay");
    if (!reads_back(header)) return wrong("what is written reads back as the same sitting");
    return 0;
}

static uint32_t salvage_in(size_t length, size_t room) { return sobumikeyo_salvage(damaged, length, file, room, &written, told); }

static int salvaging(void) {
    lend();
    if (salvage_in(3, 0) != SOBUMIKEYO_ENDS_EARLY) return wrong("a header that ends gets 13 before a short buffer gets 19");
    if (salvage_in(sizeof damaged, sizeof saved - 1) != SOBUMIKEYO_BUFFER_SHORT) return wrong("a short buffer gets 19");
    if (written != UNTOLD || memcmp(told, untold, sizeof told) || memcmp(file, untouched, ROOM)) return wrong("a refused salvage writes nothing");
    if (salvage_in(sizeof damaged, sizeof damaged) || written != sizeof saved) return wrong("the file is saved, and its length told");
    if (memcmp(file, saved, sizeof saved)) return wrong("the bytes are those of what is kept");
    if (memcmp(file + sizeof saved, untouched, ROOM - sizeof saved)) return wrong("bytes past the end of the saved file stay");
    if (memcmp(told, lost, sizeof told)) return wrong("what is missing, dropped and cut off is told");
    if (!reads_back(saved)) return wrong("what is saved reads back");
    return 0;
}

enum { LONGEST = 2048, TOO_MANY = LONGEST + 1, MOST = SOBUMIKEYO_FILE_ROOM(TOO_MANY, TOO_MANY) };

static const uint8_t acts[TOO_MANY]; // all 0
static uint8_t long_file[MOST];
static uint32_t store[SOBUMIKEYO_STORE_SIZE(6)];

static uint32_t open_plainly(size_t store_len, uint32_t depth, uint32_t reservation) {
    return sobumikeyo_open(store, store_len, 0, 2, depth, SOBUMIKEYO_PLAIN_WEIGHT, reservation);
}

static uint32_t write_long(size_t n, size_t m) { return sobumikeyo_write(acts, n, acts, m, 2, 0, long_file, MOST, &written); }

static int longest_files(void) {
    uint32_t shape[4];
    if (write_long(TOO_MANY, 1) != SOBUMIKEYO_FILE_OUTSIDE || write_long(1, TOO_MANY) != SOBUMIKEYO_FILE_OUTSIDE)
        return wrong("samples of 2049 symbols are not written");
    if (write_long(LONGEST, LONGEST) || written != SOBUMIKEYO_FILE_ROOM(LONGEST, LONGEST)) return wrong("samples of 2048 symbols are written");
    if (sobumikeyo_read(long_file, written, shape) || shape[2] != LONGEST || shape[3] != LONGEST) return wrong("they are read");
    long_file[2]++; // the low group of the first length
    if (sobumikeyo_read(long_file, written, shape) != SOBUMIKEYO_FILE_OUTSIDE) return wrong("a length of 2049 is not read");
    return 0;
}

static int longest_samples(void) {
    uint32_t why;
    if (sobumikeyo_make(store, SOBUMIKEYO_STORE_SIZE(1), 1) || open_plainly(SOBUMIKEYO_STORE_SIZE(1), 0, 1)) return wrong("a desk is opened");
    for (uint32_t sample = 0; sample < 2; sample++)
        if (sobumikeyo_feed_all(store, SOBUMIKEYO_STORE_SIZE(1), 0, sample, acts, TOO_MANY, &why) != LONGEST || why != SOBUMIKEYO_SAMPLE_FULL)
            return wrong("2048 symbols are fed, and one more gets 9");
    return 0;
}

enum { TWO = SOBUMIKEYO_STORE_SIZE(2), SHEET = 4 * SOBUMIKEYO_ROW_WIDTH };

static uint32_t sheet[SHEET], blank_sheet[SHEET], rows;
static int64_t score;

static uint32_t feed_and_report(uint32_t sample, size_t sheet_len) {
    if (sobumikeyo_feed(store, TWO, 0, sample, 0)) return UNTOLD;
    return sobumikeyo_report(store, TWO, 0, sheet, sheet_len, 0, &rows, &score);
}

static int short_samples(void) {
    memset(sheet, BLANK, sizeof sheet);
    memset(blank_sheet, BLANK, sizeof blank_sheet);
    rows = UNTOLD;
    score = UNTOLD;
    if (sobumikeyo_make(store, TWO, 2) || open_plainly(TWO, 1, 2)) return wrong("a desk is opened at depth 1");
    if (feed_and_report(0, SHEET) != SOBUMIKEYO_SAMPLE_EMPTY) return wrong("an empty sample gets 11 before one too short gets 24");
    if (feed_and_report(1, SHEET) != SOBUMIKEYO_SAMPLE_SHORT) return wrong("samples of one symbol get 24 at depth 1");
    if (feed_and_report(0, 0) != SOBUMIKEYO_SAMPLE_SHORT) return wrong("one too short gets 24 before a short sheet gets 12");
    if (rows != UNTOLD || score != UNTOLD || memcmp(sheet, blank_sheet, sizeof sheet)) return wrong("a refused report writes nothing");
    if (feed_and_report(1, 0) != SOBUMIKEYO_SHEET_SHORT) return wrong("with two symbols of each a short sheet gets 12");
    if (feed_and_report(1, SHEET) || rows != 1) return wrong("on a sheet that is long enough the report is given");
    return 0;
}

enum { SIX = SOBUMIKEYO_STORE_SIZE(6) };

static uint32_t open_by(uint32_t desk, uint32_t alphabet, uint32_t weight, uint32_t reservation) {
    return sobumikeyo_open(store, SIX, desk, alphabet, 1, weight, reservation);
}

static int too_large_weights(void) {
    static const uint32_t too_large[2] = {SOBUMIKEYO_LARGEST_WEIGHT + 1, UINT32_MAX};
    static uint32_t kept[SIX];
    if (sobumikeyo_make(store, SIX, 6)) return wrong("a store is made for six contexts");
    memcpy(kept, store, sizeof kept);
    for (int i = 0; i < 2; i++) {
        if (open_by(0, 9, too_large[i], 0) != SOBUMIKEYO_OUTSIDE_LIMITS) return wrong("a bad alphabet gets 5 before too large a weight gets 20");
        if (open_by(0, 2, too_large[i], 0) != SOBUMIKEYO_WEIGHT_OUTSIDE) return wrong("too large a weight gets 20 before a bad reservation gets 6");
        if (open_by(0, 2, too_large[i], 6) != SOBUMIKEYO_WEIGHT_OUTSIDE) return wrong("too large a weight gets 20");
    }
    if (memcmp(store, kept, sizeof kept)) return wrong("a refused opening writes nothing");
    return 0;
}

// The sitting of document 01's example at a desk.
static int seated(uint32_t desk, uint32_t weight) {
    uint32_t why;
    if (open_by(desk, 2, weight, 3)) return 0;
    return sobumikeyo_feed_all(store, SIX, desk, 0, learner, 8, &why) == 8 && sobumikeyo_feed_all(store, SIX, desk, 1, reference, 8, &why) == 8;
}

static int reported(uint32_t desk, uint32_t expected_rows, int64_t expected_score) {
    return sobumikeyo_report(store, SIX, desk, sheet, SHEET, 0, &rows, &score) == 0 && rows == expected_rows && score == expected_score;
}

// Eightfold fits, with L(2) 1024, L(3) 1623, L(5) 2377, L(6) 2647, L(8) 3072 and L(14) 3898: of the counts (3, 2) that the reference has after 0,
// the only ones of the two trees of depth 1 with two symbols, and of (8, 6), those of both samples together.
enum { FIT_AFTER_0 = 8 * (3 * 1623 + 2 * 1024 - 5 * 2377), FIT_OF_BOTH = 8 * (8 * 3072 + 6 * 2647 - 14 * 3898) };

static int weights(void) {
    if (too_large_weights()) return 1;
    if (!seated(0, 0) || !seated(1, SOBUMIKEYO_LARGEST_WEIGHT)) return wrong("two desks are opened by two weights");
    if (!reported(0, 4, FIT_AFTER_0)) return wrong("with weight 0 four own contexts cost nothing");
    if (!reported(1, 1, FIT_OF_BOTH - 16 * 4096)) return wrong("with weight 16 one shared context costs 16 L(16)");
    if (sobumikeyo_close(store, SIX, 0) || !seated(0, SOBUMIKEYO_PLAIN_WEIGHT)) return wrong("a desk is opened by another weight");
    if (!reported(0, 3, FIT_AFTER_0 - 4 * (2 * 3072 + 4096))) return wrong("with weight 4 two own contexts cost 4 L(8) each, a shared one 4 L(16)");
    if (!reported(1, 1, FIT_OF_BOTH - 16 * 4096)) return wrong("the neighbour's weight is as it was");
    return 0;
}

int main(void) { return writing() || salvaging() || longest_files() || longest_samples() || short_samples() || weights(); }
