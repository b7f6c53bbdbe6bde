// Sitting files that are written, against the same in plain C with the same checks and with none; both must write the same bytes.
#include "plain.h"
#include "sobumikeyo.h"
#include "stores.h"
#include "timing.h"
#include <string.h>

enum { FEW = 64, TOO_MANY = LONGEST + 1, ROOM = SOBUMIKEYO_FILE_ROOM(TOO_MANY, TOO_MANY), INNER = 40, ROUNDS = 2000 };

static uint8_t file[ROOM], plain[ROOM];
static size_t length, plain_length;
static volatile uint64_t sink;

static void library(void *with) {
    const recording *r = with;
    sink += sobumikeyo_write(r->sample[0], r->size[0], r->sample[1], r->size[1], r->alphabet, r->depth, file, ROOM, &length);
}

static void checked(void *with) { sink += plain_write(with, plain, ROOM, &plain_length); }
static void unchecked(void *with) { sink += plain_file(with, plain); }

// The same answer, length and bytes, those past the end too, with so many bytes lent.
static void agree_in(recording r, size_t room) {
    memset(file, 0xee, ROOM), memset(plain, 0xee, ROOM);
    length = plain_length = ROOM + 1;
    uint32_t one = sobumikeyo_write(r.sample[0], r.size[0], r.sample[1], r.size[1], r.alphabet, r.depth, file, room, &length);
    uint32_t two = plain_write(&r, plain, room, &plain_length);
    must(one == two && length == plain_length, "answer and length as in plain C");
    must(memcmp(file, plain, ROOM) == 0, "bytes as in plain C");
}

// Lengths of one group and of two, the largest and one more, each in too few bytes, in enough and in more.
static void agree(recording r) {
    static const size_t sizes[] = {0, 1, 127, 128, LONGEST, TOO_MANY};
    for (int i = 0; i < 36; i++) {
        r.size[0] = sizes[i / 6], r.size[1] = sizes[i % 6];
        for (size_t header = 0; header <= 6; header++) agree_in(r, header + r.size[0] + r.size[1]);
    }
}

static uint8_t text[2][TOO_MANY];

static recording of(size_t many) { return (recording){{text[0], text[1]}, {many, many}, 4, 4}; }

int main(int words, char **word) {
    asked(words, word);
    for (uint32_t i = 0; i < 2; i++) string_of(text[i], TOO_MANY, (habit){4, 4, i});
    // the symbols are 0 to 3: alphabets of 2 and 3 are refused where one is not below them, those of 1 and 9 and the depth 7 always
    for (uint32_t alphabet = 1; alphabet <= 9; alphabet++)
        for (uint32_t depth = 6; depth <= 7; depth++) agree((recording){{text[0], text[1]}, {0, 0}, alphabet, depth});
    recording usual = of(USUAL), shorter = of(FEW), longest = of(LONGEST);
    job jobs[] = {{0, library, &usual, INNER, 0}, {0, checked, &usual, INNER, 0}, {0, unchecked, &usual, INNER, 0},
                  {0, library, &shorter, INNER, 0}, {0, library, &longest, INNER, 0}};
    race_or_count(jobs, 5, ROUNDS);
    double each = jobs[0].ns / (2 * USUAL), each_of_few = jobs[3].ns / (2 * FEW), each_of_longest = jobs[4].ns / (2 * LONGEST);
    line(jobs[0].ns / jobs[1].ns, 3, "writing a sitting file, 512 + 512 symbols: times plain C, which checks too");
    line(jobs[0].ns / jobs[2].ns, 0, "    times plain C, which checks nothing");
    line(each, 0, "    ns for each symbol");
    line(each / each_of_few, 1.25, "    time for each symbol, 512 + 512 symbols by 64 + 64");
    line(each_of_longest / each_of_few, 1.25, "    time for each symbol, 2,048 + 2,048 symbols by 64 + 64");
    return 0;
}
