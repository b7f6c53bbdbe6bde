// Damaged sitting files that are salvaged, against the same in plain C with the same checks; both must save and tell the same.
#include "plain.h"
#include "sobumikeyo.h"
#include "stores.h"
#include "timing.h"
#include <string.h>

enum { FEW = 64, ROOM = SOBUMIKEYO_FILE_ROOM(LONGEST, LONGEST), AFTER = 3, INNER = 40, ROUNDS = 2000 };

typedef struct {
    uint8_t bytes[ROOM + AFTER];
    size_t many;
} damaged;

// What is lent to a salvage.
typedef struct {
    uint8_t file[ROOM];
    size_t written;
    uint64_t told[5];
} lent;

static uint8_t text[2][LONGEST];
static lent ours, plains;
static uint32_t answers[SOBUMIKEYO_BUFFER_SHORT + 1]; // how often each was given
static volatile uint64_t sink;

static uint32_t library_in(const damaged *d, size_t room) {
    return sobumikeyo_salvage(d->bytes, d->many, ours.file, room, &ours.written, ours.told);
}

static uint32_t plain_in(const damaged *d, size_t room) {
    return plain_salvage(d->bytes, d->many, plains.file, room, &plains.written, plains.told);
}

static void library(void *with) { sink += library_in(with, ROOM); }
static void plain(void *with) { sink += plain_in(with, ROOM); }

// The same answer, length, five numbers and bytes, those past the end too, with so many bytes lent.
static void agree_in(const damaged *d, size_t room) {
    memset(&ours, 0xee, sizeof ours), memset(&plains, 0xee, sizeof plains);
    uint32_t answer = plain_in(d, room);
    must(library_in(d, room) == answer, "answer as in plain C");
    must(memcmp(&ours, &plains, sizeof ours) == 0, "bytes, length and losses as in plain C");
    answers[answer]++;
}

// In more bytes than are enough, and in turn in just enough or in one too few.
static void agree(const damaged *d, size_t turn) {
    agree_in(d, ROOM);
    if (plains.written <= ROOM) agree_in(d, plains.written - turn % 2);
    else agree_in(d, 0); // a refused header: no length was told
}

// The sitting file of beginnings of the two strings, and bytes after it.
static damaged file_of(size_t n, size_t m) {
    damaged d = {{0}, 0};
    d.many = plain_file(&(recording){{text[0], text[1]}, {n, m}, 4, DEEPEST}, d.bytes) + AFTER;
    return d;
}

static void agree_cut(damaged d) {
    for (; d.many > 0; d.many--) agree(&d, d.many);
    agree(&d, 0);
}

// Each byte in turn is another: 37 is odd, so that all 256 values come up.
static void agree_spoilt(damaged d) {
    for (size_t place = 0; place < d.many; place++) {
        uint8_t was = d.bytes[place];
        d.bytes[place] = 37 * place + 1;
        agree(&d, place / 2);
        d.bytes[place] = was;
    }
}

// Each byte of a header of six has every value.
static void agree_headers(damaged d) {
    for (size_t i = 0; i < 6 * 256; i++) {
        uint8_t *byte = &d.bytes[i / 256], was = *byte;
        *byte = i % 256;
        agree(&d, i);
        *byte = was;
    }
}

// Lengths of one group and of two; those of the headers are at the limit and above it.
static void agree_all(void) {
    static const size_t sizes[][2] = {{0, 0}, {1, 127}, {127, 128}, {128, 1}, {0, 128}, {USUAL, USUAL}};
    for (int i = 0; i < 6; i++) {
        damaged d = file_of(sizes[i][0], sizes[i][1]);
        agree_cut(d);
        agree_spoilt(d);
        d.bytes[d.many / 3] = 4; // no symbol
        agree_cut(d);
    }
    damaged d = file_of(LONGEST, LONGEST);
    agree_headers(d);
    d.bytes[1] = 0; // the depth; read as the second group of an alphabet it is not shortest
    agree_headers(d);
    must(answers[0] && answers[13] && answers[14] && answers[15] && answers[19], "every answer is given");
}

// A file without its last symbol, so that all others are kept.
static damaged ending(size_t many) {
    damaged d = file_of(many, many);
    d.many -= AFTER + 1;
    return d;
}

int main(int words, char **word) {
    asked(words, word);
    for (uint32_t i = 0; i < 2; i++) string_of(text[i], LONGEST, (habit){4, 4, i});
    agree_all();
    damaged usual = ending(USUAL), shorter = ending(FEW), longest = ending(LONGEST);
    job jobs[] = {{0, library, &usual, INNER, 0}, {0, plain, &usual, INNER, 0}, {0, library, &shorter, INNER, 0},
                  {0, library, &longest, INNER, 0}};
    race_or_count(jobs, 4, ROUNDS);
    double each = jobs[0].ns / usual.many, each_of_few = jobs[2].ns / shorter.many, each_of_longest = jobs[3].ns / longest.many;
    line(jobs[0].ns / jobs[1].ns, 3, "salvaging a sitting file, 512 + 512 symbols: times plain C, which checks too");
    line(each, 0, "    ns for each byte");
    line(each / each_of_few, 1.25, "    time for each byte, 512 + 512 symbols by 64 + 64");
    line(each_of_longest / each_of_few, 1.25, "    time for each byte, 2,048 + 2,048 symbols by 64 + 64");
    return 0;
}
