// The program in plain C with no checks: reads a sitting file from standard input and prints its report.
#include "plain.h"
#include "sobumikeyo.h" // only what the plain weight is; nothing of the library is called
#include <stdio.h>

enum { INPUT = 4608, ROWS = 512, ROW = 11 };

static uint8_t file[INPUT];
static uint32_t sheet[ROW * ROWS];
static trie sitting;

// The next number of the file: one group of seven bits, or two.
static uint32_t number(const uint8_t **at) {
    uint32_t low = *(*at)++;
    return low < 128 ? low : low - 128 + 128 * *(*at)++;
}

int main(void) {
    int64_t score;
    const uint8_t *at = file;
    if (fread(file, 1, INPUT, stdin) == 0) return 1;
    uint32_t alphabet = number(&at), depth = number(&at), n = number(&at), m = number(&at);
    plain_logarithms(n + m);
    plain_start(&sitting, alphabet, depth, SOBUMIKEYO_PLAIN_WEIGHT);
    plain_feed_all(&sitting, 0, at, n);
    plain_feed_all(&sitting, 1, at + n, m);
    uint32_t rows = plain_report(&sitting, sheet, &score);
    printf("%u %u %u %u %u %lld\n", alphabet, depth, n, m, rows, (long long)score);
    for (const uint32_t *row = sheet; row < sheet + ROW * rows; row += ROW) {
        printf("%u %u %u", row[0], row[1], row[2]);
        for (uint32_t a = 0; a < alphabet; a++) printf(" %u", row[3 + a]);
        putchar('\n');
    }
    return 0;
}
