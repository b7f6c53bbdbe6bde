// Writes a sitting file to standard output, each sample of MANY symbols: FILE ALPHABET DEPTH USES NOISE MANY.
#include "stores.h"
#include "timing.h"
#include <stdio.h>
#include <stdlib.h>

int main(int words, char **word) {
    must(words == 6, "an alphabet, a depth, how many symbols are used, the noise, and how many symbols a sample has");
    uint32_t many = atoi(word[5]);
    must(many >= 128 && many <= LONGEST, "a length of two groups of seven bits");
    uint8_t header[] = {atoi(word[1]), atoi(word[2]), 0x80 | many % 128, many / 128, 0x80 | many % 128, many / 128};
    fwrite(header, 1, sizeof header, stdout);
    for (uint32_t drift = 0; drift < 2; drift++) {
        uint8_t text[LONGEST];
        string_of(text, many, (habit){atoi(word[3]), atoi(word[4]), drift});
        fwrite(text, 1, many, stdout);
    }
    return 0;
}
