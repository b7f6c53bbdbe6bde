#include "sum.h"
#include "stores.h"

uint64_t sum_live(const uint32_t *store) {
    uint64_t sum = 0;
    for (size_t i = 0; i < store[1]; i++) {
        const uint32_t *record = store + HEADER + WIDTH * i;
        for (int j = 0; j < 17; j++) sum += record[j];
    }
    return sum;
}

uint64_t sum_whole(const uint32_t *store) {
    uint64_t sum = 0;
    const uint32_t *records = store + HEADER;
    for (size_t i = 0; i < WIDTH * (size_t)store[1]; i++) sum += records[i];
    return sum;
}
