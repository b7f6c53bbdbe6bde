// The soundness test against plain sums of the live records, and the same records under a large and a small K.
#include "sobumikeyo.h"
#include "stores.h"
#include "sum.h"
#include "timing.h"

static volatile uint64_t sink;

static void test(void *with) {
    filled *f = with;
    sink += sobumikeyo_sound(f->numbers, f->len);
}

static void sum_17(void *with) { sink += sum_live(((filled *)with)->numbers); }
static void sum_24(void *with) { sink += sum_whole(((filled *)with)->numbers); }

static void against_sums(uint32_t live) {
    filled f = fill(4096, live, 0);
    int inner = 40000 / live;
    job jobs[] = {{0, test, &f, inner, 0}, {0, sum_17, &f, inner, 0}, {0, sum_24, &f, inner, 0}};
    race_or_count(jobs, 3, 1500);
    line(jobs[0].ns / jobs[1].ns, 4, "soundness test, %u live contexts: times a plain sum of their numbers", f.live);
    line(jobs[0].ns / jobs[2].ns, 0, "    times a plain sum of whole records, unused numbers too");
    line(jobs[0].ns / f.live, 0, "    ns for each context");
}

static void large_and_small(void) {
    filled large = fill(4096, 100, 0), small = fill(128, 100, 0);
    job jobs[] = {{0, test, &large, 400, 0}, {0, test, &small, 400, 0}};
    race_or_count(jobs, 2, 1500);
    double ratio = jobs[0].ns / jobs[1].ns;
    line(ratio > 1 ? ratio : 1 / ratio, 1.10, "soundness test, 100 live contexts: K 4,096 and K 128, larger by smaller");
}

int main(int words, char **word) {
    asked(words, word);
    against_sums(100);
    against_sums(256);
    against_sums(1024);
    against_sums(4096);
    large_and_small();
    return 0;
}
