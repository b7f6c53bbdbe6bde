// Each call at stores of more and more live contexts, under a large and a small K, and against the soundness test.
#include "sobumikeyo.h"
#include "stores.h"
#include "timing.h"

static volatile uint32_t answer;
static const uint8_t run[16] = {0};

static void test(void *with) {
    filled *f = with;
    answer = sobumikeyo_sound(f->numbers, f->len);
}

static void feed_old(void *with) {
    filled *f = with;
    answer = sobumikeyo_feed(f->numbers, f->len, f->old_desk, f->old_sample, 0);
}

static void feed_new(void *with) {
    filled *f = with;
    answer = sobumikeyo_feed(f->numbers, f->len, 0, 0, 0);
}

static void feed_run(void *with) {
    filled *f = with;
    uint32_t why;
    answer = sobumikeyo_feed_all(f->numbers, f->len, 6, 0, run, sizeof run, &why);
}

static void open_7(void *with) {
    filled *f = with;
    answer = sobumikeyo_open(f->numbers, f->len, 7, 4, 4, SOBUMIKEYO_PLAIN_WEIGHT, 1);
}

static void close_0(void *with) {
    filled *f = with;
    answer = sobumikeyo_close(f->numbers, f->len, 0);
}

static void ask_room(void *with) {
    filled *f = with;
    uint32_t left;
    answer = sobumikeyo_room(f->numbers, f->len, &left);
}

// The context of the three most recent symbols of desk 0's first sample.
static void chart(void *with) {
    filled *f = with;
    const uint32_t *recent = f->numbers + 16 + 7;
    uint32_t seen, code = recent[0] + 8 * recent[1] + 64 * recent[2];
    double first, second, gap;
    answer = sobumikeyo_chart(f->numbers, f->len, 0, 3, code, 0, &seen, &first, &second, &gap);
}

enum { CALLS = 8, STORES = 5, FEED_OLD = 1, FEED_NEW = 2 };
static const char *name[CALLS] = {"soundness test", "feed, no new context", "feed, 6 new contexts", "feed_all, 16 symbols",
                                  "open",           "close of desk 0",      "room",                 "chart"};
static void (*const call[CALLS])(void *) = {test, feed_old, feed_new, feed_run, open_7, close_0, ask_room, chart};
static const uint32_t good[CALLS] = {1, 0, 0, sizeof run, 0, 0, 0, 0};
static const uint32_t room[STORES] = {128, 4096, 4096, 4096, 4096}, live[STORES] = {100, 100, 256, 1024, 4080};

// Times all calls at some stores, in one race.
static void time_at(job *jobs, int from, int to) {
    filled f[STORES];
    for (int k = from; k < to; k++) {
        f[k] = fill(room[k], live[k], 1);
        must(f[k].live == live[k] && f[k].adds == DEEPEST, "a store to measure");
        for (int i = 0; i < CALLS; i++) {
            restore(&f[k]);
            call[i](&f[k]);
            must(answer == good[i], name[i]);
            jobs[CALLS * k + i] = (job){restore, call[i], &f[k], 1, 0};
        }
    }
    race_or_count(&jobs[CALLS * from], CALLS * (to - from), live[from] < 1000 ? 8000 : 3000);
}

int main(int words, char **word) {
    job at[STORES][CALLS];
    asked(words, word);
    time_at(at[0], 0, 2);
    for (int k = 2; k < STORES; k++) time_at(at[0], k, k + 1);
    for (int i = 0; i < CALLS; i++) {
        double each[STORES];
        for (int k = 0; k < STORES; k++) each[k] = at[k][i].ns / live[k];
        note("%s, ns for each of 100, 256, 1,024 and 4,080 live contexts: %.2f %.2f %.2f %.2f", name[i], each[1], each[2],
             each[3], each[4]);
        line(each[4] / each[1], 1.25, "    linear: of 4,080 by of 100");
        line(each[1] > each[0] ? each[1] / each[0] : each[0] / each[1], 1.10, "    of 100, K 4,096 and K 128: larger by smaller");
    }
    for (int i = FEED_OLD; i <= FEED_NEW; i++)
        for (int k = 1; k < STORES; k++)
            line(at[k][i].ns / at[k][0].ns, 2, "%s, %u live contexts: times the soundness test", name[i], live[k]);
    return 0;
}
