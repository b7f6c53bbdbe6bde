// Calls at stores with as many live contexts at one desk as at seven.
#include "sobumikeyo.h"
#include "stores.h"
#include "timing.h"
#include <string.h>

enum { ROOM = 4096, LIVE = 1400, CALLS = 5, MOST_DESKS = 7 };

static uint32_t sheet[11 * 4096], rows;
static int64_t score;
static volatile uint64_t sink;

static void test(void *with) {
    filled *f = with;
    sink += sobumikeyo_sound(f->numbers, f->len);
}

// Symbol 0 to desk 0's first sample, which has room for one more symbol's contexts.
static void feed(void *with) {
    filled *f = with;
    sink += sobumikeyo_feed(f->numbers, f->len, 0, 0, 0);
}

static void ask_room(void *with) {
    filled *f = with;
    uint32_t left;
    sink += sobumikeyo_room(f->numbers, f->len, &left);
}

static void chart(void *with) {
    filled *f = with;
    uint32_t seen;
    double first, second, gap;
    sink += sobumikeyo_chart(f->numbers, f->len, 0, 0, 0, 0, &seen, &first, &second, &gap);
}

static void report(void *with) {
    filled *f = with;
    sink += sobumikeyo_report(f->numbers, f->len, 0, sheet, sizeof sheet / sizeof *sheet, 0, &rows, &score);
}

static const char *name[CALLS] = {"soundness test", "feed", "room", "chart", "report on desk 0"};
static void (*const call[CALLS])(void *) = {test, feed, ask_room, chart, report};

// LIVE contexts, shared out among so many desks; desk 0 may have a few more.
static filled at_desks(uint32_t desks) {
    filled f = new_store(ROOM);
    for (uint32_t desk = desks; desk-- > 0;) {
        uint32_t quota = LIVE * (desks - desk) / desks - f.numbers[1];
        open_and_fill(&f, desk, DEEPEST, quota, (habit){MOST_DESKS, 2, 0});
    }
    *reservation(&f, 0) += 2 * DEEPEST;
    memcpy(f.kept, f.numbers, f.len * sizeof *f.kept);
    must(sobumikeyo_sound(f.numbers, f.len), "a sound store");
    must(sobumikeyo_feed(f.numbers, f.len, 0, 0, 0) == 0, "a feed");
    restore(&f);
    return f;
}

int main(int words, char **word) {
    asked(words, word);
    filled one = at_desks(1), seven = at_desks(MOST_DESKS);
    note("live contexts at one desk and at seven: %u and %u", one.live, seven.live);
    job jobs[2 * CALLS];
    for (int i = 0; i < CALLS; i++) {
        jobs[2 * i] = (job){restore, call[i], &one, 1, 0};
        jobs[2 * i + 1] = (job){restore, call[i], &seven, 1, 0};
    }
    race_or_count(jobs, 2 * CALLS, 2000);
    for (int i = 0; i < CALLS; i++)
        line(jobs[2 * i + 1].ns / seven.live / (jobs[2 * i].ns / one.live), 0, "%s, for each live context: seven desks open by one", name[i]);
    return 0;
}
