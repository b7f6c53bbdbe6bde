// Reports: by contexts and symbols, and in stores of more and more live contexts.
#include "sobumikeyo.h"
#include "stores.h"
#include "timing.h"

enum { SHEET = 11 * 40000 };

static uint32_t sheet[SHEET], rows;
static int64_t score;
static volatile uint64_t sink;

static void report(void *with) {
    filled *f = with;
    sink += sobumikeyo_report(f->numbers, f->len, 0, sheet, SHEET, 0, &rows, &score);
}

static void test(void *with) {
    filled *f = with;
    sink += sobumikeyo_sound(f->numbers, f->len);
}

static double by_context(uint32_t contexts, habit h) {
    filled f = new_store(4096);
    open_and_fill(&f, 0, DEEPEST, contexts, h);
    job jobs[] = {{0, report, &f, 4, 0}, {0, test, &f, 4, 0}};
    race_or_count(jobs, 2, 1500);
    double each = jobs[0].ns / f.live / 8;
    line(each, 0, "report on %u contexts, A 8, D 6: ns for each context and symbol", f.live);
    line(rows, 0, "    rows");
    line(jobs[0].ns / jobs[1].ns, 0, "    times its soundness test");
    return each;
}

int main(int words, char **word) {
    asked(words, word);
    double few = by_context(150, (habit){8, 100, 0}), many = by_context(4096, (habit){8, 1, 0});
    line(many / few, 1.25, "report: time for each context and symbol, many contexts by 150");
    filled small = fill(4096, 100, 0), large = fill(4096, 4096, 0);
    job jobs[] = {{0, report, &small, 4, 0}, {0, report, &large, 1, 0}};
    race_or_count(jobs, 2, 1500);
    line(jobs[1].ns / jobs[0].ns, 60, "report on desk 0 of 6: 4,096 live contexts by 100 live");
    return 0;
}
