// Each call of this library by the same call of another build of it, timed in turn.
#include "side.h"
#include <stdio.h>

enum { QUICK = 1000, SLOW = 50 };

static int same_report(answer a, answer b) { return a.rows == b.rows && a.score == b.score && a.sum == b.sum; }

int main(int words, char **word) {
    job now[CASES], before[CASES];
    answer of_now[SHAPES], of_before[SHAPES];
    asked(words, word);
    side_now(now, of_now);
    side_before(before, of_before);
    for (int k = 0; k < SHAPES; k++) {
        shape s = shapes[k];
        note("A %u, D %u, %u contexts, %u rows; before it %u and %u: %s", s.alphabet, s.depth, of_now[k].contexts, of_now[k].rows,
             of_before[k].contexts, of_before[k].rows,
             same_report(of_now[k], of_before[k]) ? "the same rows and score" : "ANOTHER REPORT");
        for (int i = 0; i < CALLS; i++) {
            job pair[] = {now[CALLS * k + i], before[CALLS * k + i]};
            race_or_count(pair, 2, i == FEEDS ? SLOW : QUICK);
            line(pair[0].ns / pair[1].ns, 0, "    %s: times as long as before (%.0f ns by %.0f)", calls[i], pair[0].ns, pair[1].ns);
        }
    }
    return 0;
}
