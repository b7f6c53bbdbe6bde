#include "timing.h"
#include <stdarg.h>
#include <stdio.h>
#include <stdlib.h>
#include <string.h>
#include <time.h>

static int wanted = -1; // the number of the job to count
static int passed = 0;  // how many jobs came before

static double now_ns(void) {
    struct timespec t;
    clock_gettime(CLOCK_MONOTONIC, &t);
    return t.tv_sec * 1e9 + t.tv_nsec;
}

// What reading the clock twice takes.
static double clock_cost(void) {
    double least = 1e18;
    for (int i = 0; i < 1000; i++) {
        double start = now_ns(), took = now_ns() - start;
        if (took < least) least = took;
    }
    return least;
}

void race(job *jobs, int many, int rounds) {
    double cost = clock_cost();
    for (int i = 0; i < many; i++) jobs[i].ns = 1e18;
    for (int round = 0; round < rounds; round++) {
        for (int i = 0; i < many; i++) {
            job *j = &jobs[i];
            if (j->before) j->before(j->with);
            double start = now_ns();
            for (int k = 0; k < j->inner; k++) j->call(j->with);
            double took = (now_ns() - start - cost) / j->inner;
            if (took < j->ns) j->ns = took;
        }
    }
}

__attribute__((noinline)) void counted(const job *j) {
    j->call(j->with);
    __asm__ volatile("" ::: "memory");
}

void race_or_count(job *jobs, int many, int rounds) {
    if (wanted < 0) {
        race(jobs, many, rounds);
        return;
    }
    if (wanted < passed + many) {
        job *j = &jobs[wanted - passed];
        if (j->before) j->before(j->with);
        counted(j);
        exit(0);
    }
    passed += many;
}

void asked(int words, char **word) {
    if (words == 3 && strcmp(word[1], "count") == 0) wanted = atoi(word[2]);
}

void line(double measured, double bound, const char *what, ...) {
    va_list rest;
    if (wanted >= 0) return;
    va_start(rest, what);
    char text[160];
    vsnprintf(text, sizeof text, what, rest);
    va_end(rest);
    if (bound > 0) printf("%-76s %9.2f %6.2f  %s\n", text, measured, bound, measured <= bound ? "within" : "above");
    else printf("%-76s %9.2f\n", text, measured);
}

void note(const char *what, ...) {
    va_list rest;
    if (wanted >= 0) return;
    va_start(rest, what);
    vprintf(what, rest);
    va_end(rest);
    printf("\n");
}

void must(int done, const char *what) {
    if (done) return;
    fprintf(stderr, "bench: failed: %s\n", what);
    exit(1);
}
