// Jobs timed against each other, and the lines of the table.
#pragma once

// A call with its argument, made `inner` times in one timing. `before` (or NULL) runs before each timing, untimed.
typedef struct {
    void (*before)(void *);
    void (*call)(void *);
    void *with;
    int inner;
    double ns;
} job;

// Times the jobs in turn, round after round, and leaves each one's best time for one call in `ns`.
void race(job *jobs, int many, int rounds);

// As `race`; but where the program was started as `PROGRAM count NUMBER`, it makes the call of the job of that number once,
// within `counted`, and ends the program, for a tool that counts instructions.
void race_or_count(job *jobs, int many, int rounds);
void counted(const job *j);
void asked(int words, char **word);

// A line: what was measured, the number, and the bound beside it (0: there is none).
void line(double measured, double bound, const char *what, ...);
// A line of text alone.
void note(const char *what, ...);
// Ends the program where something that was measured did not do its work.
void must(int done, const char *what);
