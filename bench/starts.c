// Two programs on one file, from start to end: STARTS PROGRAM OTHER FILE BOUND WHAT.
#include "timing.h"
#include <fcntl.h>
#include <spawn.h>
#include <stdlib.h>
#include <sys/wait.h>

extern char **environ;

static const char *file;

// Runs a program on the file and waits for its end; what it prints goes nowhere.
static void start(void *with) {
    char *program = with, *words[] = {program, 0};
    posix_spawn_file_actions_t with_files;
    pid_t child;
    int status;
    posix_spawn_file_actions_init(&with_files);
    posix_spawn_file_actions_addopen(&with_files, 0, file, O_RDONLY, 0);
    posix_spawn_file_actions_addopen(&with_files, 1, "/dev/null", O_WRONLY, 0);
    must(posix_spawn(&child, program, &with_files, 0, words, environ) == 0, "a program started");
    must(waitpid(child, &status, 0) == child && status == 0, "a program that ends with 0");
    posix_spawn_file_actions_destroy(&with_files);
}

int main(int words, char **word) {
    must(words == 6, "two programs, a file, a bound and what is measured");
    file = word[3];
    job jobs[] = {{0, start, word[1], 1, 0}, {0, start, word[2], 1, 0}};
    race(jobs, 2, 500);
    line(jobs[0].ns / jobs[1].ns, atof(word[4]), "%s: times plain C", word[5]);
    line(jobs[0].ns / 1000, 0, "    microseconds");
    return 0;
}
