/* Plans N times, and prints the elapsed and the CPU microseconds of a plan:
 *   calls library N SCENARIO LOG             by calls of the library
 *   calls process N SCENARIO LOG PROGRAM     by processes, which get the log on standard input and write to a file
 * dev/bench/calls.py builds and runs it. */
#include <colregs.h>
#include <fcntl.h>
#include <spawn.h>
#include <stdio.h>
#include <stdlib.h>
#include <string.h>
#include <sys/resource.h>
#include <sys/wait.h>
#include <time.h>
#include <unistd.h>

extern char **environ;

static uint8_t *read_file(const char *name, size_t *length) {
    FILE *file = fopen(name, "rb");
    uint8_t *bytes = malloc(1 << 24);
    if (!file || !bytes) exit(2);
    *length = fread(bytes, 1, 1 << 24, file);
    fclose(file);
    return bytes;
}

static void plan_by_library(const uint8_t *scenario, size_t n, const uint8_t *log, size_t m) {
    static uint8_t out[1 << 16], fault[200];
    struct colregs_options options = COLREGS_NO_OPTIONS;
    size_t length, fault_length;
    if (colregs_report(COLREGS_PLAN, scenario, n, log, m, (const uint8_t *)"", 0, &options, out, sizeof out, &length, fault, sizeof fault, &fault_length) > 1) exit(3);
}

static void plan_by_process(char *program, char *scenario, const char *log) {
    char *words[] = {program, "plan", scenario, NULL};
    posix_spawn_file_actions_t files;
    pid_t child;
    int status;
    posix_spawn_file_actions_init(&files);
    posix_spawn_file_actions_addopen(&files, 0, log, O_RDONLY, 0);
    posix_spawn_file_actions_addopen(&files, 1, "report.csv", O_WRONLY | O_CREAT | O_TRUNC, 0644);
    if (posix_spawn(&child, program, &files, NULL, words, environ) || waitpid(child, &status, 0) != child || !WIFEXITED(status) || WEXITSTATUS(status) > 1) exit(4);
    posix_spawn_file_actions_destroy(&files);
}

/* The CPU time so far of this process or of its children that ended, in microseconds. */
static double cpu(int who) {
    struct rusage usage;
    getrusage(who, &usage);
    return (usage.ru_utime.tv_sec + usage.ru_stime.tv_sec) * 1e6 + usage.ru_utime.tv_usec + usage.ru_stime.tv_usec;
}

int main(int argc, char **argv) {
    struct timespec begin, end;
    double before;
    size_t n, m;
    uint8_t *scenario, *log;
    long count, k;
    if (argc < 5) return 2;
    count = atol(argv[2]);
    scenario = read_file(argv[3], &n);
    log = read_file(argv[4], &m);
    before = cpu(RUSAGE_SELF) + cpu(RUSAGE_CHILDREN);
    clock_gettime(CLOCK_MONOTONIC, &begin);
    for (k = 0; k < count; k++) {
        if (!strcmp(argv[1], "library")) plan_by_library(scenario, n, log, m);
        else plan_by_process(argv[5], argv[3], argv[4]);
    }
    clock_gettime(CLOCK_MONOTONIC, &end);
    printf("%.1f %.1f\n", ((end.tv_sec - begin.tv_sec) * 1e9 + (end.tv_nsec - begin.tv_nsec)) / 1e3 / count, (cpu(RUSAGE_SELF) + cpu(RUSAGE_CHILDREN) - before) / count);
    return 0;
}
