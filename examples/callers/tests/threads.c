/* Calls the library from several threads at once: threads SCENARIO LOG THREADS CALLS STACK
 *
 * Each thread has a stack of STACK bytes and makes CALLS calls, in each mode in turn. Each answer has to be that of one thread alone. */
#include <colregs.h>
#include <limits.h>
#include <pthread.h>
#include <stdio.h>
#include <stdlib.h>
#include <string.h>

#define MODES 7
#define ROOM (1 << 18)

static uint8_t *scenario, *heard;
static size_t scenario_length, heard_length;
static unsigned long calls;

struct answer {
    uint8_t status;
    size_t length, line_length;
    uint8_t *report, line[200];
};

static struct answer alone[MODES];

static uint8_t *read_file(const char *name, size_t *length) {
    FILE *file = fopen(name, "rb");
    uint8_t *bytes = malloc(1 << 22);
    if (!file || !bytes) exit(2);
    *length = fread(bytes, 1, 1 << 22, file);
    fclose(file);
    return bytes;
}

static void answer_mode(uint32_t mode, struct answer *to) {
    struct colregs_options options = COLREGS_NO_OPTIONS;
    options.ticks = mode == COLREGS_DRILL ? 60 : COLREGS_OWN_TICKS;
    memset(to->line, 0, sizeof to->line);
    to->status = colregs_report(mode, scenario, scenario_length, heard, heard_length, (const uint8_t *)"", 0, &options, to->report, ROOM, &to->length, to->line, sizeof to->line, &to->line_length);
}

static void *call_often(void *wrong) {
    struct answer mine;
    unsigned long k;
    mine.report = malloc(ROOM);
    if (!mine.report) exit(2);
    for (k = 0; k < calls; k++) {
        const struct answer *it = &alone[k % MODES];
        answer_mode((uint32_t)(k % MODES), &mine);
        if (mine.status != it->status || mine.length != it->length || mine.line_length != it->line_length || memcmp(mine.line, it->line, sizeof mine.line) ||
            memcmp(mine.report, it->report, mine.length < ROOM ? mine.length : ROOM))
            *(int *)wrong = 1;
    }
    free(mine.report);
    return NULL;
}

int main(int argc, char **argv) {
    pthread_t thread[64];
    pthread_attr_t attributes;
    int wrong[64] = {0}, some_wrong = 0, many, k;
    if (argc != 6 || (many = atoi(argv[3])) < 1 || many > 64) {
        fprintf(stderr, "usage: threads SCENARIO LOG THREADS CALLS STACK\n");
        return 2;
    }
    scenario = read_file(argv[1], &scenario_length);
    heard = read_file(argv[2], &heard_length);
    calls = strtoul(argv[4], NULL, 10);
    for (k = 0; k < MODES; k++) {
        alone[k].report = malloc(ROOM);
        if (!alone[k].report) return 2;
        answer_mode((uint32_t)k, &alone[k]);
    }
    pthread_attr_init(&attributes);
    if (pthread_attr_setstacksize(&attributes, strtoul(argv[5], NULL, 10))) {
        fprintf(stderr, "threads: no stack of %s bytes\n", argv[5]);
        return 2;
    }
    for (k = 0; k < many; k++)
        if (pthread_create(&thread[k], &attributes, call_often, &wrong[k])) return 2;
    for (k = 0; k < many; k++) {
        pthread_join(thread[k], NULL);
        some_wrong |= wrong[k];
    }
    for (k = 0; k < MODES; k++) free(alone[k].report);
    free(scenario);
    free(heard);
    printf("%d threads, %lu calls each: %s\n", many, calls, some_wrong ? "an answer is another than that of one thread" : "the answers of one thread");
    return some_wrong;
}
