/* Calls the library with inputs that nobody would hand in: hostile SCENARIO LOG CALLS SEED
 *
 * Each input and each room is a block of its own of exactly its length, so that valgrind or AddressSanitizer sees each byte too far. Each call is made again with room for
 * the whole report. Prints how many calls ended with each status, and ends with status 1 at the first answer that is wrong. */
#include <colregs.h>
#include <stdio.h>
#include <stdlib.h>
#include <string.h>

#define GUARD 0xA5

struct bytes {
    uint8_t *at;
    size_t length;
};

static uint64_t state;
static unsigned long call, ended[256];

static uint64_t next(void) {
    state ^= state << 13;
    state ^= state >> 7;
    state ^= state << 17;
    return state;
}

static size_t below(size_t n) { return n ? (size_t)(next() % n) : 0; }

static void check(int holds, const char *what) {
    if (!holds) {
        printf("hostile: call %lu: %s\n", call, what);
        exit(1);
    }
}

/* A block of exactly this length. malloc(0) may return null, which no pointer may be. */
static struct bytes block(size_t length) {
    struct bytes made = {malloc(length ? length : 1), length};
    check(made.at != NULL, "the test is out of memory");
    return made;
}

static struct bytes copy(struct bytes from) {
    struct bytes made = block(from.length);
    memcpy(made.at, from.at, from.length);
    return made;
}

static struct bytes read_file(const char *name) {
    FILE *file = fopen(name, "rb");
    struct bytes read;
    long length;
    check(file && !fseek(file, 0, SEEK_END) && (length = ftell(file)) >= 0 && !fseek(file, 0, SEEK_SET), name);
    read = block((size_t)length);
    check(fread(read.at, 1, read.length, file) == read.length, name);
    fclose(file);
    return read;
}

/* Bytes that are near these: with some bytes changed, cut off, taken out or repeated; or random; or none. */
static struct bytes near(struct bytes from) {
    struct bytes made;
    size_t k, cut, count;
    switch (below(8)) {
    case 0: /* none, or random bytes */
        made = block(below(3) ? below(600) : 0);
        for (k = 0; k < made.length; k++) made.at[k] = (uint8_t)next();
        return made;
    case 1: /* a prefix */
        made = block(below(from.length + 1));
        memcpy(made.at, from.at, made.length);
        return made;
    case 2: /* a part is missing */
        cut = below(from.length);
        count = below(from.length - cut < 400 ? from.length - cut : 400);
        made = block(from.length - count);
        memcpy(made.at, from.at, cut);
        memcpy(made.at + cut, from.at + cut + count, from.length - cut - count);
        return made;
    case 3: /* a part is there twice */
        cut = below(from.length);
        count = below(from.length - cut < 400 ? from.length - cut : 400);
        made = block(from.length + count);
        memcpy(made.at, from.at, cut + count);
        memcpy(made.at + cut + count, from.at + cut, from.length - cut);
        return made;
    case 4: /* whole */
        return copy(from);
    default: /* some bytes are others */
        made = copy(from);
        for (k = below(9); k > 0 && made.length; k--) {
            static const char likely[] = "0123456789\n,!*=[]\".-$\\xff";
            made.at[below(made.length)] = below(4) ? (uint8_t)likely[below(sizeof likely)] : (uint8_t)next();
        }
        return made;
    }
}

static struct bytes room_of(size_t length) {
    struct bytes room = block(length);
    memset(room.at, GUARD, length);
    return room;
}

/* Makes one call, and compares what it leaves with the promises of the header. */
static void call_with(uint32_t mode, struct bytes scenario, struct bytes log, struct bytes rows, const struct colregs_options *options, size_t room) {
    struct bytes out = room_of(room), line = room_of(below(3) ? 200 : below(40)), whole;
    size_t length = 12345, line_length = 12345, whole_length, k;
    int in_range = mode <= COLREGS_WATCH && (options->start <= 9999999999 || options->start == COLREGS_OWN_START) && options->ticks <= 20000 && options->seed <= 999999 && options->flags <= 1;
    uint8_t again, status = colregs_report(mode, scenario.at, scenario.length, log.at, log.length, rows.at, rows.length, options, out.at, out.length, &length, line.at, line.length, &line_length);
    ended[status]++;
    check(status <= COLREGS_SCENARIO || (status >= COLREGS_LIMIT && status <= COLREGS_ROWS), "a status that cannot be");
    check((status == COLREGS_USAGE) == !in_range, "numbers out of their ranges, and no usage; or the other way round");
    check(status <= COLREGS_NO_MANOEUVRE || status == COLREGS_LIMIT || length == 0, "a fault with a report");
    check((line_length == 0) == (status <= COLREGS_NO_MANOEUVRE), "a line without a fault, or a fault without a line");
    check(line_length == 0 || line_length > line.length || line.at[line_length - 1] == '\n', "a line without its line feed");
    for (k = length; k < out.length; k++) check(out.at[k] == GUARD, "a byte after the report is written");
    for (k = line_length; k < line.length; k++) check(line.at[k] == GUARD, "a byte after the line is written");
    whole = room_of(length);
    again = colregs_report(mode, scenario.at, scenario.length, log.at, log.length, rows.at, rows.length, options, whole.at, whole.length, &whole_length, line.at, 0, &line_length);
    check(again == status && whole_length == length, "the same call ends otherwise");
    check(!memcmp(whole.at, out.at, length < out.length ? length : out.length), "the room does not have the first bytes of the report");
    free(out.at);
    free(line.at);
    free(whole.at);
}

static struct colregs_options some_options(void) {
    struct colregs_options options = COLREGS_NO_OPTIONS;
    if (!below(4)) options.start = below(3) ? 1700000000 + below(4000) : next();
    if (!below(3)) options.ticks = (uint32_t)(below(9) ? below(400) : next());
    if (!below(3)) options.seed = (uint32_t)(below(9) ? below(1000000) : next());
    if (!below(3)) options.flags = (uint32_t)(below(9) ? 1 : next());
    return options;
}

int main(int argc, char **argv) {
    struct colregs_options none = COLREGS_NO_OPTIONS;
    struct bytes scenario, log, rows, empty, huge;
    unsigned long calls, k;
    if (argc != 5) {
        fprintf(stderr, "usage: hostile SCENARIO LOG CALLS SEED\n");
        return 2;
    }
    scenario = read_file(argv[1]);
    log = read_file(argv[2]);
    calls = strtoul(argv[3], NULL, 10);
    state = strtoull(argv[4], NULL, 10) * 0x9E3779B97F4A7C15u + 1;
    empty = block(0);
    rows = block(0);

    /* An empty scenario, an empty log, one of 2 MiB of each, and no room at all. */
    huge = block(2 << 20);
    memset(huge.at, ' ', huge.length);
    for (k = 0; k <= COLREGS_WATCH; k++) {
        call_with((uint32_t)k, empty, log, rows, &none, 100);
        call_with((uint32_t)k, scenario, empty, rows, &none, 100);
        call_with((uint32_t)k, huge, log, rows, &none, 100);
        call_with((uint32_t)k, scenario, huge, rows, &none, 100);
        call_with((uint32_t)k, scenario, log, huge, &none, 100);
        call_with((uint32_t)k, scenario, log, rows, &none, 0);
    }
    free(huge.at);

    for (call = 1; call <= calls; call++) {
        struct bytes some = below(4) ? copy(scenario) : near(scenario), heard = near(log), why = near(log);
        struct colregs_options options = some_options();
        uint32_t mode = (uint32_t)(below(20) ? below(7) : below(3) ? 7 + below(9) : (size_t)next());
        /* A drill of many ticks takes long and shows no more. */
        if (mode == COLREGS_DRILL && options.ticks <= 20000) options.ticks = 1 + (uint32_t)below(20);
        call_with(mode, some, heard, why, &options, below(3) ? below(3000) : below(2));
        free(some.at);
        free(heard.at);
        free(why.at);
    }
    for (k = 0; k < 256; k++)
        if (ended[k]) printf("status %lu: %lu calls\n", k, ended[k]);
    free(scenario.at);
    free(log.at);
    free(rows.at);
    free(empty.at);
    return 0;
}
