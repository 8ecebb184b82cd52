/* Plans a manoeuvre for own ship: plan SCENARIO LOG
 *
 * Writes the report to standard output and the line of a fault to standard error, and exits with the status, as the program does.
 *   cc plan.c $(pkg-config --cflags --libs colregs) -o plan
 */
#include <colregs.h>
#include <stdio.h>
#include <stdlib.h>

struct bytes {
    uint8_t *at;
    size_t length;
};

/* Reads a file whole, or ends the program. */
static struct bytes read_file(const char *name) {
    struct bytes read = {malloc(1), 0};
    size_t room = 1, count;
    FILE *file = fopen(name, "rb");
    if (!file || !read.at) {
        fprintf(stderr, "plan: cannot read %s\n", name);
        exit(20);
    }
    while ((count = fread(read.at + read.length, 1, room - read.length, file)) > 0) {
        read.length += count;
        if (read.length == room) {
            uint8_t *more = realloc(read.at, room *= 2);
            if (!more) {
                fprintf(stderr, "plan: out of memory at %s\n", name);
                exit(20);
            }
            read.at = more;
        }
    }
    if (ferror(file)) {
        fprintf(stderr, "plan: cannot read %s\n", name);
        exit(20);
    }
    fclose(file);
    return read;
}

int main(int argc, char **argv) {
    struct colregs_options options = COLREGS_NO_OPTIONS;
    struct bytes scenario, log;
    uint8_t fault[200], *report = NULL;
    size_t room = 4096, length, fault_length;
    int status;

    if (argc != 3) {
        fprintf(stderr, "usage: plan SCENARIO LOG\n");
        return 20;
    }
    if (colregs_interface() != COLREGS_INTERFACE) {
        fprintf(stderr, "plan: the library has interface %u and the header %d; build again\n", (unsigned)colregs_interface(), COLREGS_INTERFACE);
        return 20;
    }
    scenario = read_file(argv[1]);
    log = read_file(argv[2]);
    do {
        free(report);
        report = malloc(room);
        if (!report) {
            fprintf(stderr, "plan: out of memory\n");
            return 20;
        }
        status = colregs_report(COLREGS_PLAN, scenario.at, scenario.length, log.at, log.length, (const uint8_t *)"", 0, &options, report, room, &length, fault, sizeof fault, &fault_length);
        /* The room was too small: the second call has one that fits. */
    } while (length > room && (room = length));
    fwrite(fault, 1, fault_length < sizeof fault ? fault_length : sizeof fault, stderr);
    if (fwrite(report, 1, length, stdout) != length || fflush(stdout)) {
        fprintf(stderr, "plan: cannot write the report\n");
        status = 20;
    }
    free(report);
    free(scenario.at);
    free(log.at);
    return status;
}
