/* The program colregs as a library: a scenario and a log in memory in, the report of one mode out.
 *
 * What you may rely on, for every scenario, log and room (each point is a clause of the contract of the crate colregs_c, and proved):
 *   - If the status is COLREGS_DONE or COLREGS_NO_MANOEUVRE, the report is exactly the one that docs/PROVED.md defines for the scenario and the log, the same bytes that
 *     the program writes. The status is the one that is due. Only out of memory, COLREGS_OUT_OF_MEMORY, may take its place.
 *   - `out` holds the first bytes of the report, as many as fit, and is unchanged after them. `*length` is the length of the whole report. `fault` and
 *     `*fault_length` hold the line of standard error in the same way, with its line feed; it is empty if the status is 0 or 1.
 *   - Nothing else is written. The same call gives the same bytes again.
 *
 * What you owe, which nothing checks:
 *   - Each pointer is valid for its length, and not null, even for zero bytes: pass "" for nothing. `options`, `length` and `fault_length` are aligned.
 *   - `out`, `fault`, `length` and `fault_length` overlap nothing else that is passed, and nobody reads or writes them during the call. Nobody writes the inputs during the call.
 *   - malloc, realloc and free come from one allocator, and malloc aligns a block to each power of two up to 16 that divides its size.
 *   - No call comes from a signal handler, or from the forked child of a process with threads.
 *   - The thread has enough stack: COLREGS_STACK bytes. No proof covers the stack.
 *
 * Threads: any number of threads may call at the same time. The library has no state, starts no thread, takes no lock, and opens no file.
 */
#ifndef COLREGS_H
#define COLREGS_H

#include <stddef.h>
#include <stdint.h>

#ifdef __cplusplus
extern "C" {
#endif

/* The number of the interface that this header describes; colregs_interface returns that of the library. */
#define COLREGS_INTERFACE 1

/* The modes, which docs/REPORT.md describes. */
enum colregs_mode {
    COLREGS_POINTS = 0,
    COLREGS_AUDIT = 1,
    COLREGS_PLAN = 2,
    COLREGS_DRILL = 3,
    COLREGS_MIGRATE = 4,
    COLREGS_RECHECK = 5,
    COLREGS_WATCH = 6
};

/* How a call ends: the exit status of the program. A call meets no failed read or write, so the statuses 4 to 6 do not occur. */
enum colregs_status {
    COLREGS_DONE = 0,          /* the whole report is written */
    COLREGS_NO_MANOEUVRE = 1,  /* the same, and every plan of own ship fails */
    COLREGS_USAGE = 2,         /* the mode or an option is out of its range */
    COLREGS_SCENARIO = 3,      /* the scenario is refused; the line names the key and the cause */
    COLREGS_LIMIT = 7,         /* the scenario, the log, the rows, the vessels, the pairs or the targets are too many; the report is what was settled before */
    COLREGS_OUT_OF_MEMORY = 8, /* memory ran out; the report is empty */
    COLREGS_OWN = 9,           /* own ship cannot be planned for; the line says what she lacks */
    COLREGS_ROWS = 10          /* the rows do not show that there is no plan; the line names the first that is wrong */
};

/* Stands for the start of the window that the scenario sets. */
#define COLREGS_OWN_START UINT64_MAX
/* Stands for the length of the window that the scenario sets. */
#define COLREGS_OWN_TICKS 0
/* Asks a plan to say why every plan fails, if every plan does. */
#define COLREGS_WHY 1

/* The options of a call. The drill alone uses the seed, and the plan alone the flags. */
struct colregs_options {
    uint64_t start; /* seconds since 1970-01-01 00:00 UTC, at most 9999999999, or COLREGS_OWN_START */
    uint32_t ticks; /* the length of the window, 1 to 20000, or COLREGS_OWN_TICKS */
    uint32_t seed;  /* at most 999999 */
    uint32_t flags; /* 0 or COLREGS_WHY */
};

/* The options of the program called with none. */
#define COLREGS_NO_OPTIONS { COLREGS_OWN_START, COLREGS_OWN_TICKS, 1, 0 }

/* A stack that the calls of the tests did not use up, in bytes. */
#define COLREGS_STACK (512 * 1024)

/* Returns COLREGS_INTERFACE of the library. */
uint32_t colregs_interface(void);

/* Writes the report of a mode on a log to `out`, and returns the status.
 *
 * `log` is read by the modes points, audit, plan, recheck and watch; the others ignore it. `rows` are the rows `why` of a plan, which recheck checks; the others ignore it.
 * To learn the length alone, pass a room of zero bytes. */
uint8_t colregs_report(uint32_t mode,
                       const uint8_t *scenario, size_t scenario_length,
                       const uint8_t *log, size_t log_length,
                       const uint8_t *rows, size_t rows_length,
                       const struct colregs_options *options,
                       uint8_t *out, size_t room, size_t *length,
                       uint8_t *fault, size_t fault_room, size_t *fault_length);

#ifdef __cplusplus
}
#endif

#endif
