#!/usr/bin/env python3
"""Refuses each allocation of a run in turn: allocations.py PROGRAM [--most N] [RUN ..]

RUN is one or more of points, audit, plan, drill and migrate; the default is each of them. The program runs once to
count its allocations, and then once for each allocation, with only that one refused: a small library, which the C
compiler makes from this script, stands before the allocator. A run must end with the right answer and the right bytes,
or with the status of out of memory (8), of a failed write (6) or of arguments that the system does not provide (20)
after a prefix of the right bytes. Every other end has a line, and then the status is 1. Of more than --most allocations
(3000) that many are tried, evenly spread. `points` and `audit` read logs of several blocks.
"""
import argparse
import collections
import os
import subprocess
import sys
import tempfile

HERE = os.path.dirname(os.path.abspath(__file__))
EXAMPLES = os.path.join(os.path.dirname(os.path.dirname(HERE)), "examples")
RUNS = {
    "points": ("harbour.toml", "harbour.log"),
    "audit": ("harbour_of_twenty.toml", "harbour_of_twenty.log"),
    "plan": ("giving_way.toml", "giving_way.log"),
    "drill": ("harbour.toml", None),
    "migrate": ("harbour.toml", None),
}
SHIM = r"""
#define _GNU_SOURCE
#include <dlfcn.h>
#include <errno.h>
#include <stdio.h>
#include <stdlib.h>
static unsigned long count, refused;
static void begin(void) __attribute__((constructor));
static void begin(void) { const char *n = getenv("REFUSED"); refused = n ? strtoul(n, 0, 10) : 0; count = 0; }
static void finish(void) __attribute__((destructor));
static void finish(void) {
    unsigned long counted = count;
    const char *name = getenv("COUNTED");
    FILE *out = name ? fopen(name, "w") : 0;
    if (out) { fprintf(out, "%lu", counted); fclose(out); }
}
static int is_refused(void) { if (++count != refused) return 0; errno = ENOMEM; return 1; }
void *malloc(size_t n) {
    static void *(*next)(size_t);
    if (!next) next = dlsym(RTLD_NEXT, "malloc");
    return is_refused() ? 0 : next(n);
}
void *realloc(void *p, size_t n) {
    static void *(*next)(void *, size_t);
    if (!next) next = dlsym(RTLD_NEXT, "realloc");
    return is_refused() ? 0 : next(p, n);
}
void *aligned_alloc(size_t a, size_t n) {
    static void *(*next)(size_t, size_t);
    if (!next) next = dlsym(RTLD_NEXT, "aligned_alloc");
    return is_refused() ? 0 : next(a, n);
}
int posix_memalign(void **p, size_t a, size_t n) {
    static int (*next)(void **, size_t, size_t);
    if (!next) next = dlsym(RTLD_NEXT, "posix_memalign");
    return is_refused() ? ENOMEM : next(p, a, n);
}
"""


def main() -> int:
    words = argparse.ArgumentParser(description=__doc__, formatter_class=argparse.RawDescriptionHelpFormatter)
    words.add_argument("program")
    words.add_argument("--most", type=int, default=3000)
    words.add_argument("runs", nargs="*", metavar="RUN", default=list(RUNS))
    asked = words.parse_args()
    bad = 0
    with tempfile.TemporaryDirectory() as room:
        with open(f"{room}/shim.c", "w") as source:
            source.write(SHIM)
        subprocess.run(
            [os.environ.get("CC", "cc"), "-O1", "-shared", "-fPIC", "-o", f"{room}/shim.so", f"{room}/shim.c", "-ldl"],
            check=True)

        def once(run: str, refused: int) -> tuple[int, bytes]:
            scenario, log = RUNS[run]
            known = {**os.environ, "LD_PRELOAD": f"{room}/shim.so", "REFUSED": str(refused), "COUNTED": f"{room}/count"}
            with open(f"{EXAMPLES}/{log}" if log else os.devnull, "rb") as source:
                ended = subprocess.run([asked.program, run, f"{EXAMPLES}/{scenario}"], stdin=source,
                                       capture_output=True, env=known, timeout=60)
            return ended.returncode, ended.stdout

        for run in asked.runs:
            right = once(run, 0)
            with open(f"{room}/count") as source:
                count = int(source.read())
            step = max(1, -(-count // asked.most))
            ends = collections.Counter[str]()
            for refused in range(1, count + 2, step):
                status, out = once(run, refused)
                is_right = (status, out) == right
                if not is_right and (status not in (6, 8, 20) or not right[1].startswith(out)):
                    bad = 1
                    print(f"{run}: allocation {refused}: status {status}, {len(out)} bytes, where {right[0]} and "
                          f"{len(right[1])} are right")
                ends["the right answer" if is_right else f"status {status}"] += 1
            print(f"{run}: {count} allocations; " + ", ".join(f"{n} times {end}" for end, n in sorted(ends.items())))
    return bad


if __name__ == "__main__":
    sys.exit(main())
