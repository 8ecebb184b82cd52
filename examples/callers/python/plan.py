#!/usr/bin/env python3
"""Plans a manoeuvre for own ship: plan.py SCENARIO LOG

Writes the report to standard output and the line of a fault to standard error, and exits with the status, as the
program does. COLREGS_LIBRARY names the library; python/colregs of this repository has to be installed or on PYTHONPATH.
"""
import sys
from pathlib import Path

import colregs


def main() -> int:
    if len(sys.argv) != 3:
        print("usage: plan.py SCENARIO LOG", file=sys.stderr)
        return 20
    report = colregs.report("plan", Path(sys.argv[1]), Path(sys.argv[2]), whole=False)
    if report.fault:
        print(report.fault, file=sys.stderr)
    sys.stdout.buffer.write(report.text)
    sys.stdout.flush()
    return report.status


if __name__ == "__main__":
    sys.exit(main())
