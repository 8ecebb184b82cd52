"""Proves the crates that the program depends on, in parallel, and builds the program: ./colregs --prove [--each
SECONDS]

The kit's `rattle build` proves a crate and writes the library that the crates above it read. A crate starts once those
below it are proved, in the order of the longest path of sources above it, and uses the processors that no other crate
waits for. Finished proofs are cached in crates/colregs/out/rlib with the hash of everything that they read, even if you
interrupt the run. Every 20 seconds a line on standard error names the crates in progress.

It is not the gate: that is `rt ci`, which checks more, tries wrong bodies and runs the tests. Why not `rt` itself:
`rt ci` gives one processor to a crate for which the others wait, and not every kit caches its proofs. `rt all check`
gives each crate one processor, and reads all sources first. `rt lib` waits for each other `rt` below it.
"""
from __future__ import annotations

import argparse
import glob
import hashlib
import os
import re
import shutil
import subprocess
import sys
import tempfile
import time
from typing import Dict, List, Optional, Set

from .children import EACH, Child, processors
from .kit import SETTINGS, Kit, asked
from .program import PROVED, alone, stamp
from .repository import NO_PROGRAM, PROGRAM, TOP, Fault, crates_of, files_of, listed_crates, path_of, read_if_there, say
from .sums import Record, sums

# Here `rt` allows sources in the folder of libraries; it makes no library of the program, and the gate ignores them.
PLACE = path_of("crates", PROGRAM, "out", "rlib")
MOST_JOBS = 4                    # the most processors that were tried for one crate
# The facts that the last line of a proof may state. Others are refused: they may name something that HANDLES does not
# allow, such as a bound by which a function need not return.
EXPECTED = {
    "logic", "functions", "axioms", "target", "cpu", "sum", "native", "logic-built", "libraries-built", "statements"
}


class Crate:
    """A crate that the program depends on: the crates of the repository that it names, those of the kit, and the size
    of its sources in bytes."""

    def __init__(self, name: str, listed: Dict[str, List[str]]):
        self.name, self.below = name, [it for it in listed[name] if it in listed]
        self.of_kit = ["std"] + [it for it in listed[name] if it not in listed]
        self.library, self.length = os.path.join(PLACE, name + ".rlib"), sum(map(os.path.getsize, self.files()))

    def files(self) -> List[str]:
        """Returns the paths of the crate's files that a proof reads."""
        return files_of(self.name, "src", "specs", "proofs")

    def sum(self, line: str, below: Dict[str, str]) -> str:
        """Returns the hash of everything that a proof of the crate reads: the kit's line, the crate's sources, and the
        hashes of the crates below it."""
        made = hashlib.sha256(repr((line, self.of_kit, [(it, below[it]) for it in self.below])).encode())
        for file in self.files():
            with open(file, "rb") as source:
                made.update(repr((os.path.relpath(file, TOP), source.read())).encode())
        return made.hexdigest()


def path_lengths(crates: Dict[str, Crate]) -> Dict[str, int]:
    """Returns the bytes of sources on the longest path from each crate up to the program."""
    lengths = {name: 0 for name in crates}
    for name in reversed(list(crates)):
        lengths[name] += crates[name].length
        for below in crates[name].below:
            lengths[below] = max(lengths[below], lengths[name])
    return lengths


class Proof:
    """A running proof."""

    def __init__(self, crate: Crate, kit: Kit, room: str, jobs: int):
        self.crate, self.jobs, self._begun = crate, jobs, time.monotonic()
        self._said = tempfile.TemporaryFile("w+", errors="replace")
        self.made = os.path.join(room, crate.name + (".o" if crate.name == PROGRAM else ".rlib"))
        words = ["--crate-name", crate.name, "src/main.rt" if crate.name == PROGRAM else "src/lib.rt"]
        for name in crate.of_kit:
            words += ["--extern", "%s=%s/rlibs/%s.rlib" % (name, kit.folder, name)]
        for name in crate.below:
            words += ["--extern", "%s=%s" % (name, os.path.join(PLACE, name + ".rlib"))]
        words += ["-L", "dependency=%s/rlibs" % kit.folder, "-L", "dependency=" + PLACE]
        words += [
            "--antt-project", kit.folder + "/rattle/logic/antt-project.json", "--logic-built",
            kit.folder + "/logic_built"
        ]
        words += ["--jobs", str(jobs), "--links", crate.name + "="]
        words += ["--toolchain", kit.folder
                  + "/toolchain", "--backend", "llvm"] if crate.name == PROGRAM else ["--statements"]
        self._child = Child([kit.tool("bin", "rattle"), "build", *words, "-o", self.made], self._said,
                            path_of("crates", crate.name), SETTINGS)

    def seconds(self) -> int:
        """Returns the whole seconds since the proof began."""
        return int(time.monotonic() - self._begun)

    def has_ended(self) -> bool:
        """Returns whether the proof has ended."""
        return self._child.run.poll() is not None

    def words(self) -> str:
        """Returns the output of the proof so far."""
        self._said.seek(0)
        return self._said.read()

    def why_not(self) -> Optional[str]:
        """Returns the fault of a proof that has ended, or None."""
        verdict = re.findall(r"^logic=.*$", self.words(), re.M)[-1:]
        if self._child.run.returncode or not verdict or not verdict[0].startswith("logic=proved "):
            return "is not proved"
        beyond = [it for it in verdict[0].split() if it.partition("=")[0] not in EXPECTED]
        return "is refused, since its proof also states " + " ".join(beyond) if beyond else None

    def stop(self) -> None:
        """Kills the proof."""
        self._child.stop()


class Work:
    """All proofs: cached, running and waiting ones."""

    def __init__(self, kit: Kit, line: str):
        listed = listed_crates()
        self.crates = {name: Crate(name, listed) for name in crates_of(PROGRAM, listed)}
        self.sources = sums("src", "specs", "proofs")
        self._kit, self._line, self._lengths, self._processors = kit, line, path_lengths(self.crates), processors()
        self.at_work: List[Proof] = []
        self.proved: Set[str] = set()
        self._sums: Dict[str, str] = {}
        for name, crate in self.crates.items():
            self._sums[name] = crate.sum(line, self._sums)
            # A library is valid only together with those that it was made from.
            is_valid = os.path.isdir(crate.library) and read_if_there(crate.library + ".sum") == self._sums[name]
            if is_valid and set(crate.below) <= self.proved:
                self.proved.add(name)

    def _begin(self, room: str) -> None:
        """Starts the proofs that can start, the longest path first, each with its share of the free processors."""
        known = self.proved | {it.crate.name for it in self.at_work}
        ready = sorted((it for it in self.crates.values() if it.name not in known and set(it.below) <= self.proved),
                       key=lambda it: -self._lengths[it.name])
        for k, crate in enumerate(ready):
            free = self._processors - sum(it.jobs for it in self.at_work)
            if free < 1:
                break
            self.at_work.append(Proof(crate, self._kit, room, max(1, min(MOST_JOBS, free // (len(ready) - k)))))

    def _end(self, proof: Proof) -> None:
        """Caches the results of a proof. Raises Fault if the proof failed."""
        self.at_work.remove(proof)
        why = proof.why_not()
        if why:
            sys.stderr.write("".join(proof.words().splitlines(True)[-40:]))
            raise Fault("%s %s" % (proof.crate.name, why))
        if proof.crate.sum(self._line, self._sums) != self._sums[proof.crate.name]:
            raise Fault("%s was changed while it was proved" % proof.crate.name)
        self.proved.add(proof.crate.name)
        if proof.crate.name != PROGRAM:
            shutil.rmtree(proof.crate.library, ignore_errors=True)
            os.replace(proof.made, proof.crate.library)
            with open(proof.crate.library + ".sum", "w", encoding="utf-8") as kept:
                kept.write(self._sums[proof.crate.name])

    def _progress(self) -> str:
        at_work = sorted(self.at_work, key=lambda it: -it.seconds())
        return "; ".join(
            "crate %d of %d, %s, %d s" % (len(self.proved) + k + 1, len(self.crates), it.crate.name, it.seconds())
            for k, it in enumerate(at_work))

    def finish(self, room: str, each: float) -> None:
        """Runs the remaining proofs, and reports progress every `each` seconds. Raises Fault if a proof fails."""
        latest = time.monotonic()
        while len(self.proved) < len(self.crates):
            self._begin(room)
            time.sleep(0.1)
            for proof in [it for it in self.at_work if it.has_ended()]:
                self._end(proof)
            if self.at_work and time.monotonic() - latest >= each:
                latest = time.monotonic()
                say(self._progress())


def put(kit: Kit, made: str, sources: Dict[str, str], begun: int) -> None:
    """Links the program and moves it into place, so that no other run sees an incomplete file. Raises Fault if linking
    fails, or if a source changed meanwhile."""
    new = PROVED + ".new"
    linked = subprocess.run(kit.link([made], new), stdin=subprocess.DEVNULL, stdout=subprocess.PIPE,
                            stderr=subprocess.STDOUT, errors="replace", universal_newlines=True)
    if linked.returncode:
        sys.stderr.write(linked.stdout)
        raise Fault("the program is proved and could not be linked")
    if sums("src", "specs", "proofs") != sources:
        raise Fault("a source was changed while the program was proved; run ./colregs --prove again")
    stamp(new, begun)
    Record(PROVED).write(sources, new)
    os.replace(new, PROVED)


def prove(each: float) -> None:
    """Proves and builds. Raises Fault if that fails; caches the finished proofs."""
    begun, kit, line = time.time_ns(), Kit(), asked("version")
    os.makedirs(PLACE, exist_ok=True)
    with alone(PLACE):
        for left in glob.glob(os.path.join(glob.escape(PLACE), "at-work-*")):
            shutil.rmtree(left, ignore_errors=True)
        room = tempfile.mkdtemp(prefix="at-work-", dir=PLACE)
        work = Work(kit, line)
        try:
            say("proving %d crates side by side; the proofs of %d others are cached, as each will be that is finished" %
                (len(work.crates) - len(work.proved), len(work.proved)))
            work.finish(room, each)
            put(kit, os.path.join(room, PROGRAM + ".o"), work.sources, begun)
            say("all %d crates are proved, and the program is built" % len(work.crates))
        except (Fault, OSError):
            say("%d of %d crates are proved and cached" % (len(work.proved), len(work.crates)))
            raise
        finally:
            for proof in work.at_work:
                proof.stop()
            shutil.rmtree(room, ignore_errors=True)


def main(words: List[str]) -> int:
    """Runs `./colregs --prove` with these arguments, and returns its exit status."""
    parser = argparse.ArgumentParser(prog="colregs --prove", description=__doc__,
                                     formatter_class=argparse.RawDescriptionHelpFormatter)
    parser.add_argument("--each", type=float, default=EACH, help="seconds between two lines of progress")
    try:
        prove(parser.parse_args(words).each)
    except KeyboardInterrupt:
        say("stopped; finished proofs are cached")
        return 130
    except (Fault, OSError) as fault:
        say(str(fault))
        return NO_PROGRAM
    return 0
