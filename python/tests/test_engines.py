"""Shares on other real engines: GNU parallel, two nodes of Slurm on this machine, and workers of Dask; a test kills
one."""
import getpass
import os
import shutil
import signal
import socket
import subprocess
import sys
import time
import unittest
from collections.abc import Callable
from typing import Any

import crowd
import test_shares
from given import HANGS, PROGRAM, TOOLS, needs, text_of, with_program
from colregs.shares.engines import Limits, limits_of, ranges
from colregs.shares.jobs import Need

# Each run notes its node, its process and its parent's; the first one on the node n1 or the first worker waits to be
# killed.
SLOW = """#!/bin/sh
if [ "$1" = audit ] && mkdir %(folder)s/once 2>/dev/null; then
  echo "$SLURMD_NODENAME $$ $PPID" > %(folder)s/first.part
  mv %(folder)s/first.part %(folder)s/first
  sleep 600
fi
exec %(program)s "$@"
"""


def free_port() -> int:
    with socket.socket() as one:
        one.bind(("127.0.0.1", 0))
        return int(one.getsockname()[1])


def parent_of(process: int) -> int:
    """Returns the parent of one of our own processes."""
    return int(text_of(f"/proc/{process}/status").split("PPid:")[1].split()[0])


def is_alive(process: int) -> bool:
    """Returns whether a process exists and is not a zombie."""
    try:
        return "State:\tZ" not in text_of(f"/proc/{process}/status")
    except OSError:
        return False


class Engines(test_shares.Shares):
    def until(self, done: Callable[[], bool], what: str) -> None:
        end = time.monotonic() + HANGS
        while time.monotonic() < end:
            if done():
                return
            time.sleep(0.1)
        self.fail(f"not in {HANGS} s: {what}")

    def results(self) -> int:
        folder = self.path("jobs.kept")
        return sum(len(name) == 68 and name.endswith(".csv")
                   for name in os.listdir(folder)) if os.path.isdir(folder) else 0

    def slow_program(self) -> None:
        """Makes a program whose first audit waits."""
        self.used = self.write("slow", SLOW % {"folder": self.folder, "program": PROGRAM})
        os.chmod(self.used, 0o755)

    def joined_is_whole(self) -> None:
        self.assertEqual(crowd.stretches(self.many("join", "jobs")[1]), crowd.stretches(self.whole()))


@with_program
class Parallel(Engines):
    @needs("parallel")
    def test_jobs_without_a_result_run_and_no_others(self) -> None:
        self.plan("--ticks-each", "1000", "--group", "7")
        self.assertIn("3 jobs: 0 were cached, 3 ran, 0 failed", self.many("jobs", "--parallel", "--jobs", "3")[2])
        self.assertEqual(text_of(self.path("jobs.kept/joblog")).count("colregs-many one"), 3)
        self.joined_is_whole()
        name = next(name for name in os.listdir(self.path("jobs.kept")) if len(name) == 68)
        os.truncate(self.path("jobs.kept/" + name), 40)         # what its list of ended jobs calls done
        self.assertIn("3 jobs: 2 were cached, 1 ran, 0 failed", self.many("jobs", "--parallel")[2])
        self.write("s.toml", crowd.harbour() + "# another scenario\n")
        self.assertIn("3 jobs: 0 were cached, 3 ran, 0 failed", self.many("jobs", "--parallel")[2])
        self.joined_is_whole()

    @needs("parallel")
    def test_a_job_that_fails_is_counted(self) -> None:
        self.write("s.toml", crowd.harbour().replace("ticks = 198 ", "ticks = 198000 "))
        self.plan("--ticks", "100")
        self.assertIn("1 job: 0 were cached, 0 ran, 1 failed", self.many("jobs", "--parallel", status=1)[2])


CONFIGURATION = """ClusterName=test
SlurmctldHost={host}(127.0.0.1)
SlurmctldPort={ports[0]}
SlurmUser={user}
SlurmdUser={user}
AuthType=auth/munge
AuthInfo=socket={folder}/munge/socket
CredType=cred/munge
StateSaveLocation={folder}/state
SlurmdSpoolDir={folder}/spool-%n
SlurmctldPidFile={folder}/slurmctld.pid
SlurmdPidFile={folder}/slurmd-%n.pid
SlurmctldLogFile={folder}/slurmctld.log
SlurmdLogFile={folder}/slurmd-%n.log
ProctrackType=proctrack/linuxproc
TaskPlugin=task/none
SwitchType=switch/none
MpiDefault=none
JobAcctGatherType=jobacct_gather/none
AccountingStorageType=accounting_storage/none
SelectType=select/cons_tres
SelectTypeParameters=CR_Core
ReturnToService=2
SlurmdTimeout=5
KillWait=2
SchedulerParameters=batch_sched_delay=0,sched_interval=2
MaxArraySize=4
NodeName=n1 NodeHostname={host} NodeAddr=127.0.0.1 Port={ports[1]} CPUs=2 RealMemory=2000 State=UNKNOWN
NodeName=n2 NodeHostname={host} NodeAddr=127.0.0.1 Port={ports[2]} CPUs=2 RealMemory=2000 State=UNKNOWN
PartitionName=all Nodes=ALL Default=YES MaxTime=INFINITE State=UP
"""


@with_program
class Slurm(Engines):
    """A cluster of two nodes on this machine, all of it in the test's folder."""

    def begin(self) -> None:
        for name in ("munge", "state"):
            os.makedirs(self.path(name), mode=0o700)
        self.write("munge/key", os.urandom(128))
        os.chmod(self.path("munge/key"), 0o600)
        self.write(
            "slurm.conf",
            CONFIGURATION.format(host=socket.gethostname().split(".")[0], user=getpass.getuser(), folder=self.folder,
                                 ports=[free_port() for _ in range(3)]))
        self.around = {**os.environ, "SLURM_CONF": self.path("slurm.conf")}
        munge = [f"--{name}={self.path('munge/' + name)}" for name in ("socket", "pid-file", "log-file", "seed-file")]
        self.daemon("munge/pid-file", "munged", f"--key-file={self.path('munge/key')}", "--force", *munge)
        self.daemon("slurmctld.pid", "slurmctld", "-f", self.path("slurm.conf"))
        for node in ("n1", "n2"):
            self.daemon(f"slurmd-{node}.pid", "slurmd", "-N", node, "-f", self.path("slurm.conf"))
        self.until(lambda: self.slurm("sinfo", "-h", "-o", "%T %D") == "idle 2", "two idle nodes")

    def daemon(self, pid_file: str, *words: str) -> None:
        try:
            subprocess.run(words, check=True, capture_output=True, env=self.around, timeout=300)
        except (OSError, subprocess.SubprocessError) as error:
            self.skipTest(f"{words[0]} does not start here: {getattr(error, 'stderr', b'') or error}")
        self.until(lambda: os.path.exists(self.path(pid_file)) and text_of(self.path(pid_file)).strip() != "", words[0])
        process = int(text_of(self.path(pid_file)))
        self.addCleanup(self.stop, process)

    def stop(self, process: int, number: int = signal.SIGTERM) -> None:
        """Ends one of our own processes, and waits for its end."""
        if is_alive(process):
            os.kill(process, number)
            self.until(lambda: not is_alive(process), f"the end of {process}")

    def slurm(self, *words: str) -> str:
        return subprocess.run(words, check=True, capture_output=True, text=True, env=self.around,
                              timeout=300).stdout.strip()

    def submit(self) -> None:
        """Writes the script, and submits it to Slurm."""
        os.environ["SLURM_CONF"] = self.path("slurm.conf")
        self.addCleanup(lambda: os.environ.pop("SLURM_CONF", None))
        script = self.write("script", self.many("slurm", "jobs", "--memory", "300")[1])
        self.slurm("sh", script)

    @needs("munged")
    @needs("slurmctld")
    @needs("slurmd")
    def test_arrays_a_killed_node_and_a_resubmission(self) -> None:
        self.begin()
        self.slow_program()
        self.assertEqual(len(self.plan("--ticks-each", "1000", "--group", "4")), 5)
        self.submit()
        self.assertIn('--array=1-3 "$0" 0', text_of(self.path("script")))         # MaxArraySize is 4
        self.assertIn('--array=1-2 "$0" 3', text_of(self.path("script")))
        self.until(lambda: os.path.exists(self.path("first")), "the first job")
        node, process, parent = text_of(self.path("first")).split()
        self.until(lambda: self.results() == 4, "the results of the other jobs")
        self.kill_node(node, int(parent), int(process))
        self.until(lambda: self.slurm("squeue", "-h", "-t", "PENDING", "-o", "%A") != "", "the queue has the job of "
                                                                                          f"{node} again")
        for waiting in self.slurm("squeue", "-h", "-t", "PENDING", "-o", "%A").split():
            # Slurm itself waits for two minutes; on a busy machine these may be over, and then it refuses
            subprocess.run(["scontrol", "update", f"JobId={waiting}", "StartTime=now"], capture_output=True,
                           env=self.around, timeout=HANGS)
        self.until(lambda: self.results() == 5, f"the job of {node} on the other node")
        self.joined_is_whole()
        os.remove(next(entry.path for entry in os.scandir(self.path("jobs.kept")) if len(entry.name) == 68))
        self.until(lambda: self.slurm("squeue", "-h") == "", "an empty queue")
        self.submit()
        # only the job whose result is missing
        self.assertEqual(text_of(self.path("script")).count("--array="), 1)
        self.until(lambda: self.results() == 5, "the job that was handed in again")
        self.joined_is_whole()

    def kill_node(self, node: str, tool: int, program: int) -> None:
        """Kills a node's daemon and its one job: the step, the tool and the program."""
        step = parent_of(tool)
        self.assertEqual(text_of(f"/proc/{step}/comm").strip(), "slurmstepd")
        for process in (int(text_of(self.path(f"slurmd-{node}.pid"))), step, tool):
            self.stop(process, signal.SIGKILL)
        self.until(lambda: not is_alive(program), "the end of the program with its tool")


SCHEDULER = """import asyncio, distributed, sys
async def main():
    async with distributed.Scheduler(host="127.0.0.1", port=int(sys.argv[1]), dashboard=False) as one:
        await one.finished()
asyncio.run(main())
"""
WORKER = """import asyncio, distributed, sys
async def main():
    async with distributed.Worker(sys.argv[1], nthreads=1, dashboard=False, local_directory=sys.argv[2]) as one:
        await one.finished()
asyncio.run(main())
"""


def with_dask() -> str | None:
    """Returns a Python that has Dask: this one, or that of Debian's packages."""
    code = "import importlib.util, sys; sys.exit(importlib.util.find_spec('distributed') is None)"
    pythons = [path for path in (sys.executable, "/usr/bin/python3") if os.access(path, os.X_OK)]
    return next((path for path in pythons if subprocess.run([path, "-c", code], capture_output=True).returncode == 0),
                None)


PYTHON = with_dask() or ""


@with_program
@unittest.skipUnless(PYTHON, "python3-distributed is not installed")
class Dask(Engines):
    def begin(self, code: str, *words: str) -> "subprocess.Popen[bytes]":
        child = subprocess.Popen([PYTHON, "-c", code, *words], cwd=self.folder, stdout=subprocess.DEVNULL,
                                 stderr=subprocess.DEVNULL)
        self.addCleanup(child.wait, 30)
        self.addCleanup(child.kill)
        return child

    def test_a_job_whose_worker_is_killed_runs_on_another(self) -> None:
        address = f"tcp://127.0.0.1:{(port := free_port())}"
        self.begin(SCHEDULER, str(port))
        workers = {
            child.pid: child for child in (self.begin(WORKER, address, self.path(f"worker{k}")) for k in range(2))
        }
        self.slow_program()
        self.plan("--ticks-each", "1000", "--group", "4")
        run = subprocess.Popen(
            [PYTHON,
             os.path.join(TOOLS, "colregs-many"), "run", "jobs", "--dask", address, "--program", self.used],
            cwd=self.folder, stderr=subprocess.PIPE)
        self.addCleanup(run.kill)
        self.until(lambda: os.path.exists(self.path("first")), "the first job")
        _, process, tool = map(int, ("0 " + text_of(self.path("first"))).split()[-3:])
        workers[parent_of(tool)].kill()
        os.kill(tool, signal.SIGKILL)
        self.assertIn(b"5 jobs: 0 were cached, 5 ran, 0 failed", run.communicate(timeout=HANGS)[1])
        self.until(lambda: not is_alive(process), "the end of the program with its tool")
        self.joined_is_whole()

    def test_a_scheduler_that_is_not_there(self) -> None:
        self.plan("--ticks-each", "1000")
        words = ["jobs", "--dask", f"tcp://127.0.0.1:{free_port()}", "--program", PROGRAM]
        done = subprocess.run([PYTHON, os.path.join(TOOLS, "colregs-many"), *words], cwd=self.folder,
                              capture_output=True, timeout=HANGS)
        self.assertEqual(done.returncode, 1)
        self.assertIn(b"does not answer", done.stderr)


@with_program
class Ends(Engines):
    def interrupted(self, number: int) -> tuple[int, int, str]:
        """Starts a run whose first audit waits, and ends the tool by a signal; returns its status, the audit's process,
        and its output."""
        self.slow_program()
        self.plan("--ticks-each", "1000", "--group", "4")
        # the tests may run in the background of a shell, which lets its commands ignore SIGINT
        run = subprocess.Popen(
            ["env", "--default-signal=INT", sys.executable,
             os.path.join(TOOLS, "colregs-many"), "jobs", "--jobs", "2", "--program", self.used], cwd=self.folder,
            stderr=subprocess.PIPE, text=True)
        self.addCleanup(run.kill)
        self.until(lambda: os.path.exists(self.path("first")), "the first job")
        run.send_signal(number)
        said = run.communicate(timeout=HANGS)[1]
        return run.returncode, int(text_of(self.path("first")).split()[-2]), said

    def folders(self) -> list[str]:
        return [name for name in os.listdir(self.path("jobs.kept")) if name.startswith("run.")]

    def test_children_and_folders_end_with_a_tool_that_is_interrupted(self) -> None:
        for number in (signal.SIGINT, signal.SIGTERM):
            status, process, said = self.interrupted(number)
            self.assertEqual((status, said), (130, ""))
            self.until(lambda: not is_alive(process), "the end of the audit")
            self.assertEqual(self.folders(), [])
            os.remove(self.path("first"))
            os.rmdir(self.path("once"))
            shutil.rmtree(self.path("jobs.kept"))

    def test_children_end_with_a_tool_that_is_killed_and_the_next_run_removes_its_folders(self) -> None:
        status, process, _ = self.interrupted(signal.SIGKILL)
        self.assertEqual(status, -9)
        self.until(lambda: not is_alive(process), "the end of the audit")
        self.assertGreater(len(self.folders()), 0)
        os.makedirs(self.path("jobs.kept/run.another-machine.1.x"))
        self.many("jobs")
        self.assertEqual(self.folders(), ["run.another-machine.1.x"])            # nobody knows yet whether it is dead
        os.utime(self.path("jobs.kept/run.another-machine.1.x"), (0, 0))
        self.many("jobs")
        self.assertEqual(self.folders(), [])

    def test_a_folder_that_cannot_be_written_is_named(self) -> None:
        self.plan("--ticks-each", "1000")
        self.write("file", "")
        for words in (("jobs", "--kept", "file/kept"), ("one", "jobs", "1", "--kept", "file/kept"), ("join", "jobs",
                                                                                                     "--kept", "file")):
            error = self.many(*words, status=1)[2]
            self.assertIn("file", error)
            self.assertIn("cannot write", error)
            self.assertNotIn("standard output", error)


@with_program
class Scripts(Engines):
    def test_commands_run_one_job_each(self) -> None:
        self.plan("--ticks-each", "1000", "--group", "10")
        for command in self.many("commands", "jobs")[1].splitlines():
            subprocess.run(["sh", "-c", command], check=True, timeout=300)
        self.assertIn("2 were cached, 0 ran", self.many("jobs")[2])

    def test_a_task_of_an_array_runs_the_job_of_its_number(self) -> None:
        self.plan("--ticks-each", "1000", "--group", "4")
        script = self.write("script", self.many("slurm", "jobs", "--tasks", "3")[1])
        self.assertIn("#SBATCH --mem=512M\n#SBATCH --time=240\n", text_of(script))
        for first, places in ((3, "21"), (0, "312")):
            for place in places:
                subprocess.run(["sh", script, str(first)], check=True, env={**os.environ, "SLURM_ARRAY_TASK_ID": place},
                               cwd=self.folder, timeout=300)
        self.joined_is_whole()
        text, error = self.many("slurm", "jobs")[1:]
        self.assertNotIn("--array", text)
        self.assertIn("0 of 5 jobs have no result: each gets 128 MB and 10 minutes", error)

    def test_limits_follow_the_measured_needs(self) -> None:
        cases: list[tuple[list[Any], Limits]] = [([], Limits(512, 240, 9)),
                                                 ([Need(30, 40000), Need(600, 39000)], Limits(192, 50, 9))]
        for needs_, limits in cases:
            self.assertEqual(limits_of(needs_, 9), limits)
        self.assertEqual(ranges([1, 2, 3, 5, 7, 8]), "1-3,5,7-8")
