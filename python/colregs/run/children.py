"""Child processes that always end with the command that started them: each has a process group, and a shell kills the
groups that are left.

The shell reads the groups from a pipe that only the command holds open, so it also notices if the command is killed.
"""
import os
import signal
import subprocess
import threading
from typing import Any

WATCH = """trap '' INT HUP TERM
groups=" "
while read -r word group; do
  case $word in
    begin) groups="$groups$group " ;;
    end) groups="${groups%% "$group" *} ${groups#* "$group" }" ;;
  esac
done
for group in $groups; do kill -s KILL -- "-$group" 2>/dev/null; done
"""


class Children:
    """The process groups that a command has started, and the shell that watches them."""

    def __init__(self) -> None:
        self.lock = threading.Lock()
        self.groups: set[int] = set()
        self.watch: subprocess.Popen[bytes] | None = None
        self.ending = False

    def started(self, words: list[str], **streams: Any) -> "subprocess.Popen[bytes]":
        """Starts a command in a process group of its own."""
        with self.lock:
            if self.ending:
                raise KeyboardInterrupt
            child = subprocess.Popen(words, process_group=0, **streams)
            self.groups.add(child.pid)
            self.tell("begin", child.pid)
        return child

    def ended(self, child: "subprocess.Popen[bytes]") -> None:
        """Notes that a child has ended and was waited for."""
        with self.lock:
            self.groups.discard(child.pid)
            self.tell("end", child.pid)

    def tell(self, word: str, group: int) -> None:
        """Writes to the shell that a group began or ended."""
        if self.watch is None:
            self.watch = subprocess.Popen(["sh", "-c", WATCH], stdin=subprocess.PIPE, stdout=subprocess.DEVNULL,
                                          stderr=subprocess.DEVNULL, process_group=0)
        assert self.watch.stdin is not None
        try:
            self.watch.stdin.write(f"{word} {group}\n".encode())
            self.watch.stdin.flush()
        except OSError:
            # something killed the shell: if the command is killed too, its children stay
            pass

    def run(self, words: list[str], **streams: Any) -> "subprocess.CompletedProcess[bytes]":
        """Runs a command to its end, as `subprocess.run` does."""
        child = self.started(words, **streams)
        try:
            out, error = child.communicate()
        finally:
            self.ended(child)
        return subprocess.CompletedProcess(words, child.returncode, out, error)

    def kill(self) -> None:
        """Kills all groups; nothing starts after that."""
        with self.lock:
            self.ending = True
            for group in self.groups:
                try:
                    os.killpg(group, signal.SIGKILL)
                except ProcessLookupError:
                    pass                                    # it has ended but was not waited for yet


CHILDREN = Children()
