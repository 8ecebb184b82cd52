"""What to do at each limit of the program (docs/REPORT.md), for every command that runs it."""
STATUS = 7                          # the exit status of a run that exceeds a limit
STEPS = {
    "scenario": "a scenario has at most 1 MiB: shorten it",
    "log": "a run reads at most `log.max_bytes` bytes, at most 1 GiB: split the log, or use `colregs-many`, which "
           "cuts it",
    "vessels": "a run allows 4096 vessels: use a smaller area or a shorter window, or `colregs-many`, which splits "
               "the audit (`--tiles` plans that)",
    "pairs": "a run allows 4096 ordered pairs in contact: name `subjects`, use a smaller `detect.watch` or a shorter "
             "window, or `colregs-many`, which splits the audit",
    "targets": "a plan allows 64 targets: use a smaller `own.range`",
    "rows": "a recheck reads at most 16 MiB of rows",
}


def limit_of(words: str) -> str:
    """Returns the name of the limit in a line on standard error, or an empty text."""
    parts = words.split()
    return parts[1] if len(parts) > 1 and parts[0] == "limit:" else ""


def next_step(status: int, words: str) -> str:
    """Returns a colon and what to do if a run exceeded a limit, otherwise an empty text. `words` is its line on
    standard error."""
    name = limit_of(words)
    return f": {STEPS[name]}" if status == STATUS and name in STEPS else ""
