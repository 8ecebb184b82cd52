"""Preliminary alarms of the live page: the program's result for the lines so far, until it settles or is withdrawn."""
import unittest
from typing import Any

import crowd
import passing
from given import PROGRAM, with_program
from live_server import Live, WithLive, has_aiohttp
from web_socket import WebSocket
from colregs.io.sentences import class_a

# broken while the log ends within a minute of an encounter's beginning, and not broken by what comes then
FORMULA = '\n[[formula]]\nname = "stays"\ntext = "begin -> G[0,60] engaged"\n'
BEFORE = crowd.START - 320                  # a beginning of windows, before the crowd's first line
EARLY, LATER, LATEST = 135, 255, 900        # s: the encounter has begun; r14a is broken, and has not settled; it has


def turns() -> list[tuple[int, str]]:
    """Returns seconds and reports of the two vessels that pass; each reports every half minute in turn, so one is
    always known for longer than the other."""
    reports = []
    for second in range(0, LATEST, 15):
        if second % 30:
            fields = class_a(passing.WEST, (1000, 30000 - 30 * second, 108, 2700, 270, second % 60))
        else:
            fields = class_a(passing.EAST, (0, 30 * second, 108, 900, 90, second % 60))
        reports.append((second, passing.line(second, fields)))
    return reports


def between(first: int, last: int) -> str:
    """Returns the reports from a second to before another."""
    return "".join(line for second, line in turns() if first <= second < last)


@with_program
@unittest.skipUnless(has_aiohttp(), "python3-aiohttp is not installed")
class Preliminaries(WithLive):
    def answered(self, server: Live, count: int) -> None:
        """Waits until the program has answered about all of this number of lines."""
        def is_answered() -> bool:
            told = server.json("/healthz")
            return bool(told["lines"] == count and told["answered"] == server.json("/api/vessels")["clock"])

        self.until(is_answered, "no answer came")

    def states(self, server: Live) -> dict[tuple[int, str], str]:
        """Returns the states of all alarms, by the vessel that is bound and the rule."""
        alarms = server.json("/api/alarms")["alarms"]
        found = {(alarm["subject"], alarm["rule"]): alarm["state"] for alarm in alarms}
        self.assertEqual(len(found), len(alarms))
        return found

    @staticmethod
    def spans(server: Live) -> set[tuple[Any, ...]]:
        """Returns pair, rule, first and last second of the alarms that are not withdrawn."""
        return {(alarm["subject"], alarm["other"], alarm["rule"], alarm["first"], alarm["last"])
                for alarm in server.json("/api/alarms")["alarms"] if alarm["state"] != "withdrawn"}

    def test_an_alarm_is_preliminary_and_then_settled_or_withdrawn(self) -> None:
        self.write("s.toml", passing.SCENARIO + FORMULA)
        self.write("log", "")
        server = self.live("--log", "log")
        browser = WebSocket(server.port)
        self.addCleanup(browser.close)
        counts = [0]
        found = []
        for first, last in ((0, EARLY), (EARLY, LATER), (LATER, LATEST)):
            self.grow("log", between(first, last))
            counts.append(counts[-1] + between(first, last).count("\n"))
            self.answered(server, counts[-1])
            if last == LATEST:
                self.until(lambda: "settled" in self.states(server).values())
            found.append(self.states(server))
        pair = passing.EAST, passing.WEST
        self.assertEqual(found[0], {(mmsi, "stays"): "preliminary" for mmsi in pair})
        self.assertEqual(found[1], {(mmsi, rule): state
                                    for mmsi in pair
                                    for rule, state in (("stays", "withdrawn"), ("r14a", "preliminary"))})
        self.assertEqual({key: found[2][key] for key in found[1]},
                         {(mmsi, rule): state
                          for mmsi in pair
                          for rule, state in (("stays", "withdrawn"), ("r14a", "settled"))})
        alarms = server.json("/api/alarms")["alarms"]
        while any(alarm["state"] != browser.alarms.get(alarm["id"], {}).get("state") for alarm in alarms):
            browser.take()
        for alarm in alarms:            # one item through all its states
            self.assertEqual(browser.came.count(alarm["id"]), 1)
        withdrawn = next(alarm for alarm in alarms if alarm["state"] == "withdrawn")
        self.assertLess(withdrawn["expected_at"], withdrawn["withdrawn_at"])

    def test_answers_by_groups_are_those_of_all_pairs(self) -> None:
        log = crowd.log(100, 8000)
        self.write("s.toml", crowd.SCENARIO)
        self.write("log", log)
        server = self.live("--log", "log", "--group", "40")
        self.answered(server, log.count("\n"))
        window = ["--start", str(BEFORE), "--ticks", "500", "--ticks-each", "600"]
        plan = self.within("colregs-many", "plan", "s.toml", "log", *window, "--group", "25", "--program", PROGRAM)
        self.write("jobs", plan[1])
        self.within("colregs-many", "jobs", "--program", PROGRAM)
        rows = self.within("colregs-many", "join", "jobs", "--program", PROGRAM)[1].splitlines()
        wanted = {expected(row) for row in rows if row.startswith("verdict,") and ",broken," in row}
        self.assertGreater(len(wanted), 100)
        try:
            self.until(lambda: self.spans(server) == wanted)        # the earliest arrive as settled ones
        except AssertionError:
            self.assertEqual(self.spans(server), wanted)
        told = server.json("/healthz")
        self.assertEqual((told["answer_fault"], told["fault"]), ("", ""))
        self.assertTrue(any("split by subjects" in line for line in server.said))


def expected(row: str) -> tuple[Any, ...]:
    """Returns the alarm of a row of a broken rule."""
    _, subject, other, rule, _, first, last = row.split(",")[:7]
    return int(subject), int(other), rule, BEFORE + int(first) * crowd.TICK, BEFORE + (int(last) + 1) * crowd.TICK


if __name__ == "__main__":
    unittest.main()
