"""When the reports about a window's beginning show that two vessels are not engaged."""
import drawn_logs
from given import InFolder
from colregs.model.scenario import Scenario
from colregs.shares.partings import parted

BEGIN, METRE = drawn_logs.START, 10000


class Parted(InFolder):
    def tick(self, *places: tuple[int, int]) -> int | None:
        """Returns the tick at which a vessel is known to have left another one that lies at the origin, as a number."""
        # a gap of 200 s, and a watch of 3000 m
        scenario = Scenario(self.write("s.toml", drawn_logs.scenario_text(100)))
        still = [(BEGIN + second, "0,0,0,") for second in range(0, 1001, 20)]
        going = [(BEGIN + second, f"{x * METRE},0,50,900") for second, x in places]
        found = parted(still, going, (BEGIN, BEGIN + 700), scenario)
        return None if found is None else (found - BEGIN) // drawn_logs.TICK

    def test_past_and_clear_is_farther_than_the_watch_and_not_nearer_in_the_step(self) -> None:
        self.assertEqual(self.tick((0, 2900), (100, 3000), (200, 3100), (400, 3300), (600, 3500), (800, 3700)), 12)
        self.assertEqual(self.tick(*((second, 5000 - second) for second in range(0, 1001, 50))), None)
        self.assertEqual(self.tick(*((second, 1000 + second) for second in range(0, 1001, 50))), None)

    def test_a_vessel_that_is_not_seen_at_a_tick_is_not_engaged(self) -> None:
        self.assertEqual(self.tick((0, 100), (100, 100), (301, 100), (500, 100), (700, 100), (900, 100)), 11)
        self.assertEqual(self.tick((0, 100), (100, 100), (300, 100), (500, 100), (700, 100), (900, 100)), None)
        self.assertEqual(self.tick(), 0)
