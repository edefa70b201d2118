"""A desk that comes to its limits by acts alone: `tools/run.py --only limits-full`, by hand.

One has 65,535 requests in 1,000 stacks, 1,000 procedures of 100 steps, 10,000 executions, and comes to 990,000 rows of the history by cycles of
five acts. On another 58,248 activities ride at the same time, or those of so many inserts as --count says. Each line, and all tables, are
compared with the plain desk.
"""
import tempfile

from generate import limit_cycles as cycles
from tests.asked import ASKED
from tests.limit_desks import Beside
from tests.runs import Tried, quick_folder


SECONDS = 6 * 3600  # for a script of 60,000 lines, on a machine that does much besides


class FullLimits(Tried):
    """Desks that come to their limits."""

    def setUp(self) -> None:
        """A folder to work in."""
        folder = tempfile.TemporaryDirectory(prefix="limits-", dir=quick_folder())
        self.addCleanup(folder.cleanup)
        self.work = folder.name

    def test_moves(self) -> None:
        """990,000 rows, each made by an act."""
        it = Beside(ASKED.program, self.work, cycles.MOVE_FILES, seconds=SECONDS)
        it.day("the entries", cycles.entry_day())
        for number, lines in enumerate(cycles.move_days(), 1):
            desk = it.day(f"script {number}", lines, number)
            print(f"limits full: script {number}, {len(desk.book.history)} rows", flush=True)
            self.no_faults(it.faults)
        it.day("the day on which it is full", cycles.full_day(), 10)
        self.no_faults(it.faults)

    def test_riding(self) -> None:
        """Activities ride, and the link is asked for all that it does."""
        it = Beside(ASKED.program, self.work, cycles.RIDE_FILES, seconds=SECONDS)
        it.day("the entries", cycles.ride_entries())
        it.day("the rides", cycles.ride_day(ASKED.count_or(cycles.INSERTS)), 2)
        it.day("the next day", [*cycles.ride_day(2)], 3)
        self.no_faults(it.faults)
