"""Desks at each limit, and past it by one: 65,535 requests, 1,000 stacks and procedures, of which one has all rows and steps that there may be,
10,000 executions, 64 activities on board, 990,000 rows of the history, and texts of 65,536 bytes. What is answered there stands in
generate/limit_days.py, by hand; all else is as the plain desk answers it, and each desk is opened again, its file compared table by table. So
no desk may give up at a size below its limits. The rows of the history are made by SQLite: a desk comes there by 195,000 acts
(test_limits_full.py).
"""
import subprocess
import tempfile
from typing import Callable

from faults.stop_full import full_tables
from generate import limit_days as days
from generate.limit_days import Line
from model.desk import Desk
from model.wall import board_page
from tests.asked import ASKED
from tests.limit_desks import Beside
from tests.made_files import make_file
from tests.runs import Tried, quick_folder, write_lines


class Limits(Tried):
    """Desks at their limits."""

    def setUp(self) -> None:
        """A folder to work in."""
        folder = tempfile.TemporaryDirectory(prefix="limits-", dir=quick_folder())
        self.addCleanup(folder.cleanup)
        self.work = folder.name

    def beside(self, files: dict[str, bytes]) -> Beside:
        """A new desk, with these files beside it."""
        return Beside(ASKED.program, self.work, files)

    def has_board(self, it: Beside, desk: Desk) -> None:
        """The board of the file is the page of the plain desk, as one that nobody has open."""
        ran = subprocess.run([ASKED.program, "board", "desk.db"], cwd=self.work, capture_output=True, check=False)
        if (ran.returncode, ran.stdout) != (0, board_page(desk, True)):
            it.faults.append(f"its board: status {ran.returncode}, {len(ran.stdout)} bytes, {ran.stderr!r:.300}")

    def two_days(self, files: dict[str, bytes], day: Callable[[], list[Line]], next_day: Callable[[], list[Line]]) -> None:
        """A day, and another at the desk that is opened again."""
        it = self.beside(files)
        it.day("the first day", day())
        desk = it.day("the next day", next_day(), 20_000)
        self.has_board(it, desk)
        self.no_faults(it.faults)

    def test_requests(self) -> None:
        """65,535 requests."""
        self.two_days(days.REQUEST_FILES, days.request_day, days.request_next_day)

    def test_held(self) -> None:
        """1,000 stacks, and 1,000 procedures."""
        self.two_days(days.HELD_FILES, days.held_day, lambda: days.held_end(20_001))

    def test_executions(self) -> None:
        """10,000 executions."""
        self.two_days(days.EXECUTION_FILES, days.execution_day, lambda: days.execution_end(20_001, 2))

    def test_on_board(self) -> None:
        """64 activities on board."""
        self.two_days({}, days.board_day, lambda: [Line("20001 ann schedule", "mirror disabled 0"), Line("20001 ann places")])

    def test_texts(self) -> None:
        """Texts of 65,536 bytes, steps of 80, and acts of 200; and lines that are shown before their answers."""
        self.two_days(days.TEXT_FILES, days.text_day, lambda: [Line(f"20001 ann steps {days.LONG_NAME}"), Line("20001 ann places")])
        lines, desk = [it.text for it in days.long_lines()], Desk()
        shown = [text for line in lines for text in (f"> {line}", *desk.line(line))] + [desk.places()]
        write_lines(f"{self.work}/long.tc", lines)
        for words in (["run", "--echo", "long.tc"], ["loop", "--echo", "loop.db", "long.tc"]):
            ran = subprocess.run([ASKED.program, *words], cwd=self.work, capture_output=True, text=True, check=False)
            self.assertEqual((1, shown), (ran.returncode, ran.stdout.splitlines()), words)

    def test_history(self) -> None:
        """990,000 rows of the history, of 65,535 requests: rows come until so many stand, and no act that may write one is taken from then on."""
        it = Beside(ASKED.program, self.work, days.HISTORY_FILES, full_tables(days.ROWS_LEFT))
        assert it.left
        make_file(it.path, it.left)
        it.day("the day on which it is full", days.history_day(), 1000)
        desk = it.day("the next day", days.history_next_day(), 20_000)
        self.has_board(it, desk)
        self.no_faults(it.faults)
