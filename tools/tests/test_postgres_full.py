"""What the loader of deploy/postgres takes of full desks: `tools/run.py --only postgres-full`, by hand.

Four desks, or so many as --count says, of 990,000 moves each, come into a real PostgreSQL, set up as Debian does it: the first once more, and one whose copy
of before lacks the last day. All that is then there of the first is compared with its file. Of each step, and of some questions, it is told what they took by the clock, and of processors.
"""
import os
import tempfile
import time
import unittest
from dataclasses import replace
from typing import Callable

from faults.stop_full import full_tables
from model.facts import MOST_HISTORY
from tests.asked import ASKED
from tests.made_files import make_file
from tests.own_postgres import LOADER, Postgres, lacks
from tests.test_postgres import ROWS, rows_of

DESKS, A_DAY, A_YEAR = 4, 2_700, 365 * 86_400
QUESTIONS = {
    "one desk's releases by month": "SELECT date_trunc('month', moment), count(*) FROM tcdesk.timeline WHERE desk = 'desk1' AND cause = 'release' GROUP BY 1",
    "all desks' moves by cause": "SELECT cause, count(*) FROM tcdesk.timeline GROUP BY cause",
    "the history of one request": "SELECT * FROM tcdesk.timeline WHERE desk = 'desk1' AND request = 5 ORDER BY seq",
    "an hour of all desks": "SELECT * FROM tcdesk.timeline WHERE moment >= to_timestamp(8000000) AND moment < to_timestamp(8003600)",
}


class FullLoads(unittest.TestCase):
    """Loads of full desks."""

    def setUp(self) -> None:
        """A server, and two copies of a desk whose moves are those of a year: the second lacks the last day."""
        why = lacks()
        if why:
            self.skipTest(f"the loader of deploy/postgres, since {why}")
        work = tempfile.TemporaryDirectory(prefix="pg-", dir="/tmp")
        self.addCleanup(work.cleanup)
        self.postgres = Postgres(work.name)
        self.addCleanup(self.postgres.end)
        self.postgres.begin()
        self.postgres.make_tables()
        self.whole, self.before = f"{work.name}/whole.db", f"{work.name}/before.db"
        tables = full_tables(MOST_HISTORY)
        self.moves = [it._replace(moment=it.seq * A_YEAR // MOST_HISTORY) for it in tables.move]
        make_file(self.whole, replace(tables, move=self.moves))
        make_file(self.before, replace(tables, move=self.moves[:-A_DAY]))
        self.postgres.give(work.name)

    def timed(self, what: str, does: Callable[[], object]) -> None:
        """Does something, and tells how long that took."""
        began, spent = time.monotonic(), self.processor_seconds()
        does()
        clock = time.monotonic() - began
        time.sleep(1)
        print(f"postgres full: {what}: {clock:.1f} s, {self.processor_seconds() - spent:.1f} of processors", flush=True)

    def processor_seconds(self) -> float:
        """What the server, and the programs that were run here, took by now."""
        it = os.times()
        return self.postgres.processor_seconds() + it.children_user + it.children_system

    def load(self, desk: str, path: str, moves: int, new: int) -> None:
        """Loads a copy, of which so many moves are new."""
        ran = self.postgres.run([f"{LOADER}/load.sh", desk, path])
        self.assertEqual((f"desk {desk}: {moves} moves, {new} of them new\n", ""), (ran.stdout, ran.stderr))

    def test_loads(self) -> None:
        """All of it."""
        for number in range(1, ASKED.count_or(DESKS) + 1):
            self.timed(f"desk {number}, {MOST_HISTORY:,} new moves", lambda: self.load(f"desk{number}", self.whole, MOST_HISTORY, MOST_HISTORY))
        self.timed("desk 1 once more, no new move", lambda: self.load("desk1", self.whole, MOST_HISTORY, 0))
        self.load("last", self.before, MOST_HISTORY - A_DAY, MOST_HISTORY - A_DAY)
        self.timed(f"the last desk a day later, {A_DAY:,} new moves", lambda: self.load("last", self.whole, MOST_HISTORY, A_DAY))
        got = self.postgres.ask(ROWS.replace("ORDER", "WHERE desk = 'desk1' ORDER"))
        self.assertTrue(rows_of("desk1", self.moves) == got, "what is there is another")
        for what, question in QUESTIONS.items():
            self.timed(what, lambda: self.postgres.ask(question))
        print("postgres full: all desks, with indexes:", *self.postgres.ask("SELECT pg_size_pretty(pg_total_relation_size('tcdesk.move'))"))
