"""The loader of deploy/postgres before a real PostgreSQL: copies of desks are loaded into it, again and again, and all that it has is compared with
their files. What it has to refuse is loaded too: other desks, forked histories, single values that are others, gaps, and what is no copy.
"""
import os
import re
import shutil
import tempfile
import time
import unittest
from collections import Counter
from typing import Sequence

from model.facts import Cause, Place, cause_word, place_word
from model.kept import read_tables
from model.report import time_of
from model.rows import Move
from tests.asked import ASKED, TOP
from tests.changes import change_file, changed_by
from tests.full_desks import Desk, make_desks
from tests.http_peer import Server
from tests.made_files import OLDER, make_file, make_older
from tests.own_postgres import LOADER, Postgres, lacks
from tests.runs import bytes_of, write_lines

PAGE = f"{LOADER}/README.md"
FORKED = "the copy is of another desk, or of one whose history was forked"
ROWS = "SELECT desk, seq, request, from_place, to_place, cause, person, extract(epoch FROM moment)::bigint FROM tcdesk.move ORDER BY desk, seq"


def rows_of(desk: str, moves: Sequence[Move]) -> list[str]:
    """Moves as PostgreSQL has to have them."""
    return ["|".join(map(str, (desk, it.seq, it.request, it.from_place, it.to_place, it.cause, it.person, it.moment))) for it in moves]


def pairs_of(page: str) -> list[tuple[str, str]]:
    """The commands of a page, each block with what is shown of it: the block without a word that stands next, or nothing."""
    parts = re.findall(r"^```([a-z]*)\n(.*?)^```$", bytes_of(page).decode(), re.DOTALL | re.MULTILINE)
    return [(text, next((shown for word, shown in parts[at + 1:at + 2] if word == ""), "")) for at, (kind, text) in enumerate(parts) if kind == "sh"]


class Loads(unittest.TestCase):
    """The loader. Each test begins with empty tables."""
    postgres: Postgres
    folder: str
    day: Desk
    next: Desk

    @classmethod
    def setUpClass(cls) -> None:
        """Starts PostgreSQL, and makes desks: a day, and the next one on a copy of its file."""
        why = lacks()
        if why:
            raise unittest.SkipTest(f"the loader of deploy/postgres, since {why}")
        # the path of a socket may not be long
        work = tempfile.TemporaryDirectory(prefix="pg-", dir="/tmp")
        cls.addClassCleanup(work.cleanup)
        cls.folder = work.name
        cls.postgres = Postgres(cls.folder, "fsync=off")
        cls.addClassCleanup(cls.postgres.end)
        cls.postgres.begin()
        cls.postgres.make_tables()
        cls.day, cls.next = make_desks(ASKED.program, cls.folder)[:2]
        cls.postgres.give(cls.folder)

    def setUp(self) -> None:
        """Nothing was loaded."""
        self.postgres.ask("TRUNCATE tcdesk.move, tcdesk.desk")

    def load(self, desk: str, path: str) -> tuple[int, str]:
        """How the loader ends, and what it says."""
        ran = self.postgres.run([f"{LOADER}/load.sh", desk, path])
        return ran.returncode, ran.stdout + ran.stderr

    def loads(self, desk: str, path: str, moves: int, new: int) -> None:
        """The loader takes this copy, and then has so many moves of the desk."""
        self.assertEqual((0, f"desk {desk}: {moves} moves, {new} of them new\n"), self.load(desk, path))

    def refuses(self, desk: str, path: str, why: str) -> None:
        """The loader takes nothing of this copy, and says why; the pattern is all that it says."""
        before = self.postgres.ask(ROWS), self.postgres.ask("TABLE tcdesk.desk")
        status, said = self.load(desk, path)
        self.assertEqual(1, status, said)
        self.assertRegex(said, f"^load: {why}\n$")
        self.assertEqual(before, (self.postgres.ask(ROWS), self.postgres.ask("TABLE tcdesk.desk")), "what was refused changed something")

    def copy(self, *changes: str) -> str:
        """A copy of the desk of the next day, in which these statements changed something."""
        path = f"{self.folder}/copy.db"
        shutil.copy(self.next.path, path)
        self.assertTrue(change_file(path, changed_by(*changes)), changes)
        self.postgres.give(self.folder)
        return path

    def test_again(self) -> None:
        """A copy, the same, a later and an older one, under two names: each move is there once, as the file has it."""
        day, whole = len(self.day.tables.move), len(self.next.tables.move)
        self.loads("north", self.day.path, day, day)
        self.loads("north", self.day.path, day, 0)
        self.assertEqual(rows_of("north", self.day.tables.move), self.postgres.ask(ROWS))
        self.loads("north", self.next.path, whole, whole - day)
        self.loads("south:2.b-c_D", self.day.path, day, day)
        self.loads("north", self.day.path, whole, 0)
        wanted = rows_of("north", self.next.tables.move) + rows_of("south:2.b-c_D", self.day.tables.move)
        self.assertEqual(wanted, self.postgres.ask(ROWS))
        self.postgres.make_tables()
        self.assertEqual(wanted, self.postgres.ask(ROWS), "tables.sql changed rows")

    def test_earlier(self) -> None:
        """Files of earlier versions, and one that holds a log beside it."""
        for older in OLDER:
            path = f"{self.folder}/{older.name}{older.version}.db"
            make_older(path, older)
            tables = read_tables(path)
            self.postgres.give(self.folder)
            self.loads(f"{older.name}{older.version}", path, len(tables.move), len(tables.move))
        make_file(f"{self.folder}/open.db", self.next.tables, is_left_open=True)
        self.postgres.give(self.folder)
        self.loads("open", f"{self.folder}/open.db", len(self.next.tables.move), len(self.next.tables.move))
        self.assertEqual(rows_of("open", self.next.tables.move), self.postgres.ask(ROWS.replace("ORDER", "WHERE desk = 'open' ORDER")))

    def test_names(self) -> None:
        """`timeline` has the names that the report prints, of all places and causes of the desk."""
        self.load("north", self.next.path)
        told = self.postgres.ask("SELECT seq, moment, person, request, from_place, to_place, cause FROM tcdesk.timeline ORDER BY seq")
        wanted = [f"{it.seq}|{time_of(it.moment)}+00|{it.person}|{it.request}|{place_word(it.from_place)}|{place_word(it.to_place)}|{cause_word(it.cause)}"
                  for it in self.next.tables.move]
        self.assertEqual(wanted, told)
        for name, wanted in (("place", [f"{int(it)}|{it.word}" for it in Place]), ("cause", [f"{int(it)}|{it.word}" for it in Cause])):
            self.assertEqual(wanted, self.postgres.ask(f"SELECT {name}, name FROM tcdesk.{name} ORDER BY 1"))

    def test_others(self) -> None:
        """Another desk under the name of one that was loaded, and histories that were forked: the first move that is another one is told."""
        self.loads("north", self.day.path, len(self.day.tables.move), len(self.day.tables.move))
        number = len(self.day.tables.move) + 1
        moved = [f"UPDATE move SET {it} WHERE seq = {number - 1}" for it in (
            "request = request + 1", "from_place = 3", "to_place = 15", "cause = 13", "person = 'zed'", "moment = moment + 1")]
        for change in moved:
            self.refuses("north", self.copy(change), f"north: refused: move {number - 1} of the desk north is another one here: {FORKED}")
        self.refuses("north", self.copy("UPDATE move SET person = 'zed' WHERE seq > 7"),
                     f"north: refused: move 8 of the desk north is another one here: {FORKED}")
        # what is new may be anything that moves may be
        path = self.copy(f"UPDATE move SET person = 'zed' WHERE seq >= {number}")
        self.loads("north", path, len(self.next.tables.move), len(self.next.tables.move) - number + 1)
        self.refuses("north", self.next.path, f"north: refused: move {number} of the desk north is another one here: {FORKED}")

    def test_no_history(self) -> None:
        """What no desk could have written, or is no copy of one."""
        for change in ("DELETE FROM move WHERE seq = 1", "DELETE FROM move WHERE seq = 5", "UPDATE move SET seq = 0 WHERE seq = 1", "UPDATE move SET seq = -1 WHERE seq = 9"):
            self.refuses("north", self.copy(change), "north: refused: the moves of the copy are not numbered 1, 2, 3 and so on: it is no desk's, or not all of one")
        for change in ("UPDATE move SET to_place = 16 WHERE seq = 3", "UPDATE move SET cause = 0 WHERE seq = 3", "UPDATE move SET from_place = -1 WHERE seq = 3"):
            self.refuses("north", self.copy(change), 'north: new row for relation "move" violates check constraint .*')
        self.refuses("north", self.copy("ALTER TABLE move RENAME TO other"), ".*copy.db cannot be read as a desk's file: .*no such table: move.*")
        missing, text = f"{self.folder}/missing.db", f"{self.folder}/text.db"
        self.refuses("north", missing, f"there is no file {missing}, or it may not be read")
        self.assertFalse(os.path.exists(missing), "a file was made")
        write_lines(text, ["no database"] * 100)
        self.refuses("north", text, f"{text} cannot be read as a desk's file: .*not a database.*")
        self.refuses("north", self.folder, f"there is no file {self.folder}, or it may not be read")
        for name in ("", "a b", "a'b", "a" * 65, "ä", "a/b"):
            self.refuses(name, self.next.path, f"no name of a desk: {name}")

    def test_in_use(self) -> None:
        """A file that a desk has open is not read; nor is anything loaded where the database is not reached, or has no tables."""
        shutil.copy(self.day.path, f"{self.folder}/served.db")
        with Server(ASKED.program, self.folder, "served.db", None) as server:
            server.listening()  # a port takes connections before the desk is open
            self.postgres.give(self.folder)
            self.refuses("north", f"{self.folder}/served.db", ".*served.db cannot be read as a desk's file: .*database is locked.*")
        for where, why in (("PGHOST", "psql: error: connection to server on socket .*(\n.*)*"), ("PGDATABASE", "schema \"tcdesk\" does not exist(\n.*)*")):
            other = "/nowhere" if where == "PGHOST" else "template1"
            ran = self.postgres.run(["env", f"{where}={other}", f"{LOADER}/load.sh", "north", self.day.path])
            self.assertEqual(1, ran.returncode)
            self.assertRegex(ran.stderr, f"^load: north: {why}")

    def test_at_once(self) -> None:
        """Six who load copies of one desk, and two of another, at the same moment; and one that is killed in the middle, of which nothing is there."""
        paths = [self.day.path, self.next.path] * 3
        started = [self.postgres.start([f"{LOADER}/load.sh", "north", it]) for it in paths]
        started += [self.postgres.start([f"{LOADER}/load.sh", "south", self.day.path]) for _ in range(2)]
        came = Counter[str]()
        for it in started:
            out, err = it.communicate(timeout=600)
            self.assertEqual((0, ""), (it.returncode, err))
            came[out.split()[1]] += int(out.split()[4])
        wanted = rows_of("north", self.next.tables.move) + rows_of("south", self.day.tables.move)
        self.assertEqual(wanted, self.postgres.ask(ROWS))
        self.assertEqual({"north:": len(self.next.tables.move), "south:": len(self.day.tables.move)}, came)

    def test_stopped(self) -> None:
        """Loads whose connection the server ends while they wait in the middle: nothing of them is there."""
        holder = self.postgres.start(["psql", "-X", "-q", "-c", "BEGIN", "-c", "INSERT INTO tcdesk.desk VALUES ('north', 0, now())", "-c", "SELECT pg_sleep(600)"])
        self.addCleanup(holder.communicate)
        self.addCleanup(self.postgres.ask, "SELECT pg_terminate_backend(pid) FROM pg_stat_activity WHERE wait_event = 'PgSleep'")
        self.wait_for("SELECT FROM pg_stat_activity WHERE wait_event = 'PgSleep'")
        loader = self.postgres.start([f"{LOADER}/load.sh", "north", self.next.path])
        self.addCleanup(loader.kill)
        self.wait_for("SELECT FROM pg_stat_activity WHERE application_name = 'tcdesk' AND wait_event_type = 'Lock'")
        self.postgres.ask("SELECT pg_terminate_backend(pid) FROM pg_stat_activity WHERE application_name = 'tcdesk'")
        _, err = loader.communicate(timeout=600)
        self.postgres.ask("SELECT pg_terminate_backend(pid) FROM pg_stat_activity WHERE wait_event = 'PgSleep'")
        self.assertEqual(1, loader.returncode)
        self.assertIn("terminating connection", err)
        self.assertEqual([], self.postgres.ask("TABLE tcdesk.move") + self.postgres.ask("TABLE tcdesk.desk"))
        self.loads("north", self.next.path, len(self.next.tables.move), len(self.next.tables.move))

    def wait_for(self, question: str) -> None:
        """Waits until a question is answered by one row at least."""
        end = time.monotonic() + 600
        while not self.postgres.ask(f"SELECT 'there' WHERE EXISTS ({question})"):
            self.assertLess(time.monotonic(), end, question)
            time.sleep(0.02)

    def test_page(self) -> None:
        """The commands of the page print what it shows."""
        folder = f"{self.folder}/page"
        os.mkdir(folder)
        shutil.copytree(f"{TOP}/examples", f"{folder}/examples")
        shutil.copytree(LOADER, f"{folder}/deploy/postgres")
        shutil.copy(ASKED.program, f"{folder}/tcdesk")
        self.postgres.give(folder)
        pairs = pairs_of(PAGE)
        self.assertGreater(len(pairs), 3, "commands of the page")
        for command, shown in pairs:
            ran = self.postgres.run(["bash", "-c", f"exec 2>&1; {command}"], folder)
            self.assertEqual(shown, ran.stdout, command)
