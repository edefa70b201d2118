"""Reports of files that are no desk's, or of which a row does not read: they are refused, and nothing is printed. Where all rows read the report is
printed, though no desk wrote them.
"""
import os
import random
from concurrent.futures import ThreadPoolExecutor
from functools import partial
from pathlib import Path

from generate.left_changes import CARGO_TABLE, OF_CARGO, OF_FIRST, OF_FIRST_ROWS, OF_NEWEST, OF_REPLIES, OF_SECOND, OF_SECOND_ROWS, REPLY_TABLE, THIRD, Changes
from model.kept import read_tables
from model.rows import move_line
from tests.full_desks import make_desks
from tests.made_files import FULL_OLDER, make_older
from tests.report_cases import ALL, LAST, WORKED, Reported, change
from tests.report_printer import moves_in, places_of, report_of
from tests.report_rows import READABLE, UNREADABLE

SEED = 20311127


class Files(Reported):
    """Files that give no report."""

    def test_no_desks(self) -> None:
        """Files that are no desk's, or that are not there."""
        cases = self.cases
        whole = Path(cases.made(WORKED)[0], "desk.db").read_bytes()
        cases.unusable("a missing file", cases.folder())
        cases.unusable("a file of a missing folder", cases.folder(), "none/desk.db")
        cases.unusable("a folder", cases.folder(), ".")
        texts = {"an empty file": b"", "a text": b"no database\n" * 100, "noise": random.Random(SEED).randbytes(8192),
                 "a database that is cut short": whole[:5000], "a head alone": whole[:100]}
        for name, text in texts.items():
            folder = cases.folder()
            Path(folder, "desk.db").write_bytes(text)
            cases.unusable(name, folder)
        for name, statement in (("a foreign database", "CREATE TABLE some (a)"), ("a database of no table", "PRAGMA user_version = 1")):
            folder = cases.folder()
            change(folder, statement)
            cases.unusable(name, folder)

    def test_broken(self) -> None:
        """Desks with a value, a table or an index that none wrote."""
        cases = self.cases
        desk, _ = cases.made(WORKED)
        sets = ["to_place = 99", "to_place = 0", "from_place = 16", "from_place = -1", "cause = 0", "cause = 15", "person = ''", "person = 'Ann'",
                "person = 'seventeenletters1'", "request = 0", "request = 65536", "seq = -5", "seq = 4294967296"]
        statements = [f"UPDATE move SET {it} WHERE seq = 2" for it in sets] + [
            "UPDATE tally SET amount = -1 WHERE place = 1", "UPDATE tally SET amount = 4294967295", "DELETE FROM tally WHERE place = 15",
            "CREATE TABLE more (a)", "CREATE VIEW more AS SELECT * FROM move", "DROP INDEX move_by_request", "DROP TABLE record"]
        for statement in statements:
            folder = cases.copy(desk)
            change(folder, statement)
            cases.unusable(statement, folder)

    def test_rows_that_do_not_read(self) -> None:
        """A row that does not read, in any table, of any shift: nothing is printed."""
        desk = self.full_desk()
        statements = [f"UPDATE {table.replace(' WHERE', f' SET {it} WHERE')}" if " WHERE" in table else f"UPDATE {table} SET {it}"
                      for table, sets in UNREADABLE.items() for it in sets]
        statements += ["DELETE FROM meta", "INSERT INTO meta VALUES ('more', 1)"]
        with ThreadPoolExecutor(4) as pool:
            for statement, faults in zip(statements, pool.map(partial(self.why_not_refused, desk), statements)):
                self.cases.tell(statement, *faults)

    def why_not_refused(self, desk: str, statement: str) -> list[str]:
        """In what a report of a desk that was changed so is not refused, of shifts that the row lies in, and of one that it does not."""
        folder = self.cases.copy(desk)
        change(folder, statement)
        # all moves are made before the moment 4000
        return [fault for begin, end in ((0, LAST), (4000, LAST), (0, 0))
                for fault in self.cases.why_not(folder, ["desk.db", str(begin), str(end)], "", "tcdesk: cannot use desk.db\n", 2)]

    def test_rows_that_read(self) -> None:
        """Rows that no desk wrote, and that read all the same: soundness is not judged, and the report is printed."""
        desk = self.full_desk()
        for statement in READABLE:
            folder = self.cases.copy(desk)
            change(folder, statement)
            tables = read_tables(f"{folder}/desk.db")
            moves, amounts = moves_in("\n".join(move_line(it) for it in tables.move)), [it.amount for it in tables.tally]
            stand = f"places {sum(amounts)}: {' '.join(str(it) for it in amounts)}"
            for begin, end in ((0, LAST), (100, 130)):
                report = report_of(moves, "closed", begin, end).replace(places_of(moves), stand)
                self.cases.ask(statement, folder, ["desk.db", str(begin), str(end)], report)

    def test_versions(self) -> None:
        """Files of each version: tables of one with the number of another, other tables, replies, and what inserts name behind their first activity. All that an
        opening takes is reported, and nothing else but rows that only others refute, as any of the last are so far."""
        older = {version: self.older_desk(version) for version in FULL_OLDER}
        newest = self.cases.copy(older[1])
        change(newest, REPLY_TABLE, CARGO_TABLE, THIRD)
        self.changed(newest, OF_NEWEST + OF_REPLIES + OF_CARGO)
        for version, changes, rows in ((1, OF_FIRST, OF_FIRST_ROWS), (2, OF_SECOND, OF_SECOND_ROWS)):
            self.changed(older[version], changes + [(it, True) for it, _ in rows[:2]])

    def older_desk(self, version: int) -> str:
        """A folder with a desk of an earlier version."""
        folder = self.cases.folder()
        make_older(f"{folder}/desk.db", FULL_OLDER[version])
        return folder

    def changed(self, desk: str, changes: Changes) -> None:
        """Asks for reports of a desk with each of these changes, none of which is of its moves: of those that are read, and of those that are not."""
        cases, moves = self.cases, moves_in("\n".join(move_line(it) for it in read_tables(f"{desk}/desk.db").move))
        for statements, is_read in changes:
            folder = cases.copy(desk)
            change(folder, *statements)
            if is_read:
                cases.closed("; ".join(statements)[:300], folder, moves, ALL, (2, 4))
            else:
                cases.unusable("; ".join(statements)[:300], folder)

    def full_desk(self) -> str:
        """A folder with a desk every table of which has rows."""
        work = self.cases.folder()
        left, *_ = make_desks(self.cases.program, work)
        folder = self.cases.folder()
        os.rename(left.path, f"{folder}/desk.db")
        return folder
