"""The plain desk itself, which the other tests stand beside the program: it has to answer the days, and to leave the rows, that persons wrote by
hand. The program is not run.
"""
import os
import shutil
import tempfile
import unittest
from typing import Union

from generate.left_changes import (OF_CARGO, OF_FIRST, OF_FIRST_ROWS, OF_FIVE, OF_LISTS, OF_NEWEST, OF_REPLIES, OF_SECOND, OF_SECOND_ROWS, OF_WHOLE, Changes,
                                   alone)
from generate.left_desks import EVERYWHERE, FILES, FIVE, FULL, GOING, LISTS, OTHERS, RIDERS, WHOLE, Left
from model.desk import Desk
from model.facts import MOST_HISTORY, Cause, Place
from model.kept import are_desks, connect, read_tables
from model.rows import ROWS, Move, Tables
from model.sound import why_unsound
from tests.changes import change_file, changed_by
from tests.made_files import FULL_OLDER, Older, make_file, make_older
from tests.runs import quick_folder
from tests.test_written import CASES, NO_TALLY, Case
from tests.test_written import FILES as WRITTEN_FILES


def data_of(texts: dict[str, str]) -> dict[str, bytes]:
    """The files that scripts load."""
    return {name: text.encode("latin-1") for name, text in texts.items()}


def filled(tables: Tables) -> None:
    """Rows are put behind the history of the desk FULL, until one alone is wanting: request 1 is released and given back, again and again."""
    for seq in range(len(tables.move) + 1, MOST_HISTORY):
        is_released = seq % 2 == 0
        places = (Place.APPROVED, Place.QUEUED) if is_released else (Place.QUEUED, Place.APPROVED)
        tables.move.append(Move(seq, 1, *places, Cause.RELEASE if is_released else Cause.GIVEBACK, "x", 6))


def rows_of(case: Case) -> tuple[Tables, int]:
    """The rows that the plain desk leaves after the days of a case, and how many lines it refused."""
    tables, refused, files = Desk().tables(), 0, data_of(WRITTEN_FILES)
    for moment, lines in case.days:
        desk = Desk.opened(tables, moment, files=files)
        refused += sum(desk.line(line)[0].startswith("refused ") for line in lines.splitlines())
        tables = desk.tables()
    return tables, refused


def has_tables(path: str) -> bool:
    """Whether a file has the tables and the index of a version, in one of the orders, and no other."""
    connection = connect(path)
    try:
        return are_desks(connection)
    finally:
        connection.close()


class PlainDesk(unittest.TestCase):
    """The plain desk beside what is written by hand."""

    def test_days(self) -> None:
        """It answers each opening of the desks that were left, and each line behind it, up to the last row of a history."""
        count = 0
        for left in (FIVE, RIDERS, OTHERS, EVERYWHERE, GOING, LISTS, WHOLE, FULL):
            tables = self.tables_left(left)
            for day in left.days:
                with self.subTest(f"{left.name} at {day.moment}"):
                    desk = Desk.opened(tables, day.moment, files=data_of(FILES))
                    told = [it.line() for it in desk.opening] + [it for line in day.lines() for it in desk.line(line)] + [desk.places()]
                    self.assertEqual(day.answers(), told)
                    tables, count = desk.tables(), count + len(told)
        print(f"plain desk: {count} lines of days that are written by hand")

    def tables_left(self, left: Left) -> Tables:
        """The tables of a desk after its first day."""
        desk = Desk(files=data_of(FILES))
        for line in left.lines.splitlines():
            self.assertFalse(desk.line(line)[0].startswith("refused "), line)
        tables = desk.tables()
        self.assertIsNone(why_unsound(tables))
        if left is FULL:
            filled(tables)
        return tables

    def test_changes(self) -> None:
        """It knows of each change of a file that leaves the tables of a version whether a desk could have written what is there then."""
        changes: list[tuple[Union[Left, Older], Changes]] = [
            (FIVE, alone(OF_FIVE)), (WHOLE, alone(OF_WHOLE)), (WHOLE, OF_NEWEST), (WHOLE, OF_REPLIES), (WHOLE, [(it, False) for it, _ in OF_CARGO]),
            (LISTS, OF_LISTS),
            (FULL_OLDER[1], OF_FIRST + OF_FIRST_ROWS), (FULL_OLDER[2], OF_SECOND + OF_SECOND_ROWS)]
        count = 0
        with tempfile.TemporaryDirectory(prefix="changes-", dir=quick_folder()) as work:
            for left, some in changes:
                if isinstance(left, Older):
                    make_older(f"{work}/left.db", left)
                else:
                    make_file(f"{work}/left.db", self.tables_left(left))
                for statements, is_sound in some:
                    shutil.copy(f"{work}/left.db", f"{work}/copy.db")
                    change_file(f"{work}/copy.db", changed_by(*statements))
                    if not has_tables(f"{work}/copy.db"):
                        self.assertFalse(is_sound, statements)
                        continue
                    why = why_unsound(read_tables(f"{work}/copy.db"))
                    self.assertEqual(is_sound, why is None, f"{'; '.join(statements)[:300]}: {why}")
                    count += 1
                os.remove(f"{work}/left.db")
        print(f"plain desk: {count} changes of files that are judged by hand")

    def test_rows(self) -> None:
        """It leaves the rows that are written by hand, in the order in which they were written."""
        count = 0
        for case in CASES:
            tables, refused = rows_of(case)
            self.assertEqual(case.refused, refused, case.name)
            self.assertIsNone(why_unsound(tables), case.name)
            for name in ROWS:
                with self.subTest(f"{case.name}, {name}"):
                    wanted = case.rows.get(name, {"meta": "schema|3", "tally": NO_TALLY}.get(name, "")).splitlines()
                    rows = ["|".join(str(int(it) if isinstance(it, int) else it) for it in row) for row in getattr(tables, name)]
                    self.assertEqual(wanted, rows)
                    count += len(rows)
        print(f"plain desk: {count} rows that are written by hand")
