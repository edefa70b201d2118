"""The file of a desk opened again, as it was left and changed.

What each opening answers is written out in generate/left_desks.py, by hand: desks on which requests were on their way, opened a second time and
a third; one whose approvals, stacks and executions go on; and one whose history lacks one row, and then is full. Then single values, rows, tables
and indexes of files are changed by SQLite, also of one of each earlier version, and it stands there which of these a desk could have written: that is opened, and
has the rows of the opening then; all else is refused, and its file left byte for byte. So it is of replies, in pages that end in each way.
"""
import shutil
import tempfile
from concurrent.futures import ThreadPoolExecutor
from functools import partial
from itertools import zip_longest
from typing import Optional

from generate.left_changes import (OF_CARGO, OF_FIRST, OF_FIRST_ROWS, OF_FIVE, OF_LISTS, OF_NEWEST, OF_REPLIES, OF_SECOND, OF_SECOND_ROWS, OF_WHOLE, Changes,
                                   alone, kept)
from generate.left_desks import EVERYWHERE, FILES, FIVE, FULL, GOING, LISTS, OF_VERSIONS, OTHERS, RIDERS, WHOLE, Day, Left, fill
from model.facts import MOST_HISTORY
from model.kept import read_tables
from model.lines import script_lines
from model.rows import empty_tables
from tests.asked import ASKED
from tests.changes import change_file, changed_by, left_beside, why_not_opened
from tests.made_files import FULL_OLDER, OLD_DAY, keep_replies, make_older, two_days
from tests.plain_runs import Plain, text_of, unlike
from tests.runs import Tried, bytes_of, run_kept, write_files, write_lines


class Told:
    """What was found: faults, and how many days, lines and changes there were."""

    def __init__(self) -> None:
        self.faults: list[str] = []
        self.days, self.lines, self.taken, self.refused = 0, 0, 0, 0

    def tell(self, name: str, fault: str) -> None:
        """Notes a fault, if there is one."""
        if fault:
            self.faults.append(f"{name}: {fault}")


def made(program: str, work: str, left: Left, told: Told) -> Optional[str]:
    """A folder with a desk as its first day leaves it; none where that fails."""
    folder = tempfile.mkdtemp(dir=work)
    for name, text in FILES.items():
        write_lines(f"{folder}/{name}", text.splitlines())
    write_lines(f"{folder}/first.tc", left.lines.splitlines())
    ran = run_kept(program, folder, "desk.db", 0, "first.tc")
    if ran.status == 0 and not ran.errors:
        return folder
    refused = [it for it in ran.lines if it.startswith("refused")]
    told.tell(f"{left.name}, its first day", f"status {ran.status}, {ran.errors!r} {refused}")
    return None


def open_day(program: str, folder: str, day: Day) -> str:
    """A day on a desk: what of it is not as it is written out."""
    write_lines(f"{folder}/day.tc", day.lines())
    ran = run_kept(program, folder, "desk.db", day.moment, "day.tc")
    for number, (want, got) in enumerate(zip_longest(day.answers(), ran.lines), 1):
        if want != got:
            return f"line {number} is {got!r}, and not {want!r} {ran.errors}"
    wanted = int(any(it.startswith("refused ") for it in ran.lines))
    return f"status {ran.status}: {ran.errors}" if ran.status != wanted or ran.errors else ""


def open_left(program: str, work: str, left: Left, told: Told, filling: Optional[str] = None) -> None:
    """A desk, and all days that follow its first; its history is filled first, by this statement, if there is one."""
    folder = made(program, work, left, told)
    if not folder:
        return
    if filling:
        change_file(f"{folder}/desk.db", changed_by(filling))
    for day in left.days:
        told.tell(f"{left.name}, opened at {day.moment}", open_day(program, folder, day))
        told.days, told.lines = told.days + 1, told.lines + len(day.lines())
    shutil.rmtree(folder)


def page_days(size: int) -> tuple[Day, list[str]]:
    """How the desk of a full history is opened that has so many rows only, and what changes its tables to that."""
    waits = [f"UPDATE tally SET amount = amount + {by} WHERE place = {place}" for by, place in ((-1, 2), (1, 3))]
    statements = [fill(size)] + (waits + ["UPDATE request SET place = 3 WHERE num = 1"] if size % 2 == 0 else [])
    last = f"move {size} 6 x 1 " + ("Approved Queued release" if size % 2 == 0 else "Queued Approved giveback")
    opened = [f"move {size + 1} 8 desk 1 Queued Approved open"] if size % 2 == 0 else []
    places = "places 4: 2 1 0 0 0 0 0 0 0 0 0 1 0 0 0"
    lines = opened + [f"> 9 ann history 1 {size - 1}", f"history 1: {1 + len(opened)}", last] + opened + [places]
    return Day(8, "".join(f"{it}\n" for it in lines)), statements


def open_pages(program: str, work: str, told: Told) -> None:
    """Histories that end before, at and behind a full page of 1,000 rows; and the same with a last row that no desk wrote."""
    folder = made(program, work, FULL, told)
    if not folder:
        return
    for size in (999, 1000, 1001, 1999, 2000, 2001):
        day, statements = page_days(size)
        write_lines(f"{folder}/day.tc", day.lines())
        for more, is_sound in ((), True), ((f"UPDATE move SET person = '' WHERE seq = {size}",), False):
            shutil.copy(f"{folder}/desk.db", f"{folder}/page.db")
            change_file(f"{folder}/page.db", changed_by(*statements, *more))
            ran = run_kept(program, folder, "page.db", 8, "day.tc" if is_sound else "/dev/null")
            wanted = (0, day.answers(), "") if is_sound else (2, [], "tcdesk: cannot use page.db\n")
            told.tell(f"a history of {size} rows{'' if is_sound else ', changed'}",
                      "" if (ran.status, ran.lines, ran.errors) == wanted else f"status {ran.status}, {ran.lines[:4]}, {ran.errors!r}")
            told.taken, told.refused = told.taken + is_sound, told.refused + (not is_sound)


def open_replies(program: str, work: str, told: Told) -> None:
    """Replies that end before, at and behind a full page of 100; and the same with one at such an end that no desk kept, or that is a row more."""
    folder = made(program, work, WHOLE, told)
    if not folder:
        return
    for count in (1, 99, 100, 101, 199, 200, 201, 250):
        path = f"{folder}/{count}.db"
        shutil.copy(f"{folder}/desk.db", path)
        keep_replies(path, count)
        ends = [it for it in (1, 99, 100, 101, 199, 200, 201, 250) if it <= count]
        changes: Changes = [(kept("'zed'", "1", "'ok'"), False), (kept("'zed'", "1", "char(10)"), True), ((f"DELETE FROM reply WHERE rowid = {count}",), True)]
        changes += [((f"UPDATE reply SET {it} WHERE rowid = {end}",), False) for end in ends for it in ("body = 'ok'", "number = 0")]
        changes += [((f"UPDATE reply SET rowid = {to} WHERE rowid = {end}",), True) for end in ends for to in (-5, "-9223372036854775807 - 1", 1_000_000)]
        changes += [((f"UPDATE reply SET rowid = {to}, person = 'desk' WHERE rowid = {end}",), False) for end in ends for to in (-5, "-9223372036854775807 - 1")]
        change_each(program, work, path, WHOLE.days[0], changes, told)


def open_changed(program: str, work: str, path: str, day: Day, change: tuple[tuple[str, ...], bool]) -> str:
    """A changed copy of a desk's file, opened as on a day: what is wrong with that."""
    statements, is_sound = change
    folder = tempfile.mkdtemp(dir=work)
    file = f"{folder}/desk.db"
    shutil.copy(path, file)
    if not change_file(file, changed_by(*statements)):
        return "it was not changed"
    before, tables = bytes_of(file), read_tables(file) if is_sound else empty_tables()
    ran = run_kept(program, folder, "desk.db", day.moment, "/dev/null")
    if is_sound:
        return why_not_opened(ran, folder, day.moment, tables) or ("" if ran.lines == day.answers() else f"it printed {ran.lines}")
    if (ran.status, ran.lines, ran.errors) != (2, [], "tcdesk: cannot use desk.db\n"):
        return f"it should be refused: status {ran.status}, {ran.lines[:3]}, {ran.errors!r}"
    return "the file was changed" if bytes_of(file) != before else f"beside it stay {left_beside(folder)}" if left_beside(folder) else ""


def change_each(program: str, work: str, path: str, day: Day, changes: Changes, told: Told) -> None:
    """All changes of a desk's file, four at a time."""
    with ThreadPoolExecutor(4) as pool:
        for (statements, is_sound), fault in zip(changes, pool.map(partial(open_changed, program, work, path, day), changes)):
            told.tell(f"{path}, {'; '.join(statements):.300}", fault)
            told.taken, told.refused = told.taken + is_sound, told.refused + (not is_sound)


def change_left(program: str, work: str, left: Left, changes: Changes, told: Told) -> None:
    """All changes of a desk as its first day leaves it."""
    folder = made(program, work, left, told)
    if folder:
        change_each(program, work, f"{folder}/desk.db", left.days[0], changes, told)


class Changed(Tried):
    """Desks that were left, and what their openings answer."""

    def setUp(self) -> None:
        """A folder to work in."""
        folder = tempfile.TemporaryDirectory(prefix="changed-")
        self.addCleanup(folder.cleanup)
        self.work, self.told = folder.name, Told()

    def settle(self) -> None:
        """Tells what was found."""
        told = self.told
        print(f"changed cases: {told.days} days, {told.lines} lines answered, {told.taken} changes taken, {told.refused} refused,"
              f" {len(told.faults)} faults")
        self.no_faults(told.faults)

    def test_days(self) -> None:
        """Desks that are opened again and again, and one whose history is full."""
        for left in (FIVE, RIDERS, OTHERS, EVERYWHERE, GOING, LISTS, WHOLE):
            open_left(ASKED.program, self.work, left, self.told)
        open_left(ASKED.program, self.work, FULL, self.told, fill(MOST_HISTORY - 1))
        self.settle()

    def test_two_days(self) -> None:
        """Desks of tools/cases/days, opened again: all that is printed of the second day, and the tables behind it."""
        for it in two_days():
            folder = tempfile.mkdtemp(dir=self.work)
            write_files(folder, {"first.tc": it.first.encode(), "second.tc": it.second.encode()})
            left = Plain(script_lines(it.first), {}, is_kept=True)
            plain = Plain(script_lines(it.second), {}, left=left.states[-1], moment=OLD_DAY, is_kept=True)
            first, second = (run_kept(ASKED.program, folder, "desk.db", moment, name) for moment, name in ((0, "first.tc"), (OLD_DAY, "second.tc")))
            self.told.tell(it.name, "" if (first.status, first.errors) == (0, "") else f"its first day: {first}")
            self.told.tell(it.name, "" if (second.status, text_of(second.lines), second.errors) == (plain.status, it.printed, "") else f"{second}")
            self.told.tell(it.name, unlike(read_tables(f"{folder}/desk.db"), plain.states[-1]))
            self.told.days, self.told.lines = self.told.days + 1, self.told.lines + len(plain.lines)
        self.settle()

    def test_changes(self) -> None:
        """Single values, rows, tables and indexes that are others."""
        for left, changes in ((FIVE, alone(OF_FIVE)), (WHOLE, alone(OF_WHOLE)), (WHOLE, OF_NEWEST)):
            change_left(ASKED.program, self.work, left, changes, self.told)
        self.settle()

    def test_older(self) -> None:
        """A file of each earlier version, with the tables or the number of another, or with rows that no desk wrote."""
        for version, changes in ((1, OF_FIRST + OF_FIRST_ROWS), (2, OF_SECOND + OF_SECOND_ROWS)):
            path = f"{self.work}/older{version}.db"
            make_older(path, FULL_OLDER[version])
            change_each(ASKED.program, self.work, path, OF_VERSIONS[version], changes, self.told)
        self.settle()

    def test_cargo(self) -> None:
        """What inserts name behind their first activity: as a desk could have written it, and as it could not."""
        change_left(ASKED.program, self.work, WHOLE, [(statements, False) for statements, _ in OF_CARGO], self.told)
        change_left(ASKED.program, self.work, LISTS, OF_LISTS, self.told)
        self.settle()

    def test_replies(self) -> None:
        """Replies that a desk could have kept, and that it could not."""
        change_left(ASKED.program, self.work, WHOLE, OF_REPLIES, self.told)
        open_replies(ASKED.program, self.work, self.told)
        self.settle()

    def test_pages(self) -> None:
        """Histories at the end of a page of 1,000 rows."""
        open_pages(ASKED.program, self.work, self.told)
        self.settle()
