"""Copies of desks' files that SQLite's own tools make, by Python and by the stock shell where it is installed.

Some copy page by page. Others read all tables and make them anew, and put the index of the moves behind them: a desk's file may stand so, too. Files of each version are
copied in each way, closed or as a program leaves them that is killed. Each copy is reported, shown on a board and worked for a day, and all that is printed, and all rows with
the numbers under which they stand, are those of the file itself. Its tables stand in the order of the copy, and those that its version lacks behind. Another opening changes no
byte; a copy of that copy is taken again, and so is one by `tcdesk backup`. What ANALYZE leaves beside the tables makes the file no desk's, until it is taken away; and what
Python's `iterdump` tells, by name and not as it was made, is none's when it is read back.
"""
import os
import re
import shutil
import subprocess
from typing import Callable, NamedTuple

from model.facts import SCHEMA, SCHEMA_VERSION, SCHEMAS, copied
from model.kept import connect, sqlite3, statements_of
from model.lines import script_lines
from model.rows import Tables, move_line, places_line
from model.tables import opened_moves, opened_tables
from tests.asked import ASKED, TOP
from tests.changes import change_file, changed_by, why_not_opened
from tests.made_files import FULL_OLDER, OLD_DAY, OLDER, as_version, make_file, two_days
from tests.plain_runs import Plain
from tests.report_cases import changed, digests
from tests.runs import bytes_of, run_kept
from tests.worked_desks import AGAIN, Worked, stored

SHELL = shutil.which("sqlite3")
UNUSABLE = "tcdesk: cannot use desk.db\n"
FOREIGN = "tcdesk: because its tables are not a desk's\n"
# How a command refuses a file whose tables are no desk's.
REFUSED = (
    (["run", "--db", "desk.db", "/dev/null"], UNUSABLE + FOREIGN),
    (["report", "desk.db", "0", "1"], UNUSABLE + FOREIGN),
    (["board", "desk.db"], UNUSABLE + FOREIGN),
    (["backup", "desk.db", "none.db"], UNUSABLE + FOREIGN),
)
# The line of the manual that takes away what ANALYZE left.
MENDED = re.compile(r"`sqlite3 desk\.db '([^']*sqlite_stat1[^']*)'`")


# ---- how a file is copied

class Way(NamedTuple):
    """A way to copy a file to a path at which none is; whether it makes the tables anew, and whether it copies what ANALYZE left."""
    name: str
    copies: Callable[[str, str], object]
    is_anew: bool = True
    keeps_statistics: bool = True


def vacuum_into(path: str, copy: str) -> None:
    """By VACUUM INTO."""
    connection = connect(path)
    connection.execute("VACUUM INTO ?", [copy])
    connection.close()


def vacuum(path: str, copy: str) -> None:
    """By VACUUM in a copy of the file and its log."""
    for end in ("", "-wal"):
        if os.path.exists(path + end):
            shutil.copy(path + end, copy + end)
    change_file(copy, changed_by("VACUUM"))


def backup(path: str, copy: str) -> None:
    """By the interface for backups, which copies pages."""
    source, target = connect(path), connect(copy)
    source.backup(target)
    target.close()
    source.close()


def shell(path: str, *words: str, text: str = "") -> str:
    """What the stock shell prints that has these commands for a file, or this text."""
    return subprocess.run([SHELL or "sqlite3", path, *words], input=text, capture_output=True, text=True, check=True).stdout


PYTHONS = (Way("VACUUM INTO", vacuum_into), Way("VACUUM", vacuum), Way("the interface for backups", backup, False))
SHELLS = (
    Way("the shell's VACUUM INTO", lambda path, copy: shell(path, f"VACUUM INTO '{copy}'")),
    Way("the shell's .dump", lambda path, copy: shell(copy, text=shell(path, ".dump"))),
    Way("the shell's .clone", lambda path, copy: shell(path, f".clone {copy}"), keeps_statistics=False),
    Way("the shell's .backup", lambda path, copy: shell(path, f".backup {copy}"), False),
)
WAYS = PYTHONS + (SHELLS if SHELL else ())


# ---- what is copied

class Left(NamedTuple):
    """A desk that was left: its tables, the lines of another day, and all that is printed of that."""
    name: str
    tables: Tables
    lines: str
    printed: str

    def plain(self) -> Plain:
        """The day at the plain desk."""
        return Plain(script_lines(self.lines), {}, left=self.tables, moment=OLD_DAY, is_kept=True)


class Copied(Worked):
    """Copies of desks' files."""

    looks_at = "copied"

    def lefts(self) -> list[Left]:
        """Desks of each version."""
        older = [Left(str(it), self.made(it)[1], it.lines, it.printed) for it in OLDER]
        newest = [Left(f"{it} in the newest", as_version(self.made(it)[1], SCHEMA_VERSION), it.lines, it.printed) for it in FULL_OLDER.values()]
        newest += [Left(f"{it.name} of the newest", Plain(script_lines(it.first), {}, is_kept=True).states[-1], it.second, it.printed) for it in two_days()]
        self.assertEqual({*SCHEMAS}, {it.tables.version for it in older + newest})
        return older + newest

    def copy_of(self, path: str, way: Way) -> str:
        """A folder with a copy of a file."""
        folder = self.cases.folder()
        way.copies(path, f"{folder}/desk.db")
        return folder

    def is_made(self, folder: str, wanted: list[str]) -> str:
        """In what the tables of a file are not made by these statements, in order, and sound."""
        connection = connect(f"{folder}/desk.db", "immutable=1")
        try:
            made, sound = statements_of(connection), connection.execute("PRAGMA integrity_check").fetchall()
        finally:
            connection.close()
        return "" if (made, sound) == (wanted, [("ok",)]) else f"it is made by {made}, and {sound}"

    def board_of(self, folder: str) -> str:
        """The page of a file, which stays as it is; of one that is not shown a text that no other folder has."""
        before = digests(folder)
        ran = self.cases.call(folder, ["board", "desk.db"])
        return ran.out if (ran.status, ran.err, changed(before, folder)) == (0, "", "") else f"{folder}: {ran}"

    def worked(self, left: Left, way: Way, source: str, beside: str) -> str:
        """A folder with a copy of a file, which is reported, shown, worked, and opened again, as the file itself that was worked beside it."""
        name, made = f"{left.name}, by {way.name}", SCHEMAS[left.tables.version]
        folder, plain, ordered = self.copy_of(source, way), left.plain(), copied(made) if way.is_anew else made
        self.tell(name, self.is_made(folder, ordered), *self.reported(folder, left.tables))
        self.tell(name, "" if self.board_of(folder) == self.board_of(os.path.dirname(source)) else "its board is another")
        self.tell(name, *self.day(left.lines, left.printed, folder), *self.newest(folder, plain.states[-1]), self.is_made(folder, ordered + SCHEMA[len(made):]))
        self.tell(name, "" if stored(f"{folder}/desk.db")[1] == stored(f"{beside}/desk.db")[1] else "its rows are not those of the file itself")
        self.tell(name, *self.again(folder, plain.states[-1]))
        return folder

    def again(self, folder: str, tables: Tables) -> list[str]:
        """In what an opening of a copy with these tables is not right; one behind it moves nothing then, and changes no byte."""
        ran, opened = run_kept(ASKED.program, folder, "desk.db", AGAIN, "/dev/null"), opened_tables(tables, AGAIN)
        is_right = (ran.status, ran.lines, ran.errors) == (0, [*map(move_line, opened_moves(tables, AGAIN)), places_line(opened)], "")
        return ["" if is_right else f"opened: {ran}", *super().again(folder, opened)]

    def copied_again(self, name: str, folder: str, way: Way, tables: Tables) -> None:
        """A copy of a copy, by SQLite and by the program, which is a desk with the same tables."""
        ran = self.cases.call(folder, ["backup", "desk.db", "backup.db"])
        self.tell(f"{name}, backup", "" if (ran.status, ran.err) == (0, "") else f"{ran}")
        other = self.cases.folder()
        shutil.move(f"{folder}/backup.db", f"{other}/desk.db")
        for what, where in ((f"copied by {way.name}", self.copy_of(f"{folder}/desk.db", way)), ("copied by backup", other)):
            self.tell(f"{name}, {what}", *self.again(where, tables), *self.newest(where, tables))

    def test_copies(self) -> None:
        """Each file in each way; each copy then in the way that comes behind it."""
        lefts = self.lefts()
        for left in lefts:
            folder, beside = self.cases.folder(), self.cases.folder()
            for where in (folder, beside):
                make_file(f"{where}/desk.db", left.tables)
            self.tell(left.name, *self.day(left.lines, left.printed, beside))
            for at, way in enumerate(WAYS):
                copy = self.worked(left, way, f"{folder}/desk.db", beside)
                self.copied_again(f"{left.name}, by {way.name}", copy, WAYS[(at + 1) % len(WAYS)], opened_tables(left.plain().states[-1], AGAIN))
        self.settle(f"{len(lefts)} files in {len(WAYS)} ways")
        if not SHELL:
            print("not tried: copies by the stock shell, which is not installed (Debian: sqlite3)")

    def test_logs(self) -> None:
        """Files whose program was killed, with all rows in the log beside them: SQLite reads both."""
        for left in (it for it in self.lefts() if it.name.startswith(("every-table", "waiting"))):
            for way in WAYS:
                folder = self.cases.folder()
                make_file(f"{folder}/desk.db", left.tables, is_left_open=True)
                copy = self.copy_of(f"{folder}/desk.db", way)
                self.tell(f"{left.name} in a log, by {way.name}", *self.reported(copy, left.tables))
                ran = run_kept(ASKED.program, copy, "desk.db", OLD_DAY, "/dev/null")
                self.tell(f"{left.name} in a log, by {way.name}", why_not_opened(ran, copy, OLD_DAY, left.tables))
        self.settle(f"logs in {len(WAYS)} ways")

    def refused(self, folder: str) -> list[str]:
        """In what a file is not refused as one whose tables are no desk's, and left as it is, by each command."""
        faults = []
        for words, told in REFUSED:
            before = bytes_of(f"{folder}/desk.db")
            ran = subprocess.run([ASKED.program, *words], cwd=folder, capture_output=True, text=True, check=False)
            is_right = (ran.returncode, ran.stdout, ran.stderr) == (2, "", told) and bytes_of(f"{folder}/desk.db") == before and not os.path.exists(f"{folder}/none.db")
            faults.append("" if is_right else f"{words[0]}: {ran}")
        return faults

    def mended(self, folder: str) -> None:
        """Does what the manual says to a file that was analyzed, by the stock shell where it is there."""
        with open(f"{TOP}/docs/manual/copies.md", encoding="utf-8") as manual:
            said = MENDED.findall(manual.read())
        self.assertEqual(1, len(said), "the manual says it in one line")
        if SHELL:
            shell(f"{folder}/desk.db", said[0])
        else:
            change_file(f"{folder}/desk.db", changed_by(*said[0].split("; ")))

    def test_statistics(self) -> None:
        """A file that was analyzed is refused, and so is each copy that has what ANALYZE left; where the manual is followed, each is opened as it was."""
        for older in FULL_OLDER.values():
            analyzed, tables = self.made(older)
            change_file(f"{analyzed}/desk.db", changed_by("ANALYZE"))
            copies = [(way.name, self.copy_of(f"{analyzed}/desk.db", way), way.keeps_statistics) for way in WAYS]
            for way, folder, keeps in [("the file itself", analyzed, True), *copies]:
                name = f"{older}, analyzed, {way}"
                if keeps:
                    self.tell(name, *self.refused(folder))
                    self.mended(folder)
                self.tell(f"{name}, mended", *self.reported(folder, tables))
                ran = run_kept(ASKED.program, folder, "desk.db", OLD_DAY, "/dev/null")
                self.tell(f"{name}, mended", why_not_opened(ran, folder, OLD_DAY, tables), *self.again(folder, opened_tables(tables, OLD_DAY)))
        self.settle(f"{len(FULL_OLDER)} files that were analyzed, each copied in {len(WAYS)} ways")

    def test_by_name(self) -> None:
        """What Python's iterdump prints, read back: its tables stand by their names."""
        for older in FULL_OLDER.values():
            folder, copy = self.made(older)[0], self.cases.folder()
            source, target = sqlite3.connect(f"{folder}/desk.db"), connect(f"{copy}/desk.db")
            target.executescript("\n".join(source.iterdump()))
            target.close()
            source.close()
            self.tell(f"{older}, by iterdump", *self.refused(copy))
        self.settle(f"{len(FULL_OLDER)} files in order of name")
