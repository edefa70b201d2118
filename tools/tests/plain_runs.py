"""What the plain desk makes of a run: all that has to be printed, and the tables, after each of its lines."""
import os
import tempfile
from typing import Iterable, Optional, Sequence

from model.desk import Desk, desk_by
from model.kept import are_desks, connect, sqlite3, statements_of, tables_of
from model.lines import script_lines
from model.rows import ROWS, Tables
from tests.asked import TOOLS
from tests.runs import bytes_of

CASES = f"{TOOLS}/cases"
# What a desk that has stopped prints for what reaches it, and what a line is told that does not read, whether the desk has stopped or not.
STOPPED, UNREAD = "refused 32 Stopped\n", ("refused 1 BadText\n", "refused 17 TooLong\n")


def case_lines(name: str) -> list[str]:
    """The lines of a script of tools/cases that are answered."""
    return script_lines(bytes_of(f"{CASES}/{name}.tc").decode("latin-1"))


def case_files() -> dict[str, bytes]:
    """The files that the scripts of tools/cases load, by their names."""
    return {it: bytes_of(f"{CASES}/data/{it}") for it in os.listdir(f"{CASES}/data")}


def text_of(lines: Iterable[str]) -> str:
    """Lines as they are printed."""
    return "".join(f"{it}\n" for it in lines)


class Plain:
    """A run of these lines on a new desk, or on one that is opened over tables at a moment. `fronts` has what is printed before each line, and behind
    the last; `last` the counts at the end; `states` the tables where a file keeps the desk."""

    def __init__(self, lines: Sequence[str], files: dict[str, bytes], options: Sequence[str] = (), left: Optional[Tables] = None, moment: int = 0,
                 is_kept: bool = False) -> None:
        desk = Desk.opened(left, moment, files=files) if left else desk_by(list(options), files)
        self.lines = list(lines)
        self.opening = text_of(it.line() for it in desk.opening)
        self.fronts, self.states = [self.opening], [desk.tables()] if is_kept else []
        for line in lines:
            self.fronts.append(self.fronts[-1] + text_of(desk.line(line)))
            if is_kept:
                self.states.append(desk.tables())
        self.last, self.status = desk.places() + "\n", desk.status()

    @property
    def whole(self) -> str:
        """All that is printed."""
        return self.fronts[-1] + self.last

    def reply(self, number: int) -> str:
        """What the line of this number, from 0, is answered."""
        return self.fronts[number + 1][len(self.fronts[number]):]

    def stopped(self, number: int) -> str:
        """What is printed behind the line of this number where the desk stops at it; the counts at the end come behind the last line."""
        told = [*map(self.reply, range(number + 1, len(self.lines))), *([self.last] if number < len(self.lines) else [])]
        return "".join(it if it in UNREAD else STOPPED for it in told)

    def behind(self, number: int) -> str:
        """What is printed from this line on."""
        return self.whole[len(self.fronts[number]):]


def kept_tables(path: str, words: str = "mode=ro") -> Optional[Tables]:
    """The tables that a file and the log beside it hold; none where no table is there. It raises sqlite3.Error where the database is not sound, or
    its tables are not a desk's."""
    connection = connect(path, words)
    try:
        made = statements_of(connection)
        sound = connection.execute("PRAGMA integrity_check").fetchall()
        if sound != [("ok",)] or made and not are_desks(connection):
            raise sqlite3.DatabaseError(f"no desk's: {sound}, {made}")
        return tables_of(connection) if made else None
    finally:
        connection.close()


def unlike(found: Optional[Tables], wanted: Tables) -> str:
    """In what these tables are not those that are wanted, in words; nothing where they are."""
    if found is None:
        return "there is no table"
    parts = [] if found.version == wanted.version else [f"of version {found.version}, and not {wanted.version}"]
    for name in ROWS:
        there, right = getattr(found, name), getattr(wanted, name)
        if there != right:
            missing, more = [it for it in right if it not in there], [it for it in there if it not in right]
            parts.append(f"{name}: missing {missing[:3]}, of {len(missing)}; more {more[:3]}, of {len(more)}")
    return "; ".join(parts)
