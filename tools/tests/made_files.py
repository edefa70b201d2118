"""Files of desks that SQLite makes, and not the program: of any version of the schema, with any rows."""
import os
import shutil
import tempfile
from dataclasses import replace
from typing import NamedTuple, Optional, Union

from model.facts import COLUMNS, SCHEMA_VERSION, SCHEMAS, TABLES
from model.kept import connect, sqlite3
from model.rows import ROWS, Reply, Tables
from tests.changes import Change, change_file
from tests.plain_runs import CASES
from tests.runs import bytes_of, write_files

BEHIND_A_LOG = bytes(9)  # what a program leaves behind a log, which SQLite does not
EARLIER = tuple(version for version in SCHEMAS if version < SCHEMA_VERSION)


class Older(NamedTuple):
    """A file of an earlier version, which a program wrote that knew no later one: statements that make it, a day at it, and what that program printed of the day.
    Nothing makes such files any more."""
    version: int
    name: str

    def __str__(self) -> str:
        """How it is told."""
        return f"{self.name} of version {self.version}"

    @property
    def path(self) -> str:
        """Where it lies in tools/cases, without what its files end on."""
        return f"{CASES}/schema-{self.version}/{self.name}"

    @property
    def lines(self) -> str:
        """The lines of its day."""
        return bytes_of(f"{self.path}.day2").decode()

    @property
    def printed(self) -> str:
        """All that is printed of the day."""
        return bytes_of(f"{self.path}.day2.stdout").decode()


def names_in(version: int) -> list[str]:
    """The names of the files of a version."""
    return sorted(it.removesuffix(".sql") for it in os.listdir(f"{CASES}/schema-{version}") if it.endswith(".sql"))


class TwoDays(NamedTuple):
    """A desk of tools/cases/days: the lines of its first day, those of the day at which it is opened again, and all that is printed of that one."""
    name: str
    first: str
    second: str
    printed: str


def two_days() -> list[TwoDays]:
    """All of them, in order of name."""
    paths = sorted(f"{CASES}/days/{it.removesuffix('.day1')}" for it in os.listdir(f"{CASES}/days") if it.endswith(".day1"))
    return [TwoDays(os.path.basename(it), *(bytes_of(f"{it}{end}").decode() for end in (".day1", ".day2", ".day2.stdout"))) for it in paths]


OLD_DAY = 500  # when the day of each begins, and the second day of those of tools/cases/days
OLDER = tuple(Older(version, name) for version in EARLIER for name in names_in(version))
# One of each earlier version, of which each table has rows.
FULL_OLDER = {version: Older(version, "every-table") for version in EARLIER}


def bound(value: Optional[Union[int, str]]) -> Optional[Union[bytes, int]]:
    """A value as it is bound: a text by its bytes, which need not be any text."""
    return value.encode("latin-1") if isinstance(value, str) else value


def mark_of(value: Optional[Union[int, str]]) -> str:
    """The mark that stands for a value in a statement."""
    return "CAST(? AS TEXT)" if isinstance(value, str) else "?"


def put_rows(connection: sqlite3.Connection, tables: Tables) -> None:
    """Writes all rows into tables that are empty, in order."""
    for name in TABLES[tables.version]:
        marks = ", ".join(mark_of(kind()) for kind in COLUMNS[name].values())
        connection.executemany(f"INSERT INTO {name} VALUES ({marks})", ([bound(it) for it in row] for row in getattr(tables, name)))


def make_file(path: str, tables: Tables, is_left_open: bool = False) -> None:
    """Makes a file with these tables, of their version; or one that was left open, whose tables are all in the log beside it."""
    with tempfile.TemporaryDirectory(dir=os.path.dirname(path)) as folder:
        connection = connect(f"{folder}/made.db")
        try:
            connection.execute("PRAGMA synchronous = OFF")
            if is_left_open:
                connection.execute("PRAGMA journal_mode = WAL")
                connection.execute("PRAGMA wal_autocheckpoint = 0")
            connection.execute("BEGIN")
            for statement in SCHEMAS[tables.version]:
                connection.execute(statement)
            put_rows(connection, tables)
            connection.execute("COMMIT")
            shutil.copy(f"{folder}/made.db", path)
            if is_left_open:
                write_files(os.path.dirname(path), {f"{os.path.basename(path)}-wal": bytes_of(f"{folder}/made.db-wal") + BEHIND_A_LOG})
        finally:
            connection.close()


def as_version(tables: Tables, version: int) -> Tables:
    """The same rows under a version, without those that it has no table for."""
    return replace(tables, meta=[("schema", version)], version=version, **{name: [] for name in ROWS if name not in TABLES[version]})


def make_older(path: str, older: Older) -> None:
    """Makes one of the files of an earlier version."""
    connection = connect(path)
    try:
        connection.executescript(bytes_of(f"{older.path}.sql").decode())
    finally:
        connection.close()


def some_replies(count: int) -> list[Reply]:
    """So many replies to some persons, of one line and of many, under numbers up to the last that there is."""
    persons, bodies = ("ann", "z" * 16, "7"), ("ok\n", "\n", "ok request 1 5/0\nmove 1 100 ann 1 - Entered enter\n", "history 1: 0\n" + "x\n" * 500)
    numbers = [1, 2**32 - 1, *range(2, count)]
    return [Reply(persons[at % 3], numbers[at], bodies[at % 4]) for at in range(count)]


def keep_replies(path: str, count: int) -> None:
    """Puts so many replies into the file of a desk that has none, so that the file alone holds everything."""
    rows = [("INSERT INTO reply VALUES (?, ?, ?)", [*it]) for it in some_replies(count)]
    change_file(path, Change(f"{count} replies", rows))
