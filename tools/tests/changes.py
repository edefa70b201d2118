"""Files of desks that are changed by SQLite, and what becomes of them when they are opened."""
import os
import shutil
from dataclasses import dataclass, field
from typing import Any

from model.kept import connect, read_tables, sqlite3, tables_of
from model.rows import Tables, move_line, places_line
from model.tables import opened_moves, opened_tables
from tests.runs import Ran, bytes_of


@dataclass
class Change:
    """What is done to a desk's file: in words, and the statements, each with its values."""
    text: str
    statements: list[tuple[str, list[Any]]] = field(default_factory=list)


def changed_by(*statements: str) -> Change:
    """A change by these statements, which have no values."""
    return Change("; ".join(statements), [(it, []) for it in statements])


def change_file(path: str, change: Change) -> bool:
    """Makes the change, so that the file alone holds everything; false where the schema refuses it."""
    connection = connect(path)
    try:
        connection.execute("PRAGMA synchronous = OFF")
        for sql, values in change.statements:
            connection.execute(sql, values)
        connection.execute("PRAGMA wal_checkpoint(TRUNCATE)")
    except sqlite3.IntegrityError:
        return False
    finally:
        connection.close()
    for end in ("-wal", "-shm"):
        if os.path.exists(path + end):
            os.remove(path + end)
    return True


def fresh_tables(folder: str) -> Tables:
    """What a reader sees who takes the file with all that lies beside it."""
    os.mkdir(f"{folder}/fresh")
    for end in ("", "-wal", "-journal"):
        if os.path.exists(f"{folder}/desk.db{end}"):
            shutil.copy(f"{folder}/desk.db{end}", f"{folder}/fresh/desk.db{end}")
    connection = connect(f"{folder}/fresh/desk.db")
    try:
        return tables_of(connection)
    finally:
        connection.close()


def left_beside(folder: str) -> list[str]:
    """What a run left beside the file that it should not: only a log may stay there, whose header has no row behind it."""
    names = [it for it in os.listdir(folder) if it not in ("desk.db", "fresh")]
    return [it for it in names if it != "desk.db-wal" or os.path.getsize(f"{folder}/{it}") >= 100]


def why_not_refused(ran: Ran, folder: str, before: bytes, tables: Tables) -> str:
    """How a run differs from one that refuses a file and leaves it; nothing where it does not."""
    if ran.status != 2 or ran.lines or ran.errors != "tcdesk: cannot use desk.db\n":
        return f"status {ran.status}, {ran.lines[:3]}, {ran.errors!r:.100}"
    if bytes_of(f"{folder}/desk.db") != before:
        return "the file was changed"
    if left_beside(folder):
        return f"beside it stay {left_beside(folder)}"
    return "" if fresh_tables(folder) == tables else "a reader sees other tables"


def why_not_opened(ran: Ran, folder: str, moment: int, tables: Tables) -> str:
    """How a run differs from one that opens the desk and does nothing more; nothing where it does not."""
    after = opened_tables(tables, moment)
    lines = [move_line(it) for it in opened_moves(tables, moment)] + [places_line(after)]
    if ran.status or ran.errors or ran.lines != lines:
        return f"status {ran.status}, {ran.lines[:3]}, {ran.errors!r:.100}"
    if read_tables(f"{folder}/desk.db") != after:
        return "the file has other tables"
    if left_beside(folder):
        return f"beside it stay {left_beside(folder)}"
    return "" if fresh_tables(folder) == after else "a reader sees other tables"
