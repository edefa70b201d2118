"""A digest of all that the tables of a desk hold: every row, with its number, of every table, and the statements that made them.

    tables.py FILE          prints that of a file, and of the log beside it, which no desk has open: of a copy, say
"""
import hashlib
import sqlite3
import sys
from contextlib import closing


def digest_of(path: str) -> str:
    """The digest of a file."""
    found = hashlib.sha256()
    with closing(sqlite3.connect(path)) as database:
        database.text_factory = bytes
        made = database.execute("SELECT type, name, sql FROM sqlite_schema ORDER BY rowid").fetchall()
        found.update(repr(made).encode())
        for name in [name.decode() for kind, name, _ in made if kind == b"table"]:
            found.update(b"\n" + name.encode())
            for row in database.execute(f"SELECT rowid, * FROM {name} ORDER BY rowid"):
                found.update(repr(row).encode())
    return found.hexdigest()


if __name__ == "__main__":
    print(digest_of(sys.argv[1]))
