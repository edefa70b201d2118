"""What the program says on standard error beside what most tests look for. Of a desk that it makes: one line, before all else, and only where a file held no table yet. Why
something cannot be used, and that an opening lies before the last move, are left out: test_told.py looks for these.
"""
import os
import re
import shutil
import tempfile
from typing import Sequence

from model.kept import connect, sqlite3

BESIDE = re.compile(r"^tcdesk: (because .*|opened at [0-9]+, before the last move at [0-9]+)\n", re.MULTILINE)
WHY = re.compile(r"^tcdesk: because (.*)$", re.MULTILINE)
PAGE = 4096  # a file with no table has no more bytes than that


def new_desk(name: str) -> str:
    """The line, of a file by its name as it was given."""
    return f"tcdesk: {name} is a new desk\n"


def holds_no_table(path: str) -> bool:
    """Whether a file, with the log beside it, has no table yet. SQLite looks at a copy, so that nothing is changed. A page that it does not read has none: so a
    stop leaves one that was only being written."""
    if not os.path.exists(path) or os.path.isdir(path) or os.path.getsize(path) > PAGE:
        return not os.path.exists(path)
    with tempfile.TemporaryDirectory() as folder:
        for end in ("", "-wal"):
            if os.path.exists(path + end):
                shutil.copy(path + end, f"{folder}/copy.db{end}")
        connection = connect(f"{folder}/copy.db")
        try:
            return not connection.execute("SELECT 1 FROM sqlite_schema").fetchall()
        except sqlite3.DatabaseError:
            return True
        finally:
            connection.close()


def file_of(words: Sequence[str]) -> str:
    """The file in which a desk is kept that is opened by these words of a command line; nothing where it is in memory."""
    if words[0] in ("serve", "loop"):
        return words[1]
    return words[words.index("--db") + 1] if words[0] == "run" and "--db" in words else ""


def said_first(folder: str, words: Sequence[str]) -> str:
    """What the program has to say first by these words in a folder, as its files are now: that it made a new desk, or nothing."""
    name = file_of(words)
    return new_desk(name) if name and holds_no_table(os.path.join(folder, name)) else ""


def without_beside(err: str) -> str:
    """What was said but for reasons and early openings."""
    return BESIDE.sub("", err)


def why_in(err: str) -> str:
    """Why something cannot be used, by what was said; nothing where that is not told."""
    return "; ".join(WHY.findall(err))


def said_then(first: str, status: int, err: str) -> str:
    """What was said besides on standard error, where that had to be said first; that it was not, but where a run ended with 2, which may come before."""
    err = without_beside(err)
    if err.startswith(first):
        return err[len(first):]
    return err if status == 2 else f"{err}[and not, as is due: {first.strip()}]"
