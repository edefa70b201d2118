"""What the program does with scripts, files, texts and requests, put down once: the readings with a fault in them are then held against it, and no
program runs any more. The scripts are written beside the plain desk as it stands, so that they fit how a desk stands.
"""
import os
import sqlite3
import subprocess
from collections.abc import Sequence
from dataclasses import dataclass, field
from typing import NamedTuple, Optional

Rows = dict[str, list[tuple[object, ...]]]
LONGEST = 300  # seconds of one run of the program


@dataclass
class Script:
    """A script with its options and the files that it loads; what the program printed of it; and the tables that it left, where it was kept."""
    title: str
    lines: list[str]
    options: dict[str, int] = field(default_factory=dict)
    files: dict[str, bytes] = field(default_factory=dict)
    is_kept: bool = False
    printed: list[str] = field(default_factory=list)
    status: int = 0
    tables: Optional[Rows] = None


class Opening(NamedTuple):
    """The tables of a file, and what the program printed as it opened it at a moment and was given some lines, and left: none where it refused the
    file."""
    title: str
    before: Rows
    moment: int
    printed: Optional[list[str]]
    after: Optional[Rows]
    lines: list[str]
    files: dict[str, bytes]


class File(NamedTuple):
    """A file of a desk, the rows of its tables, and the statements that made it."""
    data: bytes
    rows: Rows
    schema: list[str]


class Text(NamedTuple):
    """A text, and what `check` told of it."""
    kind: str
    data: bytes
    told: str


class Exchange(NamedTuple):
    """What a peer sent, and what it was answered."""
    raw: bytes
    response: bytes


class Served(NamedTuple):
    """Exchanges, one after the other, on a desk that answered these lines before, which may load these files; and the tables that it left."""
    title: str
    before: list[str]
    files: dict[str, bytes]
    exchanges: list[Exchange]
    tables: Rows


@dataclass
class Recorded:
    """All that was put down."""
    scripts: list[Script] = field(default_factory=list)
    openings: list[Opening] = field(default_factory=list)
    files: list[File] = field(default_factory=list)
    texts: list[Text] = field(default_factory=list)
    served: list[Served] = field(default_factory=list)


def rows_of(path: str) -> Rows:
    """All rows of the tables of a file, in the order in which they were written; each byte of a text is one character."""
    connection = sqlite3.connect(f"file:{path}?immutable=1", uri=True)
    connection.text_factory = lambda raw: raw.decode("latin-1")
    try:
        names = [it for it, in connection.execute("SELECT name FROM sqlite_schema WHERE type = 'table' ORDER BY rowid")]
        return {it: connection.execute(f"SELECT * FROM {it} ORDER BY rowid").fetchall() for it in names}
    finally:
        connection.close()


def schema_of(path: str) -> list[str]:
    """The statements by which a file was made."""
    connection = sqlite3.connect(f"file:{path}?immutable=1", uri=True)
    try:
        return [it for it, in connection.execute("SELECT sql FROM sqlite_schema WHERE sql IS NOT NULL ORDER BY rowid")]
    finally:
        connection.close()


def file_of(path: str) -> File:
    """A file as it lies there."""
    with open(path, "rb") as file:
        return File(file.read(), rows_of(path), schema_of(path))


def run_in(folder: str, words: list[str]) -> tuple[int, list[str]]:
    """Runs a program in a folder: its status, and the lines that it prints."""
    ran = subprocess.run(words, cwd=folder, stdin=subprocess.DEVNULL, stdout=subprocess.PIPE, stderr=subprocess.PIPE, timeout=LONGEST, check=False)
    return ran.returncode, ran.stdout.decode("latin-1").split("\n")[:-1]


def write_script(folder: str, lines: Sequence[str]) -> None:
    """Writes a script, each character of which is a byte."""
    with open(f"{folder}/script.tc", "w", encoding="latin-1", newline="") as text:
        text.write("".join(f"{it}\n" for it in lines))


def record(program: str, script: Script, folder: str) -> None:
    """Runs a script in a folder of its own, and puts down what came of it; the file `kept.db` stays there where it is kept."""
    for name, data in script.files.items():
        with open(f"{folder}/{name}", "wb") as file:
            file.write(data)
    write_script(folder, script.lines)
    words = [word for name, value in script.options.items() for word in (f"--{name}", str(value))]
    kept = ["--db", "kept.db"] if script.is_kept else []
    script.status, script.printed = run_in(folder, [program, "run", *words, *kept, "script.tc"])
    script.tables = rows_of(f"{folder}/kept.db") if script.is_kept else None


# ---- files that are opened again

def opening(
    program: str, folder: str, path: str, title: str, moment: int, lines: Sequence[str] = (), files: Optional[dict[str, bytes]] = None
) -> Opening:
    """Opens a file at a moment, with these lines behind, and puts down what came of it."""
    before = rows_of(path)
    write_script(folder, lines)
    status, printed = run_in(folder, [program, "run", "--db", path, "--at", str(moment), "script.tc"])
    is_taken = status in (0, 1)
    return Opening(title, before, moment, printed if is_taken else None, rows_of(path) if is_taken else None, [*lines], files or {})

