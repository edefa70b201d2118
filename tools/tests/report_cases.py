"""How cases of the shift report are run and counted. The command has to leave each file of its folder byte for byte, but for the few bytes of a log
that holds nothing, and to make none.
"""
import hashlib
import os
import re
import shutil
import subprocess
import tempfile
import unittest
from itertools import zip_longest
from pathlib import Path
from typing import Any, Callable, Iterable, NamedTuple, Optional, Sequence

from tests.asked import ASKED
from tests.changes import change_file, changed_by
from tests.new_desks import said_first, said_then
from tests.report_printer import Moved, moves_in, places_of, report_of
from tests.runs import quick_folder, write_lines

LAST = 4102444799
Shift = tuple[int, int]
ALL: Shift = (0, LAST)
ENTRY = "enter 5 a--c no 8 1 - - ok"
WORKED = ["100 ann enter 5 a--c no 8 1 - - ok", "110 bob enter 5 a--c no 8 2 - - ok", "120 ann withdraw 1"]


# ---- what differs: no text where nothing does

class Ran(NamedTuple):
    """How the program ended, what it printed, and what it said but for the line that it made a new desk, where that was due."""
    status: int
    out: str
    err: str


def unless(holds: object, fault: str) -> str:
    """This fault, where that does not hold."""
    return "" if holds else fault


def difference(want: str, got: str) -> str:
    """Where a text differs from the one that is wanted."""
    pairs = enumerate(zip_longest(want.split("\n"), got.split("\n")), 1)
    return next((f"line {at} is {found!r:.120}, and not {it!r:.120}" for at, (it, found) in pairs if it != found), "")


def unlike(ran: Ran, out: str, err: Optional[str], status: int) -> list[str]:
    """In what a run differs from one of this output, error (where that is None: any, but one) and status."""
    is_said = ran.err == err or err is None and ran.err != ""
    return [unless(ran.status == status, f"status {ran.status}, and not {status}"), difference(out, ran.out),
            unless(is_said, f"on standard error {ran.err!r:.150}")]


def digest_of(path: Path) -> str:
    """A sum of a file's bytes. A log with fewer bytes than a frame has holds nothing, and an opening writes its few bytes anew."""
    if path.name.endswith("-wal") and path.stat().st_size < 64:
        return "a log that holds nothing"
    return hashlib.sha256(path.read_bytes()).hexdigest()


def digests(folder: str) -> dict[str, str]:
    """A digest of each file of a folder."""
    return {it.name: digest_of(it) for it in Path(folder).iterdir() if it.is_file()}


def changed(before: dict[str, str], folder: str) -> str:
    """Which files of a folder are not what they were."""
    names = sorted(name for name, _ in before.items() ^ digests(folder).items())
    return unless(not names, f"changed, made or gone: {' '.join(dict.fromkeys(names))}")


# ---- cases

REPORTS = re.compile("^(SHIFT REPORT\n.*?^END\n)", re.MULTILINE | re.DOTALL)
PREMISES = re.compile("^link up .* premise (.*)$", re.MULTILINE)
LINK = ("fop ", "farm ", "link up ")


def questions(*shifts: Shift) -> list[str]:
    """Lines that ask how the link stands, and then for the reports of these shifts."""
    return ["0 zed link"] + [f"0 zed report {begin} {end}" for begin, end in shifts]


class Cases:
    """The program, a folder to work in, and how many cases passed."""

    def __init__(self, program: str, work: str) -> None:
        self.program, self.work, self.passed, self.failed = program, work, 0, 0

    def tell(self, name: str, *faults: str) -> None:
        """Counts a case, and says what differs."""
        said = "; ".join(it for it in faults if it)
        self.passed += not said
        self.failed += bool(said)
        if said:
            print(f"{name}: {said}", flush=True)

    def folder(self) -> str:
        """A new folder."""
        return tempfile.mkdtemp(dir=self.work)

    def copy(self, folder: str, *ends: str) -> str:
        """A new folder with the desk's file of this one, and what lies beside it by these ends."""
        made = self.folder()
        for end in ("", *ends):
            if os.path.exists(f"{folder}/desk.db{end}"):
                shutil.copy(f"{folder}/desk.db{end}", made)
        return made

    def call(self, folder: str, words: Sequence[str], out: Any = subprocess.PIPE, first: Optional[Callable[[], None]] = None) -> Ran:
        """Runs the program in a folder."""
        due = said_first(folder, words)
        it = subprocess.run([self.program, *words], cwd=folder, stdin=subprocess.DEVNULL, stdout=out, stderr=subprocess.PIPE,
                            timeout=900, preexec_fn=first, check=False)
        return Ran(it.returncode, (it.stdout or b"").decode("latin-1"), said_then(due, it.returncode, it.stderr.decode("latin-1")))

    def run(self, folder: str, lines: Iterable[str], *words: str) -> Ran:
        """Runs a script on a new desk in memory, or on that of the folder where the words say so."""
        write_lines(f"{folder}/script.tc", lines)
        return self.call(folder, ["run", *words, "script.tc"])

    def made(self, lines: Iterable[str]) -> tuple[str, list[Moved]]:
        """A folder with a new desk, after these lines, and its moves."""
        folder = self.folder()
        ran = self.run(folder, lines, "--db", "desk.db")
        self.tell("a desk is made", unless(ran.status == 0 and not ran.err, f"status {ran.status}: {ran.err}"))
        return folder, moves_in(ran.out)

    def ask(self, name: str, folder: str, words: Sequence[str], out: str, err: Optional[str] = "", status: int = 0) -> None:
        """Asks by the command, which has to end so, and to leave the files of the folder."""
        self.tell(f"{name}: tcdesk report {' '.join(words)}", *self.why_not(folder, words, out, err, status))

    def why_not(self, folder: str, words: Sequence[str], out: str, err: Optional[str] = "", status: int = 0) -> list[str]:
        """In what the command does otherwise than to end so, and to leave the files of the folder."""
        before = digests(folder)
        ran = self.call(folder, ["report", *words])
        return [*unlike(ran, out, err, status), changed(before, folder)]

    def closed(self, name: str, folder: str, moves: Sequence[Moved], *shifts: Shift) -> None:
        """Asks by the command for the reports of shifts, on a desk that has these moves."""
        for begin, end in shifts:
            self.ask(name, folder, ["desk.db", str(begin), str(end)], report_of(moves, "closed", begin, end))

    def unusable(self, name: str, folder: str, file: str = "desk.db") -> None:
        """Asks by the command of a file that cannot be used."""
        self.ask(name, folder, [file, "0", str(LAST)], "", f"tcdesk: cannot use {file}\n", 2)

    def asked(self, name: str, ran: Ran, shifts: Sequence[Shift], moves: Sequence[Moved] = ()) -> list[Moved]:
        """Looks at the reports that a run printed, of these shifts, on a desk that had these moves before. Gives all its moves."""
        parts, moves, premise = REPORTS.split(ran.out), list(moves), "kept"
        for (begin, end), text, report in zip(shifts, parts[::2], parts[1::2]):
            moves += moves_in(text)
            premise = ([premise] + PREMISES.findall(text))[-1]
            self.tell(f"{name}: the question report {begin} {end}", difference(report_of(moves, premise, begin, end), report))
        moves += moves_in(parts[-1])
        self.tell(f"{name}: the run", unless(ran.status < 2 and not ran.err, f"status {ran.status}: {ran.err}"),
                  unless(len(parts) // 2 == len(shifts), f"{len(parts) // 2} reports, and not {len(shifts)}"),
                  difference(f"{places_of(moves)}\n", "\n".join(parts[-1].split("\n")[-2:])))
        return moves

    def both(self, name: str, lines: list[str], shifts: Sequence[Shift]) -> tuple[str, list[Moved]]:
        """Asks of these shifts behind these lines: on a desk in memory, on one in a file, and by the command."""
        folder, lines = self.folder(), lines + questions(*shifts)
        self.asked(f"{name}, in memory", self.run(folder, lines), shifts)
        moves = self.asked(f"{name}, in a file", self.run(folder, lines, "--db", "desk.db"), shifts)
        self.closed(name, folder, moves, *shifts)
        return folder, moves


def change(folder: str, *statements: str) -> None:
    """Changes a desk by SQLite, so that its file alone holds everything."""
    change_file(f"{folder}/desk.db", changed_by(*statements))


class Reported(unittest.TestCase):
    """Groups of cases of reports, each in a folder of its own; a case that failed is printed as it comes."""

    def setUp(self) -> None:
        """A folder to work in, and no case yet."""
        folder = tempfile.TemporaryDirectory(prefix="reports-", dir=quick_folder())
        self.addCleanup(folder.cleanup)
        self.cases = Cases(ASKED.program, folder.name)

    def tearDown(self) -> None:
        """How many cases passed; none may have failed."""
        print(f"{self.id().split('.')[-1]}: {self.cases.passed} passed, {self.cases.failed} failed")
        self.assertEqual(0, self.cases.failed, "cases failed")
