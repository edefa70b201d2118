"""Reports and boards of desks whose files this user may only read: they print what whoever may write is printed, also beside a program that has the desk open. Nothing
is written, locked or made beside the files; and why one is refused is told.

The root user may write all files, so the program runs as another user there.
"""
import os
import shutil
import subprocess
import tempfile
from typing import Any, Sequence

from tests.asked import ASKED
from tests.backup_desk import posted, posts
from tests.http_cases import Patient
from tests.http_peer import Server
from tests.runs import Ended, Tried
from tests.test_told import DAMAGED, FOREIGN, JOURNAL, LATER, NAMES, NO_DATABASE, cannot, made

PATIENCE = 300.0
NOBODY = 65534
READER: dict[str, Any] = {"user": NOBODY, "group": NOBODY, "extra_groups": []} if os.geteuid() == 0 else {}
PAGES = (["report", "{}", "0", "4102444799"], ["report", "{}", "0", "1"], ["board", "{}"])
NO_DESKS = {"left.db": JOURNAL, "text.db": NO_DATABASE, "foreign.db": FOREIGN, "later.db": LATER, "damaged.db": DAMAGED, "wide.db": DAMAGED,
            "twice.db": NAMES, "logged.db": NAMES}


def called(words: Sequence[str], folder: str, **more: Any) -> Ended:
    """How a program ends on these words in a folder."""
    it = subprocess.run(words, cwd=folder, stdin=subprocess.DEVNULL, capture_output=True, timeout=PATIENCE, check=False, **more)
    return Ended(it.returncode, it.stdout.decode("latin-1"), it.stderr.decode("latin-1"))


class OnlyRead(Patient, Tried):
    """Files that may only be read."""

    def setUp(self) -> None:
        """A folder with files of desks, and the program beside it."""
        place = tempfile.TemporaryDirectory(prefix="only-read-")
        self.addCleanup(place.cleanup)
        self.place, self.folder, self.program = place.name, f"{place.name}/desks", f"{place.name}/tcdesk"
        os.mkdir(self.folder)
        shutil.copy(ASKED.program, self.program)
        made(self.folder)
        self.addCleanup(os.chmod, self.folder, 0o755)

    def shut(self) -> None:
        """Lets the reader only read."""
        for name in os.listdir(self.folder):
            path = f"{self.folder}/{name}"
            if os.path.isfile(path):
                os.chmod(path, 0o644 if READER else 0o444)
        for path in (self.folder, self.place):
            os.chmod(path, 0o755 if READER or path == self.place else 0o555)

    def looks(self) -> dict[str, tuple[int, int, int]]:
        """What there is in the folder, and when it and each file were written last."""
        found = {it: os.lstat(f"{self.folder}/{it}") for it in (".", *os.listdir(self.folder))}
        return {name: (it.st_ino, it.st_size, it.st_mtime_ns) for name, it in found.items()}

    def read(self, words: Sequence[str], name: str) -> Ended:
        """How the program ends that may only read, which leaves all as it is."""
        before = self.looks()
        ran = called([self.program, *(it.format(name) for it in words)], self.folder, **READER)
        self.assertEqual(before, self.looks(), f"{words} of {name}")
        return ran

    def as_written(self, name: str, like: str) -> None:
        """Each page of a file is the one of this file beside the folder, which its owner asks for."""
        for words in PAGES:
            wanted = called([self.program, *(it.format(like) for it in words)], self.place)
            self.assertEqual((0, ""), (wanted.status, wanted.err))
            self.assertEqual(wanted, self.read(words, name), f"{words} of {name}")

    def copied(self, name: str, *ends: str) -> str:
        """A copy of a file and of what stands beside it, out of the folder."""
        for end in ("", *ends):
            shutil.copyfile(f"{self.folder}/{name}{end}", f"{self.place}/like.db{end}")
        return "like.db"

    def test_closed(self) -> None:
        """A desk that was closed, with its log of nothing, and without one."""
        self.shut()
        self.as_written("late.db", self.copied("late.db"))
        os.chmod(self.folder, 0o755)
        os.remove(f"{self.folder}/late.db-wal")
        self.shut()
        self.as_written("late.db", self.copied("late.db"))

    def test_left(self) -> None:
        """A desk that a program has open, and one whose program was killed: what was answered stands in the log alone."""
        with Server(ASKED.program, self.folder, "served.db", None) as server:
            posted(server, posts(), lambda done: done == 30)
            self.shut()
            like = self.copied("served.db", "-wal")
            self.as_written("served.db", like)
        self.shut()
        self.as_written("served.db", self.copied("served.db", "-wal"))

    def test_moved(self) -> None:
        """A desk that was moved beside the program that has it open, so that its log is not beside it."""
        with Server(ASKED.program, self.folder, "served.db", None) as server:
            posted(server, posts(), lambda done: done == 3)
            os.rename(f"{self.folder}/served.db", f"{self.folder}/moved.db")
            self.shut()
            why = cannot("moved.db", "another program may have it open, and its log is not beside it")
            for words in PAGES:
                self.assertEqual(Ended(2, "", why), self.read(words, "moved.db"))

    def test_no_desks(self) -> None:
        """What is no desk's file, and why. A report judges no more than that rows read."""
        self.shut()
        for name, why in NO_DESKS.items():
            for words in PAGES if name != "damaged.db" else PAGES[2:]:
                self.assertEqual(Ended(2, "", cannot(name, why)), self.read(words, name), f"{words} of {name}")
