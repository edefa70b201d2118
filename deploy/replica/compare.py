"""How machines compare their tables: each tells a digest of them at the same place of the log. One whose digest is not that of most has to begin anew."""
import hashlib
import os
import shutil
import subprocess
import sys
from contextlib import suppress
from typing import NamedTuple, Optional, Protocol

from clock import now
from etcd import Etcd, Unanswered, put
from present import Present

TABLES = f"{os.path.dirname(os.path.realpath(__file__))}/tables.py"


class Comparison(NamedTuple):
    """A place, the machine that asked for it, if one did, and whether this desk is in once its tables are right there; the mark of the desk, a copy of its file,
    and how its link stood."""
    place: int
    asker: str
    brings_in: bool
    mark: str
    folder: str
    link: bytes


class Judged(Protocol):
    """What is told of a machine."""
    mark: str

    @property
    def place(self) -> int:
        """The last place that was carried out there, and counts."""

    def comes_in(self, mark: str) -> None:
        """The tables of the desk of this mark were found to be those of the others."""

    def has_to_leave(self, mark: str, why: str) -> None:
        """The desk of this mark has to begin anew."""


def digest_of(it: Comparison) -> bytes:
    """The digest of the tables of a copy, which is removed, and of the link. A file that cannot be read is like no other."""
    ran = subprocess.run([sys.executable, TABLES, f"{it.folder}/desk.db"], capture_output=True, check=False)
    shutil.rmtree(it.folder, ignore_errors=True)
    tables = ran.stdout if ran.returncode == 0 else os.urandom(32)
    return hashlib.sha256(tables + it.link).hexdigest().encode()


class Judge:
    """Tells the digests of one machine, and judges them beside those of the others. Nobody is waited for without end: who is late with his digest has no voice."""

    def __init__(self, machine: Judged, etcd: Etcd, root: str, present: Present, patience: float = 30.0) -> None:
        """Nothing is to be judged yet. It waits so many seconds for the digests of others."""
        self.machine, self.etcd, self.root, self.present, self.patience = machine, etcd, f"{root}/same/", present, patience
        self.digests: dict[Comparison, bytes] = {}  # that are not judged yet
        self.told: dict[Comparison, float] = {}  # and since when they are told

    def look(self, it: Optional[Comparison]) -> None:
        """Takes one comparison more, where there is one, and judges what may be judged by now."""
        if it:
            self.digests[it] = digest_of(it)
        for other in list(self.digests):
            with suppress(Unanswered):
                self.judge(other)

    def judge(self, it: Comparison) -> None:
        """Judges one comparison, which then stands for those before it. One of a desk that has ended is nobody's any more. It waits for the name of this machine, and
        until what the desk had carried out counts."""
        if it.mark != self.machine.mark:
            self.digests.pop(it, None)
        if it not in self.digests or not self.present.is_owned or self.machine.place < it.place:
            return
        is_same = self.is_same(it)
        if is_same is None:
            return
        if not is_same:
            self.machine.has_to_leave(it.mark, f"its tables at place {it.place} are not those of most")
        elif it.brings_in:
            self.machine.comes_in(it.mark)
        self.digests = {other: digest for other, digest in self.digests.items() if other.place > it.place}

    def is_same(self, it: Comparison) -> Optional[bool]:
        """Whether the digest of this machine is that of most, once all that are in have told theirs, and who asked has, or the time is over; until then None."""
        front, own = f"{self.root}{it.place:012d}/", self.digests[it]
        if it not in self.told:
            self.etcd.write([], [put(front + self.present.name, own)])
            self.told = {it: now(), **{other: at for other, at in self.told.items() if other in self.digests}}
        awaited = [name for name, there in self.present.all().items() if there.state.is_in or name == it.asker]
        told = self.etcd.below(front)
        if not all(name in told for name in awaited) and now() - self.told[it] < self.patience:
            return None
        return 2 * sum(digest == own for digest in told.values()) > len(told)
