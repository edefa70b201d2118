"""The desk of this machine: a `tcdesk serve` that began as all others did, how it is begun, and how it is asked."""
import fcntl
import hashlib
import http.client
import json
import os
import secrets
import shutil
import signal
import time
from contextlib import suppress
from typing import Callable, NamedTuple, NoReturn, Optional, Sequence

from clock import now
from words import Answer

QUESTION = {"by": "replica", "moment": 0, "number": 4294967295}
OWN = ("connection", "content-length")  # header lines of a connection, and not of what is answered


class Ended(Exception):
    """The desk that was asked is there no more, or makes no progress."""


class Begun(NamedTuple):
    """What a follower wrote down of its desk: the place that was begun last, how often the desk was asked by then, and how many posts it was given; the last place
    that was carried out, the last of which the log had said what is to be done, and the last of which this machine says that it was carried out in time."""
    place: int = 0
    asked: int = 0
    posts: int = 0
    carried: int = 0
    decided: int = 0
    done: int = 0


class Opening(NamedTuple):
    """A desk that runs: its mark, its process and port, and after how many connections it ends."""
    mark: str
    process: int
    port: int
    most: int


class Desk:
    """What a folder has of the desk of this machine: `desk.db`, its file; `opening`, which the process that has it open holds locked; and `begun`."""

    def __init__(self, folder: str, patience: float = 15.0) -> None:
        """Nothing is begun yet. A desk that does not answer for so many seconds makes no progress."""
        self.folder, self.patience = folder, patience

    def path(self, name: str) -> str:
        """The path of a file of the folder."""
        return f"{self.folder}/{name}"

    def opening(self) -> Optional[Opening]:
        """The desk that runs; none where none does."""
        try:
            with open(self.path("opening"), encoding="ascii") as file:
                fcntl.flock(file, fcntl.LOCK_SH | fcntl.LOCK_NB)
        except FileNotFoundError:
            pass
        except BlockingIOError:
            return self.told()
        return None

    def told(self) -> Optional[Opening]:
        """What the process that holds the lock has written of itself, once it has."""
        with open(self.path("opening"), encoding="ascii") as file:
            words = file.read().split()
        return Opening(words[0], *map(int, words[1:])) if len(words) == 4 else None

    def ask(self, opening: Opening, method: str, path: str, body: Optional[bytes] = None) -> Answer:
        """What this desk answers. Where no answer comes it is asked again, as long as it runs: it serves requests in the order in which they were whole, so what
        came before is not done after what comes next. It is sent nothing before it is known that it runs still, and that it is no other one which took the connection."""
        end = now() + self.patience
        while self.opening() == opening:
            if now() >= end:
                raise Ended(f"the desk has not answered for {self.patience:.0f} s")
            peer = http.client.HTTPConnection("127.0.0.1", opening.port, timeout=max(0.1, end - now()))
            try:
                peer.connect()
                if self.opening() != opening:
                    break
                peer.request(method, path, body)
                answer = peer.getresponse()
                return Answer(answer.status, answer.read(), tuple(it for it in answer.getheaders() if it[0].lower() not in OWN))
            except (OSError, http.client.HTTPException):
                time.sleep(0.02)
            finally:
                peer.close()
        raise Ended("the desk has ended")

    def question(self, opening: Opening, act: str) -> Answer:
        """What this desk answers to a question that has no path of its own."""
        return self.ask(opening, "POST", "/acts", json.dumps({"act": act, **QUESTION}).encode())

    def copy(self, folder: str) -> None:
        """Copies its file and the log beside it, while nobody asks it anything, into a folder."""
        os.makedirs(folder, exist_ok=True)
        for name in ("desk.db", "desk.db-wal"):
            if os.path.exists(self.path(name)):
                shutil.copyfile(self.path(name), f"{folder}/{name}")

    def begin(self, mark: str, begun: Begun) -> None:
        """Writes down what became of the desk of this mark. It has to outlive this process alone: a machine that stops has no desk any more."""
        file = os.open(self.path("begun"), os.O_WRONLY | os.O_CREAT, 0o640)
        os.pwrite(file, " ".join([mark, *(f"{it:12d}" for it in begun)]).encode() + b"\n", 0)
        os.close(file)

    def begun(self, mark: str) -> Optional[Begun]:
        """What is written down of the desk of this mark; none where nothing is."""
        words = self.words("begun")
        return Begun(*map(int, words[1:])) if words[:1] == [mark] and len(words) == 7 else None

    def words(self, name: str) -> list[str]:
        """The words of a small file; none where there is no such file."""
        try:
            with open(self.path(name), encoding="ascii") as file:
                return file.read().split()
        except FileNotFoundError:
            return []

    def write(self, name: str, *words: object) -> None:
        """Puts words into a small file."""
        with open(self.path(name + ".new"), "w", encoding="ascii") as file:
            print(*words, file=file)
        os.replace(self.path(name + ".new"), self.path(name))

    def skips(self, mark: str) -> Optional[frozenset[int]]:
        """The places that the desk of this mark skips, from its beginning on; none where that is not written down."""
        words = self.words("skips")
        return frozenset(map(int, words[1:])) if words[:1] == [mark] else None

    def repeats(self) -> tuple[int, int]:
        """The place at which desks of this machine failed last, and how often in a row."""
        words = self.words("repeats")
        return (int(words[0]), int(words[1])) if len(words) == 2 else (0, 0)

    def failed(self, place: int) -> int:
        """A desk failed at this place, so many times in a row by now."""
        before, count = self.repeats()
        count = count + 1 if before == place else 1
        self.write("repeats", place, count)
        return count

    def forget_repeats(self) -> None:
        """None is counted any more."""
        with suppress(FileNotFoundError):
            os.remove(self.path("repeats"))

    def end(self, opening: Opening) -> None:
        """Ends this desk, if it runs."""
        while self.opening() == opening:
            with suppress(ProcessLookupError):
                os.kill(opening.process, signal.SIGKILL)
            time.sleep(0.02)


class Way(NamedTuple):
    """How a desk of this machine begins: the program, its port and COUNT, the file of which it has a copy, none where its own is empty, and more options."""
    program: str
    port: int
    most: int
    first: Optional[str]
    options: Sequence[str]

    def told(self) -> bytes:
        """What of it has to be the same on all machines."""
        digests = [digest_of(it) if it else "" for it in (self.program, self.first)]
        return json.dumps({"program": digests[0], "first": digests[1], "options": list(self.options)}).encode()


def digest_of(path: str) -> str:
    """The digest of a file."""
    with open(path, "rb") as file:
        return hashlib.sha256(file.read()).hexdigest()


def begin_desk(folder: str, way: Way, agrees: Callable[[bytes], bool]) -> NoReturn:
    """Becomes a desk with an empty file, or with a copy of the first one, if all machines agree on that. The file of the one before is `left.db`, for who wants
    to know why it ended; one that was no such desk's is left alone. The lock is the process's own, whatever program it runs."""
    os.makedirs(folder, exist_ok=True)
    desk = Desk(folder)
    if os.path.exists(desk.path("desk.db")) and not os.path.exists(desk.path("opening")):
        raise SystemExit(f"replica: {desk.path('desk.db')} is no desk of a replica: it is left as it is, and another folder is wanted")
    lock = os.open(desk.path("opening"), os.O_RDWR | os.O_CREAT, 0o640)
    for _ in range(20):  # a follower that looks whether a desk runs has it for a moment
        with suppress(BlockingIOError):
            fcntl.flock(lock, fcntl.LOCK_EX | fcntl.LOCK_NB)
            break
        time.sleep(0.01)
    else:
        raise SystemExit(f"replica: a desk of {folder} runs already")
    os.ftruncate(lock, 0)
    if not agrees(way.told()):
        raise SystemExit("replica: the other machines have another program, another first file, or other options")
    for end in ("", "-wal"):
        if os.path.exists(desk.path("left.db" + end)):
            os.remove(desk.path("left.db" + end))
        if os.path.exists(desk.path("desk.db" + end)):
            os.replace(desk.path("desk.db" + end), desk.path("left.db" + end))
    if way.first:
        shutil.copyfile(way.first, desk.path("desk.db"))
    os.pwrite(lock, f"{secrets.token_hex(8)} {os.getpid()} {way.port} {way.most}\n".encode(), 0)
    os.set_inheritable(lock, True)
    os.execv(way.program, [way.program, "serve", *way.options, desk.path("desk.db"), str(way.port), str(way.most)])
