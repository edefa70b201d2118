"""A desk that works while it is copied: what is posted to it, what the plain desk makes of that, and what is wrong of a copy."""
import os
import re
import shutil
import subprocess
import threading
import time
from datetime import datetime, timezone
from itertools import count
from typing import Callable, Iterator, NamedTuple, Optional

from generate.http_posts import rows
from generate.http_words import ENTRY, act, load
from model.calls import Calls
from model.desk import Desk
from model.http import Acts, Loads, answer_to
from model.kept import sqlite3
from model.rows import Tables
from tests.asked import ASKED
from tests.http_peer import PATIENCE, Fault, Server, in_time
from tests.new_desks import without_beside
from tests.plain_runs import kept_tables, unlike
from tests.runs import Ended

DESK, COPY, LAST = "desk.db", "copy.db", 4102444799
PARTS = (f"{COPY}.part", f"{COPY}.part-wal")
TOLD = re.compile(r"copied (\d+) requests, (?:no move|last move (\d+) at (\S+))\n")
WHOLE_HEAD = 32  # bytes of a log's head


def posts() -> Iterator[bytes]:
    """Acts and loads, each of which is accepted by a desk that answered all before it and was new before the first: some 16,000, which nearly fill it."""
    numbers, entered, stacks = count(1), 0, 0
    for turn in range(1, 11_001):
        entered += 1
        yield act(ENTRY, number=next(numbers))
        if turn % 3 == 0:
            yield act(f"approve {entered}", "bob", number=next(numbers))
        if turn % 7 == 0:
            yield act(f"withdraw {entered}", number=next(numbers))
        if turn % 50 == 0:
            stacks += 1
            entered += 200
            yield load("stack", f"s{stacks}", rows(200, apid=7 + stacks % 50), number=next(numbers))


class Worker(threading.Thread):
    """Sends these posts to a server without a pause, while it is let work and until it is told to stop. `done` were answered."""

    def __init__(self, server: Server) -> None:
        """Begins at the first."""
        super().__init__(daemon=True)
        self.server, self.done, self.fault, self.stops, self.works = server, 0, "", threading.Event(), threading.Event()

    def run(self) -> None:
        """Sends them."""
        for raw in posts():
            self.works.wait()
            if self.stops.is_set():
                return
            try:
                answer = in_time(lambda: self.server.exchange(raw))  # the number is the same, and it is done once
            except (Fault, OSError) as why:
                answer = repr(why).encode()
            if not answer.startswith(b"HTTP/1.1 200"):
                self.fault = f"post {self.done + 1}: {answer!r:.300}"
                return
            self.done += 1

    def __enter__(self) -> "Worker":
        """Starts, and works."""
        self.start()
        self.works.set()
        return self

    def __exit__(self, *_: object) -> None:
        self.stops.set()
        self.works.set()
        self.join(PATIENCE)

    def go_on(self, more: int) -> None:
        """Works, and waits until so many posts more were answered."""
        self.works.set()
        done, end = self.done + more, time.monotonic() + PATIENCE
        while self.done < done:
            if self.fault or time.monotonic() > end:
                raise Fault(self.fault or f"{self.done} posts were answered, and not {done}")
            time.sleep(0.001)


def posted(server: Server, raws: Iterator[bytes], until: Callable[[int], bool]) -> int:
    """Sends these posts until that holds of how many were answered, which it gives."""
    for done, raw in enumerate(raws, 1):
        answer = server.exchange(raw)
        if not answer.startswith(b"HTTP/1.1 200"):
            raise Fault(f"post {done}: {answer!r:.300}")
        if until(done):
            return done
    raise Fault("there are no more posts")


class Follower:
    """The plain desk, which answers the same posts one after the other."""

    def __init__(self) -> None:
        """It answered none."""
        self.calls, self.raws, self.answered = Calls(Desk()), posts(), 0

    def tables(self, answered: int) -> Tables:
        """Its tables behind so many posts, no fewer than before."""
        for _ in range(answered - self.answered):
            asked = answer_to(next(self.raws))
            assert isinstance(asked, (Acts, Loads))
            self.calls.reply(asked)
        self.answered = max(self.answered, answered)
        return self.calls.desk.tables()


class Folder(NamedTuple):
    """A folder with a desk."""
    path: str

    def has(self, name: str) -> bool:
        """Whether something has this name there."""
        return os.path.lexists(f"{self.path}/{name}")

    def names(self) -> list[str]:
        """All names of what is there, but for what a server or a test writes beside."""
        return sorted(it for it in os.listdir(self.path) if not it.startswith(("served.", "load", "script")))

    def head(self) -> bytes:
        """The head of the log."""
        with open(f"{self.path}/{DESK}-wal", "rb") as log:
            return log.read(WHOLE_HEAD)

    def begin(self, copy: str = COPY, desk: str = DESK, env: Optional[dict[str, str]] = None,
              first: Optional[Callable[[], None]] = None) -> "subprocess.Popen[bytes]":
        """Starts a copy."""
        return subprocess.Popen([ASKED.program, "backup", desk, copy], cwd=self.path, stdin=subprocess.DEVNULL, stdout=subprocess.PIPE,
                                stderr=subprocess.PIPE, close_fds=False, env={**os.environ, **(env or {})}, preexec_fn=first)

    def copied(self, copy: str = COPY, desk: str = DESK, env: Optional[dict[str, str]] = None, first: Optional[Callable[[], None]] = None) -> Ended:
        """Makes a copy."""
        return ended(self.begin(copy, desk, env, first))

    def run(self, *words: str) -> Ended:
        """Runs the program."""
        ran = subprocess.run([ASKED.program, *words], cwd=self.path, stdin=subprocess.DEVNULL, capture_output=True, timeout=900, check=False)
        return Ended(ran.returncode, ran.stdout.decode("latin-1"), without_beside(ran.stderr.decode("latin-1")))

    def forget(self, *names: str) -> None:
        """Takes these away, where they are there."""
        for name in names:
            if self.has(name):
                os.remove(f"{self.path}/{name}")


def ended(process: "subprocess.Popen[bytes]") -> Ended:
    """How a program ended, once it has; of what it said, all but the line behind the first that tells why."""
    out, err = process.communicate(timeout=900)
    return Ended(process.returncode, out.decode("latin-1"), without_beside(err.decode("latin-1")))


def told_of(tables: Tables) -> str:
    """What is printed of a copy that has these tables."""
    if not tables.move:
        return f"copied {len(tables.request)} requests, no move\n"
    last = tables.move[-1]
    instant = datetime.fromtimestamp(last.moment, timezone.utc).strftime("%Y-%m-%dT%H:%M:%SZ")
    return f"copied {len(tables.request)} requests, last move {last.seq} at {instant}\n"


def tables_of_copy(folder: Folder, copy: str = COPY) -> Tables:
    """The tables of a copy, which is one file. It raises a fault where it has none, or has something beside it."""
    beside = [it for it in folder.names() if it.startswith(copy) and it != copy]
    if beside:
        raise Fault(f"beside the copy stands {beside}")
    try:
        found = kept_tables(f"{folder.path}/{copy}", "mode=ro&immutable=1")
    except sqlite3.Error as why:
        raise Fault(f"the copy does not read: {why}") from None
    if found is None:
        raise Fault("the copy has no table")
    return found


def why_not_copy(folder: Folder, follower: Follower, least: int, most: int, copy: str = COPY) -> str:
    """What is wrong of a copy, which has to hold what the desk held behind so many posts at least, and so many at most; nothing where nothing is. Each
    post that was answered leaves one reply."""
    try:
        found = tables_of_copy(folder, copy)
    except Fault as why:
        return str(why)
    answered = len(found.reply)
    if not least <= answered <= most:
        return f"the copy holds {answered} posts, and not {least} to {most}"
    return unlike(found, follower.tables(answered)) or why_not_opened(folder, found, copy)


def why_not_opened(folder: Folder, tables: Tables, copy: str) -> str:
    """What is wrong where a copy is reported, and another copy of it is opened."""
    report = folder.run("report", copy, "0", str(LAST))
    places = f"places {len(tables.request)}: {' '.join(str(it.amount) for it in tables.tally)}\n"
    if report.status or report.err or f"\n{places}moves {len(tables.move)}\n" not in report.out or not report.out.endswith("\nEND\n"):
        return f"it is reported as {report.status} {report.err} {report.out:.200}"
    shutil.copy(f"{folder.path}/{copy}", f"{folder.path}/opened.db")
    opened = folder.run("run", "--db", "opened.db", "--at", str(LAST), "/dev/null")
    folder.forget("opened.db", "opened.db-wal", f"{copy}-wal")
    return "" if opened == Ended(0, places, "") else f"it is opened as {opened}"


def why_not_told(folder: Folder, ran: Ended, copy: str = COPY) -> str:
    """What is wrong of how a copy that was made was told."""
    if ran.status or ran.err or not TOLD.fullmatch(ran.out):
        return f"the copy ended as {ran}"
    wanted = told_of(tables_of_copy(folder, copy))
    return "" if ran.out == wanted else f"it told {ran.out!r}, and not {wanted!r}"
