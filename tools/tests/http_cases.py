"""How cases of the desk over HTTP are counted and played: each is sent to a server, and each byte of its answer is looked at."""
import os
import shutil
import tempfile
import time
import unittest
from contextlib import contextmanager
from dataclasses import replace
from functools import partial
from itertools import count
from typing import Any, Callable, Iterable, Iterator, Optional, Sequence

from generate.http_words import PLACES, Case, act, get, numbered
from model.desk import Desk
from model.rows import Tables
from tests.asked import ASKED
from tests.http_peer import FAIR, Ended, Expected, Fault, Late, Server, in_time, run
from tests.plain_runs import kept_tables, unlike
from tests.runs import quick_folder, write_files

MOST_FAULTS = 20
MOST_ASKED = 300  # requests whose histories are asked for in the end
LAST_QUESTIONS = ["link", "schedule", "report 0 4102444799", "waiting", "moves 0", "standing Entered 0", "standing Approved 0", "standing Closed 1"]


class Cases:
    """The program, a folder to work in, and how many cases passed."""

    def __init__(self, program: str, work: str) -> None:
        self.program, self.work, self.passed, self.failed, self.numbers = program, work, 0, 0, count(1)
        self.refusals: set[int] = set()
        self.waiting: Optional[list[tuple[str, object, object]]] = None

    def tell(self, name: str, want: object, got: object) -> None:
        """Counts a case, and prints it where what came is not what is wanted; within `soon`, once that was in time."""
        if self.waiting is not None:
            self.waiting.append((name, want, got))
            return
        is_right = got == want
        self.passed += is_right
        self.failed += not is_right
        if not is_right:
            print(f"{name}:\n  wanted {want!r:.600}\n  came   {got!r:.600}", flush=True)
            if self.failed >= MOST_FAULTS:
                raise Fault("too many cases failed")

    @contextmanager
    def soon(self, name: str, most: float = FAIR) -> Iterator[None]:
        """What has to be done within so many seconds, since a server lets a peer go else. Where it was late nothing counts that was told
        meanwhile."""
        began, around, self.waiting = time.monotonic(), self.waiting, []
        try:
            yield
        except Exception as why:
            if time.monotonic() - began > most:
                raise Late(f"{name}: {why!r:.200}, after {time.monotonic() - began:.1f} s") from None
            raise
        finally:
            told, self.waiting, took = self.waiting, around, time.monotonic() - began
            if took <= most:
                for it in told:
                    self.tell(*it)
        if took > most:
            raise Late(f"{name}: {took:.1f} s")

    def folder(self) -> str:
        """A new folder."""
        made = f"{self.work}/{next(self.numbers)}"
        os.mkdir(made)
        return made

    def server(self, folder: str, connections: Optional[int], *words: str, **more: Any) -> Server:
        """The server of desk.db in this folder."""
        return Server(self.program, folder, "desk.db", connections, words, **more)

    def ended(self, name: str, server: Server, out: str = "") -> None:
        """Waits for a server's end, which has to be a good one."""
        self.tell(f"{name}: the program's end", Ended(0, out, server.says), server.end())

    def expected(self, folder: str, cases: Sequence[Case], desk: Optional[Desk] = None) -> Expected:
        """The responses that these cases have to be given by a new desk or by this one; a case whose writer and the plain reading disagree has
        failed."""
        made = Expected(folder, cases, desk)
        for case, found in made.disputed:
            self.tell(f"{case.name}, by the plain reading", case.want, found)
        self.refusals |= made.refusals
        return made

    def play(self, name: str, cases: Iterable[Case], before: Sequence[str] = (), files: Optional[dict[str, str]] = None, looks: bool = True) -> None:
        """Sends these cases, each under a number of its own if it names no other, to a new desk, or to one that answered the lines before, which may load these
        files, with questions behind them, and looks at the file in the end."""
        folder = self.folder()
        told: list[Case] = []
        for case in cases:
            told += [case, Case(f"the places after {case.name}", PLACES, 0)] if looks else [case]
        told = numbered(told)
        desk = self.desk_behind(folder, before, {file: text.encode() for file, text in (files or {}).items()})
        made = self.expected(folder, told, desk)
        numbers = range(1, 2 + min(MOST_ASKED, sum(" Entered enter" in it for it in made.told)))
        behind = [Case(f"{path} at the end", get(path)) for it in numbers for path in (f"/requests/{it}", f"/history/{it}/0")]
        behind = numbered(behind + [Case(f"{it} at the end", act(it, "zed", 0), 0) for it in LAST_QUESTIONS], len(told))
        asked = self.expected(folder, behind, desk)
        with self.server(folder, len(told) + len(behind)) as server:
            for case, response in zip(told + behind, made.responses + asked.responses):
                self.tell(f"{name}: {case.name}: {case.raw!r:.300}", response, server.exchange(case.raw, shuts=not response))
            self.ended(name, server)
        run(self.program, folder, made.lines, "--db", "plain.db")
        self.has_tables(f"{name}: the file that was served", f"{folder}/desk.db", desk.tables())
        self.has_tables(f"{name}: the file of the script", f"{folder}/plain.db", replace(desk.tables(), reply=[]))
        self.same_file(name, folder, numbers)

    def desk_behind(self, folder: str, lines: Sequence[str], files: dict[str, bytes]) -> Desk:
        """The plain desk behind these lines, once it was opened again; a file of the same desk is made, where there is a line, and a second one."""
        write_files(folder, files)
        if lines:
            run(self.program, folder, lines, "--db", "desk.db")
            shutil.copy(f"{folder}/desk.db", f"{folder}/plain.db")
        desk = Desk(files=files)
        for line in lines:
            desk.line(line)
        return Desk.opened(desk.tables(), 0)

    def has_tables(self, name: str, path: str, wanted: Tables) -> None:
        """Looks whether a file alone holds these tables: the kept replies, and all others."""
        self.tell(f"{name}: its tables", "", unlike(kept_tables(path, "mode=ro&immutable=1"), wanted))

    def same_file(self, name: str, folder: str, numbers: range) -> None:
        """Looks whether the file that was served tells what that of the acts as a script tells."""
        lines = [f"0 zed {it} {at}" for at in numbers for it in ("request", "history")]
        lines = [f"{it} 0" if " history " in it else it for it in lines] + [f"0 zed {it}" for it in LAST_QUESTIONS] + ["0 zed log 1"]
        left, plain = (run(self.program, folder, lines, "--db", it, "--at", "4102444799") for it in ("desk.db", "plain.db"))
        self.tell(f"{name}: what the file that was served tells", plain, left)


class Patient(unittest.TestCase):
    """A test that is tried again, from its `setUp` on, where it was late and found nothing wrong before."""

    def __init__(self, methodName: str = "runTest") -> None:
        """A test by the name of its method."""
        super().__init__(methodName)
        setattr(self, methodName, partial(self.patiently, getattr(self, methodName)))

    def patiently(self, test: Callable[[], None]) -> None:
        """Runs that test."""
        def once() -> None:
            try:
                test()
            except Late as late:
                if self.is_wrong():
                    raise Fault(str(late)) from None
                raise
        in_time(once, self.setUp)

    def is_wrong(self) -> bool:
        """Whether something was found wrong by now."""
        return False


class Served(Patient):
    """Groups of cases, each in a folder of its own; a case that failed is printed as it comes. A group that was late is tried again in another
    folder."""

    def is_wrong(self) -> bool:
        """Whether a case has failed."""
        return self.cases.failed > 0

    def setUp(self) -> None:
        """A folder to work in, and no case yet."""
        folder = tempfile.TemporaryDirectory(prefix="http-", dir=quick_folder())
        self.addCleanup(folder.cleanup)
        self.cases = Cases(ASKED.program, folder.name)

    def tearDown(self) -> None:
        """How many cases passed; none may have failed."""
        print(f"{self.id().split('.')[-1]}: {self.cases.passed} passed, {self.cases.failed} failed")
        self.assertEqual(0, self.cases.failed, "cases failed")
