"""Calls that come twice, as persons wrote them: the worked cases of tools/cases/http, each byte of each response by the plain desk and by the program's server;
and desks that are closed, killed and opened again between a call and its repeat.

A worked case has a line that says what it shows, then blocks `=== request K, N bytes` and `=== response K, N bytes`, each followed by exactly so many bytes and
a LF. Its requests go to one new desk, one connection each, in order.
"""
import os
import re
from typing import NamedTuple, Optional

from generate.http_posts import rows, steps
from generate.http_words import ENTRY, PLACES, Case, act, load
from model.desk import Desk
from tests.http_cases import Served
from tests.http_peer import Expected, run
from tests.plain_runs import CASES
from tests.runs import bytes_of

BLOCK = re.compile(rb"=== (request|response) ([0-9]+), ([0-9]+) bytes\n")


class Exchange(NamedTuple):
    """A request, and the response that it has to be given."""
    request: bytes
    response: bytes


def blocks(text: bytes) -> list[bytes]:
    """What stands in the blocks of a worked case: requests and responses by turns, each by its number."""
    found, at = list[bytes](), text.index(b"\n") + 1
    while at < len(text):
        head = BLOCK.match(text, at)
        assert head, f"no block begins at byte {at}"
        kind, number, size = head[1], int(head[2]), int(head[3])
        assert (kind, number) == ((b"request", b"response")[len(found) % 2], len(found) // 2 + 1), f"{head[0]!r} is not the next block"
        found.append(text[head.end():head.end() + size])
        at = head.end() + size + 1
        assert text[at - 1:at] == b"\n", f"{head[0]!r} has another length"
    return found


def exchanges(path: str) -> list[Exchange]:
    """The exchanges of a worked case, by its file."""
    found = blocks(bytes_of(path))
    return [Exchange(*it) for it in zip(found[::2], found[1::2], strict=True)]


class Worked(Served):
    """The worked cases."""

    def test_worked(self) -> None:
        """Each of them on a new desk."""
        cases, names = self.cases, sorted(it for it in os.listdir(f"{CASES}/http") if it.endswith(".http"))
        cases.tell("worked cases", True, len(names) > 0)
        for name in names:
            told, folder = exchanges(f"{CASES}/http/{name}"), cases.folder()
            plain = Expected(folder, [Case(name, it.request) for it in told])
            with cases.server(folder, len(told)) as server:
                for at, (it, reckoned) in enumerate(zip(told, plain.responses), 1):
                    cases.tell(f"{name}, response {at}, by the plain desk", it.response, reckoned)
                    cases.tell(f"{name}, response {at}", it.response, server.exchange(it.request))
                cases.ended(name, server)
            cases.has_tables(name, f"{folder}/desk.db", plain.calls.desk.tables())


# What is called before a desk is closed: acts that leave requests on their way, a load of each kind, questions, and what is refused.
FIRST = [act(ENTRY, number=1), act("enter 5 ---c no 11 4 1 4000 ok", number=2), act("approve 1", "bob", number=1), act("approve 2", "bob", number=2),
         act("initiate none", number=3), act("release 2", number=4), act("up", number=5), act("clock 1000", number=6), act("withdraw 77", number=7),
         act("places", number=8), load("stack", "s1", rows(200), number=9), load("procedure", "p1", steps(2), number=10),
         load("stack", "s2", rows(200), number=11), act("approvestack s1", "bob", number=3), act("begin p1", number=12), act("set k 3", number=13),
         act(ENTRY, number=14), act("approve 403", "bob", number=4), act("x", number=15)]
# What is done between two of the openings by a script, which keeps nothing: the very acts that were called, or are called later.
SCRIPT = [f"100 ann {ENTRY}", "100 bob approve 404", "100 ann initiate none", "100 ann release 404"]


class Reopened(Served):
    """Desks that are opened again."""

    def opened(self, name: str, moment: int, desk: Desk, raws: list[bytes], is_killed: bool) -> None:
        """Sends these to the desk that is opened at a moment, as it is served; then it ends, or is killed."""
        cases, folder = self.cases, f"{self.cases.work}/desk"
        made = cases.expected(folder, [Case(name, it) for it in raws], desk)
        with cases.server(folder, None if is_killed else len(raws), "--at", str(moment)) as server:
            for raw, response in zip(raws, made.responses):
                cases.tell(f"{name}: {raw[-60:]!r}", response, server.exchange(raw))
            if is_killed:
                server.process.kill()
                server.process.wait()
            else:
                cases.ended(name, server, "".join(f"{it.line()}\n" for it in desk.opening))
                cases.has_tables(name, f"{folder}/desk.db", desk.tables())

    def again(self, desk: Desk, moment: int, lines: Optional[list[str]] = None) -> Desk:
        """The plain desk, opened again at a moment; behind these lines of a script, which is run, where there are any."""
        if lines:
            desk = Desk.opened(desk.tables(), moment - 1)
            run(self.cases.program, f"{self.cases.work}/desk", lines, "--db", "desk.db", "--at", str(moment - 1))
            for line in lines:
                desk.line(line)
        return Desk.opened(desk.tables(), moment)

    def test_reopened(self) -> None:
        """Between a call and its repeat the desk is closed, killed, opened at a later moment, and worked by a script: what was kept is the answer, and
        all else is done, or refused, anew."""
        os.mkdir(f"{self.cases.work}/desk")
        desk, others = Desk(), [raw.replace(b'"moment":100', b'"moment":200') for raw in FIRST]
        for turn, is_killed in enumerate((False, True, False, True, True, False), 1):
            desk = self.again(desk, 1000 * turn, SCRIPT if turn == 4 else None)
            fresh = [act(ENTRY, f"turn{turn}", number=1), PLACES]
            self.opened(f"opening {turn}", 1000 * turn, desk, [*FIRST, *fresh, *others, act("link"), *FIRST[::-1], PLACES], is_killed)
