"""Kept replies, long ones and many: what a call is answered that comes again, also once the desk was closed and opened, and the rows of the
table.

A reply comes to each length from 65,520 to 65,552 bytes, and to more than 73,500 if 127 inserts of eight activities are out as the service ends, and
one more waits. It has more than 200 lines, and `loop` prints all of them. The desk keeps 3,001, 65,537 and 100,001 replies, each to an act that it carried out, by `loop`. The desk has no limit of either,
so none may be met.
"""
import subprocess
from typing import Iterator, Optional

from generate.http_words import PLACES, Case, act, get
from generate.long_replies import BY, MOMENT, WINDOW, long_reply
from model.calls import Calls
from model.desk import Desk
from model.rows import Reply
from tests.http_cases import Served
from tests.limit_desks import why_unlike
from tests.new_desks import said_first, said_then
from tests.runs import write_lines

LENGTHS = (*range(65_520, 65_553), None)
COUNTS = (3_001, 65_537, 100_001)
LONGEST = 73_500
PERSONS = ("ann", "b", "7")  # of short names: a script has 1,048,576 bytes at most


class Replies(Served):
    """Desks that keep replies."""

    def loops(self, folder: str, lines: list[str], first: int, note: str = "") -> list[str]:
        """What `loop` prints of these lines, whose first has this number. It has to say this besides."""
        write_lines(f"{folder}/loop.tc", lines)
        words = ["loop", "desk.db", "loop.tc", "--first", str(first)]
        new = said_first(folder, words)
        ran = subprocess.run([self.cases.program, *words], cwd=folder, stdin=subprocess.DEVNULL, capture_output=True, text=True, check=False)
        self.cases.tell(f"loop from {first}: its end", (0, note), (ran.returncode, said_then(new, ran.returncode, ran.stderr)))
        return ran.stdout.splitlines()

    def served(self, name: str, folder: str, cases: list[Case], desk: Desk, *words: str) -> None:
        """Sends these to the desk of a folder, as it is served: each is answered as the plain desk answers it, and the file then has its tables."""
        made = self.cases.expected(folder, cases, desk)
        with self.cases.server(folder, len(cases), *words) as server:
            server.listening()
            for case, response in zip(cases, made.responses):
                self.cases.tell(f"{name}: {case.name}", response, server.exchange(case.raw))
            self.cases.ended(name, server, "".join(f"{it.line()}\n" for it in desk.opening))
        self.cases.tell(f"{name}: its tables", "", why_unlike(f"{folder}/desk.db", desk.tables()))

    def test_lengths(self) -> None:
        """Replies of each length."""
        for length in LENGTHS:
            self.of_length(length)

    def of_length(self, length: Optional[int]) -> None:
        """A desk that comes to such a reply, and is then opened again and again: each call that comes twice has the answer of the first."""
        name, folder, desk = f"a reply of {length or 'most'} bytes", self.cases.folder(), Desk(WINDOW)
        calls = long_reply(length)
        again = [calls.last, *calls.cases[:3], Case("places", PLACES, 0), calls.last._replace(name="the same, once more")]
        self.served(name, folder, calls.cases + again, desk, "--w", str(WINDOW))
        body = desk.replies[-1].body
        self.cases.tell(f"{name}: its length", True, len(body) == length if length else len(body) > LONGEST)
        for moment in (0, MOMENT):
            desk = Desk.opened(desk.tables(), moment)
            self.served(f"{name}, opened at {moment}", folder, again, desk, "--at", str(moment))
        desk = Desk.opened(desk.tables(), 0)
        number = desk.replies[-1].number
        told = self.loops(folder, [f"{MOMENT} {BY} terminate"], number, f"tcdesk: number {number} is used: its reply is that of the first run\n")
        self.cases.tell(f"{name}: by loop, whole", body.splitlines() + [desk.places()], told)

    def lines(self, first: int, last: int) -> Iterator[str]:
        """The lines of these numbers: requests are entered now and then."""
        for number in range(first, last + 1):
            yield f"5 {PERSONS[number % 3]} {'enter 5 ---- no 8 1 - - ok' if number % 50 == 0 else 'clcw'}"

    def test_counts(self) -> None:
        """Many replies, each kept by the program."""
        folder, desk, kept = self.cases.folder(), Desk(), 0
        for count in COUNTS:
            desk, lines = Desk.opened(desk.tables(), 0), list(self.lines(kept + 1, count))
            told = [desk.line(it) for it in lines]
            for number, (line, answer) in enumerate(zip(lines, told), kept + 1):
                desk.replies.append(Reply(line.split(" ")[1], number, "".join(f"{it}\n" for it in answer)))
            printed = self.loops(folder, lines, kept + 1)
            self.cases.tell(f"{count} replies: loop", True, [*(it for answer in told for it in answer), desk.places()] == printed)
            kept = count
            desk = Desk.opened(desk.tables(), 0)
            self.served(f"{count} replies", folder, list(self.repeats(kept)), desk)
            kept += 1

    def repeats(self, kept: int) -> Iterator[Case]:
        """Calls of which replies are kept, of the first, the last, and about the ends of pages of 100; and one more, which is carried out."""
        for number in sorted({1, 2, 50, 99, 100, 101, 3_000, 3_001, 3_002, 32_768, 65_536, 65_537, 65_538, 100_000, kept - 1, kept}):
            if number <= kept:
                yield Case(f"number {number}, once more", act("withdraw 1", PERSONS[number % 3], 5, number), 0)
        yield Case("one more", act("clcw", PERSONS[(kept + 1) % 3], 5, kept + 1), 0)
        yield Case("one more, once more", act("enter 5 ---- no 8 1 - - ok", PERSONS[(kept + 1) % 3], 6, kept + 1), 0)
        yield Case("the places", get("/places"), 0)
