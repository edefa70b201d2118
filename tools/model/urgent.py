"""What is open at the desk, most urgent first, in pages. It is written from the requirements, and asks the program nothing.
"""
from typing import AbstractSet, Mapping, NamedTuple, Optional

from model.book import Book
from model.facts import MOST_SHOWN, Place
from model.request import Request
from model.rows import Move
from model.waiting import lock_of, more_than

# The kinds, by urgency.
IN_DOUBT, FAILED, APPROVAL, STEP_DUE, FLYING, LOST, FREE, ACTIVITY, FOR_EVER, LOCKED = range(1, 11)
NAMES = {
    IN_DOUBT: "in doubt", FAILED: "failed", APPROVAL: "waits for approval", STEP_DUE: "step due", FLYING: "flying", LOST: "report lost",
    FREE: "free", ACTIVITY: "activity of", FOR_EVER: "locked for ever", LOCKED: "locked",
}
# Those that are folded if they came with one stack, and those that are folded without one.
FOLDED, FOLDED_ALONE = {APPROVAL, FLYING, FREE, ACTIVITY, FOR_EVER, LOCKED}, {FLYING, ACTIVITY, FOR_EVER, LOCKED}
MOST_SAME = 65_535
FLIES = {Place.QUEUED, Place.SENT, Place.RIDING, Place.ACCEPTED, Place.STARTED}
LOST_PLACES = {Place.FAILED, Place.WITHDRAWN, Place.DELETED, Place.CLOSED}
ENDED = LOST_PLACES | {Place.COMPLETED}


class Line(NamedTuple):
    """A line: its kind, the number of its request or execution, the insert that takes an activity along, what it says of a request on board, the stack,
    since which move it stands so, for how many seconds, and how many further lines are folded into it."""
    kind: int
    number: int
    insert: int = 0
    on_board: str = ""
    stack: str = ""
    since: int = 0
    waited: int = 0
    same: int = 0

    def line(self) -> str:
        """As it is printed."""
        subject = f"request {self.number} {self.on_board}" if self.on_board else f"execution {self.number}"
        insert = f" {self.insert}" if self.kind == ACTIVITY else ""
        return f"{subject} {NAMES[self.kind]}{insert} since {self.since} waited {self.waited} same {self.same}"

    def takes_in(self, other: "Line") -> bool:
        """Whether the other one is folded into this one."""
        is_one = (self.kind, self.insert, self.stack) == (other.kind, other.insert, other.stack)
        return is_one and self.kind in (FOLDED if self.stack else FOLDED_ALONE) and self.same + other.same < MOST_SAME


# ---- what a request is told as

def awaited(book: Book, number: int) -> Optional[int]:
    """The request on the line that a request waits for, if it waits for one."""
    it = book.requests[number - 1]
    return book.stacks[it.stack].numbers[it.after - 1] if book.is_held(number) else None


def never_opens(book: Book, number: int) -> bool:
    """Whether the lock of a request never opens: a chain of lines, each of which waits for the next, ends at one that is never completed."""
    before = awaited(book, number)
    while before is not None:
        if book.place(before) in LOST_PLACES:
            return True
        before = awaited(book, before)
    return False


def inserts_of(book: Book) -> dict[int, int]:
    """Of each request that an insert names which has not ended, the first such insert."""
    found: dict[int, int] = {}
    for it in book.requests:
        for number in it.form.activities() if book.place(it.number) not in ENDED else ():
            found.setdefault(number, it.number)
    return found


def approved_kind(book: Book, it: Request, inserts: Mapping[int, int]) -> tuple[int, int]:
    """The kind of a request that waits for its release, and its insert."""
    if any(never_opens(book, number) for number in (it.number, *it.form.activities())):
        return FOR_EVER, 0
    insert = inserts.get(it.number, 0)
    if insert:
        return ACTIVITY, insert
    return (LOCKED if lock_of(book, it) else FREE), 0


def kind_of(book: Book, it: Request, last: Move, stood: int, scheduled: AbstractSet[int], inserts: Mapping[int, int]) -> tuple[int, int]:
    """The kind of a request, and its insert; kind 0 if it has no line."""
    place = book.place(it.number)
    if place is Place.APPROVED:
        return approved_kind(book, it, inserts)
    if place is Place.SCHEDULED:
        return (FLYING if it.number in scheduled else LOST), 0
    if place is Place.FAILED:
        return (FAILED if last.seq > stood else 0), 0
    kinds = {Place.ENTERED: APPROVAL, Place.CONFIRMED: LOST, Place.DOUBTFUL: IN_DOUBT, **dict.fromkeys(FLIES, FLYING)}
    return kinds.get(place, 0), 0


# ---- the lines

def lines_of(book: Book, stood: int, scheduled: AbstractSet[int]) -> list[Line]:
    """All lines by urgency, those of one kind by number; `stood` moves stood at the opening, and the mirror has the requests `scheduled`."""
    made, inserts = [], inserts_of(book)
    for it in book.requests:
        last = book.last[it.number - 1]
        kind, insert = kind_of(book, it, last, stood, scheduled, inserts)
        if kind:
            on_board = f"{it.identity} tc {it.form.service} {it.form.subtype}"
            waited = max(book.history[-1].moment - last.moment, 0)
            made.append(Line(kind, it.number, insert, on_board, it.stack, last.seq, waited))
    made += [Line(STEP_DUE, it.number) for it in book.executions if book.next_step(it)]
    return sorted(made, key=lambda line: (line.kind, line.number))


def folded(lines: list[Line]) -> list[Line]:
    """The same, with each line folded into the one before it, if that takes it in."""
    shown: list[Line] = []
    for line in lines:
        if shown and shown[-1].takes_in(line):
            shown[-1] = shown[-1]._replace(same=shown[-1].same + 1 + line.same)
        else:
            shown.append(line)
    return shown


def urgent(book: Book, stood: int, scheduled: AbstractSet[int], begin: int) -> list[str]:
    """The page that begins with a line."""
    rows = folded(lines_of(book, stood, scheduled))[max(begin, 1) - 1:]
    return [f"urgent {more_than(rows)}"] + [it.line() for it in rows[:MOST_SHOWN]]
