"""What the log says of each of its places. It alone says so, and so all machines find the same.

A post counts as carried out if the first word of it in the log, after its place, is that some machine has carried it out in time; and as void if that word is
that it is late. A machine says `done` of all places up to one at once, in each entry that it writes.
"""
from enum import Enum
from typing import Optional

from entry import VOID, Entry
from words import Answer


class Verdict(Enum):
    """What is to be done of a place."""
    GOOD = "carried out"
    LATE = "passed over: nobody carried it out in time"
    FOREIGN = "passed over: no replica of this desk wrote it"
    SKIPPED = "passed over, as it was asked for"


class Item:
    """A place, its entry, and the verdict once there is one; since when it is known here, and the answer of this machine's desk, if it carried it out before that."""

    def __init__(self, place: int, entry: Optional[Entry], verdict: Optional[Verdict], since: float) -> None:
        """Nobody carried it out here."""
        self.place, self.entry, self.verdict, self.since = place, entry, verdict, since
        self.answer: Optional[Answer] = None


class Order:
    """The places from one on, as far as they are read and not forgotten."""

    def __init__(self, place: int, skips: frozenset[int]) -> None:
        """Nothing is read yet. These places are to be skipped."""
        self.next, self.skips = place, skips
        self.items: dict[int, Item] = {}
        self.open: list[Item] = []

    def take(self, entry: Optional[Entry], since: float = 0.0) -> None:
        """The entry of the next place; none where no replica of this desk wrote it."""
        if entry:
            self.hear(entry)
        verdict = None if entry and entry.is_post() else Verdict.GOOD if entry else Verdict.FOREIGN
        item = Item(self.next, entry, Verdict.SKIPPED if self.next in self.skips else verdict, since)
        self.items[self.next] = item
        self.next += 1
        if not item.verdict:
            self.open.append(item)

    def hear(self, entry: Entry) -> None:
        """What an entry says of places before it: the first word counts."""
        for it in self.open:
            if entry.path == VOID and entry.named() == it.place:
                it.verdict = Verdict.LATE
            elif it.place <= entry.done:
                it.verdict = Verdict.GOOD
        self.open = [it for it in self.open if not it.verdict]

    def forget(self, place: int) -> None:
        """This place is decided, and done with."""
        self.items.pop(place, None)
