"""The log: every post that came to any machine, each at a place of its own, from 1 on, without a gap. What is at a place stays there.

All that hangs on etcd is in `put`, `follow`, `newest` and `skips`.
"""
import threading
import time
from typing import Callable, Optional, Sequence

from clock import Clock
from entry import Entry, Seal, entry_of
from etcd import Etcd, Found, Refused, Unanswered, is_free, is_there, put, span

MOST_AT_ONCE = 100  # entries that are read at a time, or put in one transaction, of which etcd takes 128
MOST_BYTES = 500_000  # of the bodies of one transaction, of which etcd takes 1.5 MB
PAUSE = 0.05  # seconds between two tries


class LogLost(Exception):
    """The log is not what it was: what is at a place stays there, and this one is gone."""


class Wanted:
    """An entry that is to be put into the log, and what is known of that."""

    def __init__(self, entry: Entry, is_wanted: Callable[[], bool] = lambda: True) -> None:
        """It is put while this is so."""
        self.entry, self.is_wanted, self.lock = entry, is_wanted, threading.Lock()
        self.place, self.is_over, self.tried_at = 0, False, 0

    def claim(self, place: int) -> bool:
        """Whether it is to be tried at this place now. From then on it may be there."""
        with self.lock:
            if self.place or self.is_over or not self.is_wanted():
                return False
            self.tried_at = self.tried_at or place
            return True

    def found(self, place: int) -> None:
        """It stands at this place; or at none, and no try of before comes to one any more: 0."""
        with self.lock:
            self.place, self.tried_at = place, place

    def give_up(self) -> bool:
        """Nobody wants it any more, and it is tried no further. Whether it may be in the log."""
        with self.lock:
            self.is_over = True
            return self.tried_at > 0


class Log:
    """The log of one desk, below a name of its own in etcd."""

    def __init__(self, etcd: Etcd, name: str, seal: Seal, clock: Optional[Clock] = None) -> None:
        """Nothing was seen of it yet."""
        self.etcd, self.root, self.seal, self.clock = etcd, f"/tcdesk/{name}", seal, clock or Clock()
        self.free = 1
        self.first_own = 0  # the place of the first entry that this process put; 0 where it has put none
        self.done: Callable[[], int] = lambda: 0  # up to which place this machine carried it out in time

    def key(self, place: int) -> str:
        """The key of a place."""
        return f"{self.root}/log/{place:012d}"

    @property
    def end(self) -> str:
        """The key after all places."""
        return f"{self.root}/log/:"

    def agrees(self, what: bytes) -> bool:
        """Whether all machines say the same of their program, and have one seal, once etcd answers: the first says what."""
        key = f"{self.root}/program"
        told = self.seal.sealed(key, what)
        while True:
            try:
                there = self.etcd.write([is_free(key)], [put(key, told)], span(key, key + "0", 1))
            except Unanswered:
                time.sleep(10 * PAUSE)
                continue
            return not there or there.pairs[0].value == told

    def put(self, wanted: Sequence[Wanted], skips: int = 0) -> None:
        """Tries once to give these entries the next places, in one transaction, those that are wanted; with one of them a place may be skipped. Of each it is known
        then where it stands, or that it does not stand there; of all nothing, where etcd does not answer. One that nobody wants any more is tried no further: so
        what its sender sends again, once he gave up, comes after it or in its stead."""
        place = min([it.tried_at for it in wanted if it.tried_at] or [self.free])  # before it is asked who waits: after that may come what is sent again
        first = {id(it) for it in wanted if not it.tried_at}
        still = [it for it in wanted if it.claim(place)]
        if not still:
            return
        try:
            there = self.tried(place, [it.entry for it in still], skips)
        except Refused:
            for it in still:
                if id(it) in first:
                    it.found(0)
            raise
        marks = {it.entry.mark: place + at for at, it in enumerate(still)} if there is None else self.marks(place, there)
        self.free = max(self.free, place + (len(still) if there is None else there.amount))
        for it in still:
            it.found(marks.get(it.entry.mark, 0))
        self.first_own = self.first_own or min((it.place for it in still if it.place), default=0)

    def tried(self, place: int, entries: Sequence[Entry], skips: int) -> Optional[Found]:
        """Puts entries at these places, where they are free, and all before are not. Gives what stands there, where they are not."""
        sent, done = self.clock.now(), self.done()
        texts = [self.seal.sealed(self.key(place + at), it._replace(sent=sent, done=done).text()) for at, it in enumerate(entries)]
        puts = [put(self.key(place + at), it) for at, it in enumerate(texts)]
        if skips:
            puts.append(put(self.skip_key(skips), self.seal.sealed(self.skip_key(skips), b"%d" % skips)))
        conditions = [is_free(self.key(place))] + ([is_there(self.key(place - 1))] if place > 1 else [])
        return self.etcd.write(conditions, puts, span(self.key(place), self.end, MOST_AT_ONCE))

    def marks(self, place: int, there: Found) -> dict[str, int]:
        """The places of others, by their marks: also of what this machine put there, and was not told of."""
        entries = self.entries(place, there)
        if not entries:
            raise LogLost(f"there is nothing at place {place}, and after it or before it there was")
        return {it.mark: place + at for at, it in enumerate(entries) if it}

    def entries(self, place: int, found: Found) -> list[Optional[Entry]]:
        """The entries of these pairs, from this place on; none in place of one that no replica of this desk put there."""
        entries = []
        for at, it in enumerate(found.pairs):
            if it.key != self.key(place + at):
                raise LogLost(f"there is nothing at place {place + at}, and after it there is")
            text = self.seal.opened(it.key, it.value)
            entries.append(entry_of(text) if text is not None else None)
        return entries

    def follow(self, place: int) -> list[Optional[Entry]]:
        """The entries from this place on, as far as the member of this machine knows them, so many at most."""
        entries = self.entries(place, self.etcd.ask(span(self.key(place), self.key(place + MOST_AT_ONCE), is_newest=False)))
        self.free = max(self.free, place + len(entries))
        for it in entries:
            self.clock.saw(it.sent if it else 0)
        return entries

    def newest(self, place: int) -> int:
        """The last place of the log, which is this one or after it, as of now."""
        return place + self.etcd.ask(span(self.key(place + 1), self.end, 1)).amount

    def skip_key(self, place: int) -> str:
        """The key that says that a place is skipped."""
        return f"{self.root}/skip/{place:012d}"

    def skips(self) -> frozenset[int]:
        """The places that are to be skipped, as of now, by a replica's word."""
        found = self.etcd.ask(span(f"{self.root}/skip/", f"{self.root}/skip0")).pairs
        return frozenset(int(text) for it in found if (text := self.seal.opened(it.key, it.value)) is not None)
