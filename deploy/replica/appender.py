"""Gives entries their places in the log: all that wait, at once. It tries as long as somebody waits, and tells of each whether it may be in the log."""
import itertools
import secrets
import threading
import time
from queue import Empty, SimpleQueue
from typing import Callable

from entry import COMPARE, TICK, VOID, Entry
from etcd import Refused, Unanswered
from log import MOST_AT_ONCE, MOST_BYTES, PAUSE, Log, LogLost, Wanted
from machine import Machine, NotDone, give_up
from order import Item


class Appender(threading.Thread):
    """What a machine writes into the log."""

    def __init__(self, log: Log, machine: Machine, name: str) -> None:
        """Nothing waits yet."""
        super().__init__(daemon=True)
        self.log, self.machine, self.waiting = log, machine, SimpleQueue[Wanted]()
        self.marks = (f"{name}-{secrets.token_hex(8)}-{at}" for at in itertools.count())
        self.lock = threading.Lock()
        self.left: list[Wanted] = []
        machine.writer = self

    def mark(self) -> str:
        """A mark that no other entry has."""
        with self.lock:
            return next(self.marks)

    def wanted(self, path: str, body: bytes, is_wanted: Callable[[], bool] = lambda: True) -> Wanted:
        """Has an entry put into the log, while it is wanted."""
        it = Wanted(Entry(self.mark(), path, body), is_wanted)
        self.waiting.put(it)
        return it

    def post(self, mark: str, path: str, body: bytes, latest: int) -> Wanted:
        """Has a post put into the log, until this time of the log."""
        it = Wanted(Entry(mark, path, body, latest), lambda: self.log.clock.now() <= latest)
        self.waiting.put(it)
        return it

    def compare(self) -> str:
        """A comparison; gives its mark."""
        return self.wanted(COMPARE, b"").entry.mark

    def tick(self) -> None:
        """Any entry, once nothing else that is wanted says the same."""
        until = self.machine.done
        self.wanted(TICK, b"", is_wanted=lambda: self.machine.place < until and all(it.entry.path == TICK for it in self.left))

    def void(self, item: Item) -> None:
        """The word that a post is late."""
        self.wanted(VOID, b"%d" % item.place, is_wanted=lambda: not item.verdict)

    def run(self) -> None:
        """One try after the other, for ever."""
        while True:
            self.gather()
            try:
                self.log.put(self.left)
            except Refused as why:
                self.refuse(str(why))
            except Unanswered:
                time.sleep(PAUSE)
            except LogLost as why:
                give_up(why)
            self.left = [it for it in self.left if not it.place and not it.is_over and it.is_wanted()]
            self.machine.called.set()

    def refuse(self, why: str) -> None:
        """Nothing of what waits is put into the log, which has no room."""
        for it in self.left:
            told = None if it.give_up() else self.machine.waiting.pop(it.entry.mark, None)
            if told:
                told.set_exception(NotDone(why))

    def gather(self) -> None:
        """Takes what waits, once something does, as much as fits into one transaction."""
        size = sum(len(it.entry.body) for it in self.left)
        try:
            while len(self.left) < MOST_AT_ONCE and size < MOST_BYTES:
                self.left.append(self.waiting.get_nowait() if self.left else self.waiting.get())
                size += len(self.left[-1].entry.body)
        except Empty:
            pass
