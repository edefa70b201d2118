"""One machine: its follower, the thread that carries the log out on the machine's own desk, in order. No other thread asks that desk anything.

A post is carried out once it is read, if it is in time by then, and its answer is held back until the log has said that it counts. Where the log says that it is
void, a desk that has carried it out is ended.
"""
import os
import sys
import threading
import time
from concurrent.futures import Future
from queue import Empty, SimpleQueue
from typing import NamedTuple, NoReturn, Optional, Protocol

from clock import now
from compare import Comparison
from desk import Begun, Desk, Ended, Opening
from entry import COMPARE, SKIP, Entry
from etcd import Unanswered
from log import MOST_AT_ONCE, PAUSE, Log, LogLost
from order import Item, Order, Verdict
from words import MEMORY_OR_DISK, Answer

IDLE = 0.25  # seconds after which it looks into the log again, where nobody calls
AGAIN = 30.0  # seconds after which a machine that is out asks for a comparison once more
WORD_AFTER = 0.5  # seconds after which a machine says of a post of another one that it was carried out, where nobody has said so
VOID_AFTER = 1.0  # seconds for which a post has to be late and known, and etcd to answer, before a machine says that it is void: whoever was in time says so before
TAKE_OVER = 1.0  # seconds after which the reserve carries out a post of which the log says nothing
MOST_REPEATS = 3  # failures in a row at one place after which a machine stays out


def say(text: str) -> None:
    """A line on the standard error."""
    print(f"replica: {text}", file=sys.stderr, flush=True)


def give_up(why: object) -> NoReturn:
    """Ends the program, whatever its threads do."""
    say(str(why))
    os._exit(3)


class Carried(NamedTuple):
    """An answer, and the last place of the log that was carried out by then."""
    place: int
    answer: Answer


Told = Future[Carried]


class Question(NamedTuple):
    """A GET, the place that has to be carried out before it, and who is told."""
    path: str
    least: int
    told: Told


class NotDone(Exception):
    """The log says of a post that it is not carried out, by anybody."""


class Left(Exception):
    """The machine leaves the others: its desk is ended, and another one begins."""


class Writes(Protocol):
    """What a follower wants written into the log."""

    def compare(self) -> str:
        """A comparison; gives its mark."""

    def tick(self) -> None:
        """Any entry: it says what this machine has carried out."""

    def void(self, item: Item) -> None:
        """The word that a post is late."""


class Machine:
    """A machine is out until its tables were found to be those of the others. While it is out it answers nobody."""

    def __init__(self, log: Log, desk: Desk, every: int) -> None:
        """It compares at each place that is a multiple of `every`."""
        self.log, self.desk, self.every = log, desk, every
        self.is_in, self.most, self.mark, self.begun, self.order = False, 0, "", Begun(), Order(1, frozenset())
        self.writer: Optional[Writes] = None
        self.waiting: dict[str, Told] = {}  # by the mark of the entry
        self.questions: SimpleQueue[Question] = SimpleQueue()
        self.later: list[Question] = []
        self.comparisons: SimpleQueue[Comparison] = SimpleQueue()
        self.called = threading.Event()
        self.own: set[str] = set()  # the marks of the comparisons that this desk had appended
        self.held: set[int] = set()  # places of which the log has not said anything, and which this machine does not say to be in time
        self.leaves_for: Optional[str] = None  # why it has to leave
        self.at_hand = 0  # the place that the desk is given just now
        self.asking_since: Optional[float] = None
        self.compares_again, self.ticks_again, self.ticked, self.before = 0.0, 0.0, 0, 0
        self.passed_over = dict.fromkeys(Verdict, 0)
        self.name, self.reserve = "", ""  # of this machine, and of the one that leaves it to the others to be first; none while nobody is
        self.unheard = 0.0  # when etcd was last silent
        log.done = lambda: self.done if self.mark else 0

    # ---- what other threads call

    @property
    def place(self) -> int:
        """The last place that was carried out here, and counts."""
        return self.begun.decided

    @property
    def done(self) -> int:
        """Up to where this machine says that each post was carried out here in time, or that the log had said what is to be done."""
        return min(self.held, default=self.begun.carried + 1) - 1

    def stuck(self) -> float:
        """For how many seconds its desk owes an answer."""
        since = self.asking_since
        return now() - since if since else 0.0

    def ask(self, path: str, least: int) -> Told:
        """What the desk answers to a GET, once this place is carried out."""
        told: Told = Future()
        self.questions.put(Question(path, least, told))
        self.called.set()
        return told

    def comes_in(self, mark: str) -> None:
        """The tables of the desk of this mark were found to be those of the others."""
        if mark == self.mark and not self.is_in:
            say(f"in, at place {self.place}")
            self.desk.forget_repeats()
            self.is_in = True

    def has_to_leave(self, mark: str, why: str) -> None:
        """The desk of this mark has to begin anew."""
        if mark == self.mark:
            self.leaves_for = why
            self.called.set()

    def is_spent(self) -> bool:
        """Whether the desk ends soon, after its COUNT of connections, and one that begins anew would not."""
        return self.is_in and self.begun.asked > self.most * 19 // 20 and self.begun.posts < self.most * 9 // 10

    def stays_out_at(self) -> int:
        """The place at which its desks failed too often; 0 where there is none."""
        place, count = self.desk.repeats()
        return place if count >= MOST_REPEATS else 0

    # ---- the follower

    def run(self) -> None:
        """One desk after the other, for ever."""
        while True:
            self.stay_out()
            opening = self.desk.opening()
            if not opening:
                time.sleep(PAUSE)
                continue
            try:
                self.begin(opening)
                while True:
                    self.go_on(opening)
            except (Left, Ended) as why:
                self.leave(opening, str(why))
            except Unanswered:  # as it begins
                time.sleep(PAUSE)
            except LogLost as why:
                give_up(why)
            except Exception as why:  # of an entry that it cannot carry out, say: the others go on
                self.leave(opening, repr(why))

    def stay_out(self) -> None:
        """Waits while its desks fail at one place again and again: until that place is skipped, or a person has taken the count away."""
        place = self.stays_out_at()
        if place:
            say(f"stays out: its desks failed {MOST_REPEATS} times in a row at place {place}")
        while self.stays_out_at():
            try:
                if self.stays_out_at() in self.log.skips():
                    self.desk.forget_repeats()
            except Unanswered:
                pass
            self.answer_questions(None)
            time.sleep(10 * PAUSE)

    def begin(self, opening: Opening) -> None:
        """Goes on where the follower before was with this desk, or at the first place with a new one."""
        begun, skips = self.desk.begun(opening.mark), self.desk.skips(opening.mark)
        if begun is None or skips is None:
            begun, skips = Begun(), self.log.skips()
            self.desk.write("skips", opening.mark, *sorted(skips))
        elif begun.place > begun.carried and self.desk.failed(begun.place) >= MOST_REPEATS:
            raise Left(f"the follower ended in the midst of place {begun.place}")
        self.begun, self.order, self.held = begun, Order(begun.decided + 1, skips), set(range(begun.done + 1, begun.carried + 1))
        self.mark, self.most, self.leaves_for, self.own, self.at_hand = opening.mark, opening.most, None, set(), 0
        self.compares_again, self.ticks_again, self.ticked, self.before = 0.0, 0.0, 0, max(begun.carried, begun.place)
        say(f"a desk at port {opening.port}, from place {begun.carried + 1} on")

    def leave(self, opening: Opening, why: str) -> None:
        """The machine is out, and whoever waits is told so."""
        say(f"out, after place {self.place}: {why}")
        self.is_in, self.mark, self.asking_since = False, "", None
        if self.at_hand:
            say(f"failed {self.desk.failed(self.at_hand)} times in a row at place {self.at_hand}")
        self.at_hand = 0
        self.desk.end(opening)
        self.answer_questions(None)
        for mark in list(self.waiting):
            told = self.waiting.pop(mark, None)
            if told:
                told.set_exception(Ended(why))

    def go_on(self, opening: Opening) -> None:
        """Carries out what the log has next."""
        before, is_end = self.order.next, self.read()
        self.settle(opening)
        self.walk(opening, is_end)
        self.settle(opening)
        self.asks_for_words(is_end)
        if self.order.next == before:
            self.called.wait(PAUSE if self.order.open else IDLE)
            self.called.clear()
            self.answer_questions(opening)
            self.leave_if_it_has_to()
            if self.desk.opening() != opening:
                raise Ended("the desk has ended")

    def read(self) -> bool:
        """Reads what the log has next, as far as is known. Whether that is all that there is, by what etcd just told."""
        try:
            entries = self.log.follow(self.order.next)
        except Unanswered:
            return False
        for it in entries:
            self.order.take(it, now())
        return len(entries) < MOST_AT_ONCE

    def walk(self, opening: Opening, is_end: bool) -> None:
        """Carries out the places that are read: those of which the log has said what is to be done, and at its end those that are in time."""
        while item := self.order.items.get(self.begun.carried + 1):
            if not item.verdict and not (is_end and self.may_begin(item)):
                return
            self.carry_out(opening, item)
            self.leave_if_it_has_to()
            if item.verdict:
                self.settle(opening)

    def is_in_time(self, item: Item) -> bool:
        """Whether a post may be carried out for the first time."""
        return item.entry is not None and self.log.clock.now() <= item.entry.latest

    def was_in_time(self, item: Item) -> bool:
        """Whether a post that was begun in time is answered before its sender was told to wait no more: the fifth part of that is left."""
        return item.entry is not None and self.log.clock.now() <= item.entry.latest + max(0, item.entry.latest - item.entry.sent) // 4

    def may_begin(self, item: Item) -> bool:
        """Whether this machine may carry out a post of which the log says nothing yet. What stands before the first entry of this process may have been there
        for any time: a clock that is slow does not tell, once nobody else writes."""
        waits = self.is_reserve() and now() - item.since < TAKE_OVER
        return not waits and 0 < self.log.first_own <= item.place and self.is_in_time(item)

    def is_reserve(self) -> bool:
        """Whether this machine leaves it to the others to carry a post out first: so its desk goes on if the log says that the post is void."""
        return self.name != "" and self.name == self.reserve

    def carry_out(self, opening: Opening, item: Item) -> None:
        """The next place."""
        place, entry = item.place, item.entry
        if entry and item.verdict in (None, Verdict.GOOD):
            if entry.is_post():
                self.post(opening, item, entry)
            elif entry.path == SKIP and entry.named() not in self.order.skips and 0 < entry.named() < place:
                raise Left(f"place {entry.named()} is to be skipped, by place {place}, and was not")
        if not item.verdict and not self.was_in_time(item):
            self.held.add(place)  # it took too long: another machine may have been faster
        self.begun = self.begun._replace(carried=place)
        if entry and entry.is_post():
            self.desk.begin(opening.mark, self.begun._replace(done=self.done))
        is_asked_for = entry is not None and entry.path == COMPARE
        if self.own and is_asked_for or self.is_in and (is_asked_for or place % self.every == 0):
            self.compare(opening, item)

    def post(self, opening: Opening, item: Item, entry: Entry) -> None:
        """Has the desk carry out a post. It is written down first, so that this one alone is posted again by a follower that begins after a stop."""
        self.at_hand = item.place
        self.begun = self.begun._replace(place=item.place, posts=self.begun.posts + 1)
        self.desk.begin(opening.mark, self.begun._replace(done=self.done))
        answer = self.ask_desk(opening, "POST", entry.path, entry.body)
        if answer.status == MEMORY_OR_DISK:
            raise Left(f"at place {item.place} the desk answered {answer.body.decode()}")
        item.answer, self.at_hand = answer, 0

    def settle(self, opening: Opening) -> None:
        """Tells the answers of the places that are carried out here, and of which the log has said what counts."""
        while (item := self.order.items.get(self.place + 1)) and item.verdict and item.place <= self.begun.carried:
            if item.verdict is Verdict.LATE and (item.answer or item.place in self.held or item.place <= self.before):
                raise Left(f"place {item.place} is void, and was carried out here")
            self.begun = self.begun._replace(decided=item.place)
            self.order.forget(item.place)
            self.held.discard(item.place)
            self.passed_over[item.verdict] += 1
            if item.verdict is not Verdict.GOOD:
                say(f"place {item.place} {item.verdict.value}")
            told = self.waiting.pop(item.entry.mark, None) if item.entry else None
            if told and item.verdict is not Verdict.GOOD:
                told.set_exception(NotDone(item.verdict.value))
            elif told and item.answer:
                told.set_result(Carried(item.place, item.answer))
        self.answer_questions(opening)

    def asks_for_words(self, is_end: bool) -> None:
        """Has the log told what it does not know: that posts are carried out, or that one is late; and where this machine is out, that it wants to be in."""
        if not is_end or not self.writer:
            return
        first = self.order.open[0] if self.order.open else None
        if self.log.etcd.silent() > 2 * VOID_AFTER:
            self.unheard = now()
        if first and first.place <= self.done:
            is_own = self.done > self.ticked and any(it.entry and self.speaks_of(it.entry) for it in self.order.open)
            if is_own or now() - first.since > WORD_AFTER and now() > self.ticks_again:
                self.ticked, self.ticks_again = self.done, now() + WORD_AFTER
                self.writer.tick()
        elif first and first.place > self.done and self.is_late(first) and now() - max(first.since, self.unheard) > VOID_AFTER:
            first.since = now()
            self.writer.void(first)
        if not self.is_in and now() > self.compares_again:
            self.compares_again = now() + AGAIN
            self.own.add(self.writer.compare())

    def is_late(self, item: Item) -> bool:
        """Whether a post may be said to be void."""
        return item.entry is not None and self.log.clock.now() > item.entry.latest + int(VOID_AFTER * 1000)

    def speaks_of(self, entry: Entry) -> bool:
        """Whether this machine says at once that it has carried out a post: somebody waits for it here, or at the reserve."""
        return entry.mark in self.waiting or self.reserve not in ("", self.name) and entry.mark.startswith(f"{self.reserve}-")

    def leave_if_it_has_to(self) -> None:
        """Leaves, where another thread found that it has to."""
        if self.leaves_for:
            raise Left(self.leaves_for)

    def compare(self, opening: Opening, item: Item) -> None:
        """Has the tables of this place compared, by a copy of them, and how the link stands. A desk that answers has its file whole."""
        link = b"".join(self.desk.question(opening, act).body for act in ("link", "schedule"))
        self.begun = self.begun._replace(asked=self.begun.asked + 2)
        folder = self.desk.path(f"copy-{item.place}")
        self.desk.copy(folder)
        mark = item.entry.mark if item.entry and item.entry.path == COMPARE else ""
        self.comparisons.put(Comparison(item.place, mark.split("-")[0], mark in self.own, opening.mark, folder, link))

    def ask_desk(self, opening: Opening, method: str, path: str, body: Optional[bytes]) -> Answer:
        """What the desk answers, and one connection more of its COUNT."""
        self.begun = self.begun._replace(asked=self.begun.asked + 1)
        self.asking_since = now()
        answer = self.desk.ask(opening, method, path, body)
        self.asking_since = None
        return answer

    def answer_questions(self, opening: Optional[Opening]) -> None:
        """Answers what may be answered by now, while nothing is carried out that may be void; all, where there is no desk any more."""
        try:
            while True:
                self.later.append(self.questions.get_nowait())
        except Empty:
            pass
        if opening and self.place < self.begun.carried:
            return
        for it in [it for it in self.later if not opening or it.least <= self.place]:
            self.later.remove(it)
            if opening and self.is_in:
                answer = self.ask_desk(opening, "GET", it.path, None)
                if answer.has_failed():
                    it.told.set_exception(Ended("the desk failed"))
                    raise Left(f"after place {self.place} the desk answered {answer.body.decode()}")
                it.told.set_result(Carried(self.place, answer))
            else:
                it.told.set_exception(Ended("the machine is out"))
