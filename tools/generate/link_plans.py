"""A writer that goes for the cells of FOP-1 which random lines hardly meet: it piles up control words of every kind on the downlink,
and then begins a service beside them, with the V(S), the frames and the limit by which two of these words, one after the other,
meet the cell in question.
"""
import itertools
from collections import Counter
from typing import NamedTuple

from generate.link_writers import Style, Writer
from model.farm import LOCKOUT, WAIT, Reading
from model.fop import INITIAL, Fop, Sent

PLANNED = Style("planned", 4000, (10, 20, 128, 254), (127,), starts="stale", t1s=(1, 2), commands=0, asks=0.1)
FLOWN = "5 ---- no 8 1 - - ok"
NEXT = 6  # items of the downlink that are looked at once a service has ended

Cell = tuple[str, str, bool]


class Way(NamedTuple):
    """How a cell is met: the places of two words, the second being the one that meets it; a V(S), a count of frames, how often they were sent, and a
    limit."""
    first: int
    second: int
    vs: int
    frames: int
    sends: int
    limit: int


def sending(vs: int, frames: int, count: int) -> Fop:
    """A FOP in S1 that sent so many frames from this number on, so often."""
    fop = Fop()
    fop.state, fop.vs, fop.nn, fop.limit, fop.count = "S1", (vs + frames) % 256, vs, 9, count
    fop.sent = [Sent((vs + n) % 256, n) for n in range(frames)]
    return fop


def seen(fop: Fop, word: Reading) -> Cell:
    """The cell that a FOP will meet by a word, and whether the word acknowledges something."""
    return fop.row_of(word), fop.state, word.report != fop.nn


class Planner(Writer):
    """Writes a script by plans; `gone` counts how often each cell was gone for."""

    def __init__(self, seed: int, style: Style = PLANNED) -> None:
        """Begins with a new plain desk."""
        super().__init__(seed, style)
        self.gone: Counter[Cell] = Counter()

    def write(self) -> "Planner":
        """Stocks of control words, and a plan after each other as long as they last."""
        self.say(f"set k {self.widest}")
        while len(self.lines) < self.style.turns:
            self.clear()
            self.stock()
            while len(self.downlink) > 4 and self.plan():
                pass
        self.end()
        return self

    def clear(self) -> None:
        """Nothing goes up, and the FARM is open."""
        self.say("terminate")
        for _ in range(len(self.uplink)):
            self.say("loseup 0")
        if self.farm.flags[LOCKOUT]:
            for act in ("set limit 9", "initiate unlock", "up", "terminate"):
                self.say(act)

    def flies(self, count: int) -> None:
        """So many requests fly."""
        for _ in range(count):
            self.say(f"release {self.prepare(FLOWN)}")

    def stock(self) -> None:
        """Control words: of frames that come, that are missed, that find no buffer, and of a lockout."""
        for act in ("set t1 1", "set limit 255"):
            self.say(act)
        for _ in range(3):
            self.say("terminate")
            if self.dice.random() < 0.6:
                self.levels()
            self.say(f"set vs {self.farm.vr}")
            self.say("initiate none")
            self.flies(4)
            self.jolt()
        if self.dice.random() < 0.4:
            self.locks()
        self.say("terminate")

    def jolt(self) -> None:
        """Of a few frames some are missed and sent again; each control word that is another goes down."""
        for _ in range(16):
            if not self.uplink:
                self.say("tick")
            behind = (self.farm.vr - self.uplink[0].number) % 256
            if 0 < behind < 128 and self.dice.random() < 0.9 or self.dice.random() < 0.3:
                self.say("loseup 0")
                continue
            self.say("up")
            self.tells()
            if self.farm.state == WAIT and self.dice.random() < 0.6:
                for _ in range(self.dice.randrange(1, 4)):
                    self.say("work")
                self.tells()

    def tells(self) -> None:
        """The control word goes down, where it is not the last that went."""
        if not self.downlink or self.downlink[-1] != self.farm.word():
            self.say("clcw")

    def levels(self) -> None:
        """A control frame takes the FARM's flags away, and leaves V(R)."""
        for _ in range(len(self.uplink)):
            self.say("loseup 0")
        self.say(self.dice.choice(("initiate unlock", f"initiate setvr {self.farm.vr}")))
        self.say("up")
        self.tells()
        self.say("terminate")

    def locks(self) -> None:
        """A frame comes whose number is far out."""
        self.say("terminate")
        self.say(f"set vs {(self.farm.vr + 128) % 256}")
        self.say("initiate none")
        for _ in range(len(self.uplink)):
            self.say("loseup 0")
        self.flies(1)
        for act in ("up", "clcw", "clcw"):
            self.say(act)

    def ways(self) -> dict[Cell, Way]:
        """For each cell that two of the next words, one after the other, can meet, a way to it."""
        words = self.words(len(self.downlink))[:16]
        found = {(row, "S1", False): Way(0, 0, self.fop.vs, 2, 1, 9) for row in ("P17", "P18")} if words else {}
        for (first, word), back, frames, count in itertools.product(words, (0, 1, 2), (1, 2, 3), (1, 2)):
            vs = (word.report - back) % 256
            fop = sending(vs, frames, count)
            for limit in (9, 1, count):
                fop.limit = limit
                found.setdefault(seen(fop, word), Way(first, first, vs, frames, count, limit))
            fop.limit = 9
            fop.clcw(word)
            if fop.state not in ("S2", "S3"):
                continue
            for row in ("P17", "P18"):
                found.setdefault((row, fop.state, False), Way(first, first, vs, frames, count, 9))
            for (second, other), limit in itertools.product(words, (9, 1, max(2, fop.count))):
                fop.limit = limit
                if second > first:
                    found.setdefault(seen(fop, other), Way(first, second, vs, frames, count, limit))
        return found

    def begins(self, vs: int, frames: int, count: int) -> None:
        """A service from this number on, with so many frames, each sent so often."""
        for act in (f"set vs {vs}", "set limit 9", "set t1 1", f"set k {self.widest}", "initiate none"):
            self.say(act)
        self.flies(frames)
        for _ in range(1, count):
            self.say("tick")

    def reads(self, place: int) -> None:
        """The word at this place comes down; those before it are lost."""
        for _ in range(place):
            self.say("losedown 0")
        self.say("down")

    def plan(self) -> bool:
        """Of the cells that these words can meet that one is met that was met least. Answers whether there was one."""
        found = self.ways()
        if not found:
            return False
        cell = min(found, key=lambda it: (self.gone[it], self.dice.random()))
        self.gone[cell] += 1
        self.follow(cell, found[cell])
        return True

    def waiting(self, frames: int) -> None:
        """One more request waits, since the window is closed."""
        self.say(f"set k {frames}")
        self.flies(1)

    def follow(self, cell: Cell, way: Way) -> None:
        """Goes this way to a cell, often with one request that waits: until the window is open, or behind a word that tells to wait."""
        row, state, _ = cell
        self.begins(way.vs, way.frames, way.sends)
        waits = self.dice.choice((0, 1, 1, 2)) if row != "P17" else 1
        if waits == 1:
            self.waiting(way.frames)
        if row != "P17" and self.dice.random() < 0.5:
            self.say(f"set k {self.widest}")
        second = way.second
        if state != "S1":
            self.reads(way.first)
            second -= way.first + 1
            if waits == 2 and state == "S3":
                self.flies(1)
        if waits == 1 and self.dice.random() < 0.7:
            self.say(f"set k {self.widest}")
        self.meet(row, second, way.limit)
        self.say("link")
        self.say("terminate")
        if self.dice.random() < 0.5:
            self.reads_ended()
        if self.dice.random() < 0.2:
            self.begins_slowly()

    def meet(self, row: str, place: int, limit: int) -> None:
        """The row is met, by the timer's end or by the word at this place."""
        if row in ("P17", "P18"):
            self.say(f"set limit {self.fop.count + (row == 'P17')}")
            for _ in range(self.fop.timer):
                self.say("tick")
        else:
            self.say(f"set limit {limit}")
            self.reads(place)

    def reads_ended(self) -> None:
        """No service is on, and a word comes down: of the next ones that whose row was met least in S6."""
        rows = [(self.fop.visits[self.fop.row_of(word), INITIAL], place) for place, word in self.words(NEXT)]
        if rows:
            self.reads(min(rows)[1])

    def begins_slowly(self) -> None:
        """A service is to begin by a check or a control frame, and an old word comes down."""
        words = self.words(NEXT)
        if words:
            place, word = self.dice.choice([it for it in words if it[1].is_retransmit] or words)
            self.say(f"set vs {(word.report - self.dice.choice((0, 0, 1))) % 256}")
            self.say(self.dice.choice(("initiate check", "initiate check", "initiate unlock")))
            self.reads(place)
            self.say("terminate")
