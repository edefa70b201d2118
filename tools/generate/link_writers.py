"""Writers of long random scripts over a link: each drives the plain desk as it writes, so that a line fits how the link stands, and keeps what the
plain desk answers to each line.
"""
import random
from dataclasses import dataclass, field
from typing import Callable, Optional

from generate.texts import joined
from model.book import Book
from model.carrier import Carrier
from model.desk import Desk
from model.facts import CLOSED_FROM, LAST_MOMENT, PLACE_WORDS, Place
from model.farm import Farm, Frame, Reading, Word, read_word
from model.fop import INITIAL, SENDING, Fop
from model.link import Item

# So many items of the downlink are looked through for one that is sought.
STOCK = 30
# The cells that lead from S1 to where the FARM is known to miss a frame, or to wait.
DIVES = {(row, "S1") for row in ("P9", "P10", "P11", "P12", "P13")}
PERSONS = "ann bob cid eve joe".split()
BAD_LINES = ("0 ann", "ann 0 up", "0 ann up ", "0 ann  up", "0 desk up", "4102444800 ann up", "00 ann up", "0 ann loseup -1",
             "0 ann set k 0", "0 ann set k 256", "0 ann set t1 65536", "0 ann set limit 0", "0 ann set vs 256",
             "0 ann initiate setvr 256", "0 ann initiate", "0 ann initiate Check", "0 ann clock 4102444800", "0 ann release 01",
             "0 ann losedown 4294967296", "0 ann enter 5 ---c no 11 4 1;2 90 ok", "0 ann enter 5 ---c no 11 4 1; 90;90 ok",
             "0 ann tick 1", "0 ann " + "x" * 200, "0 ann " + "x" * 201, "ann ann " + "x" * 201)


@dataclass
class Style:
    """How a script is written: how many turns, which windows, starts, losses and kinds of requests, how often a request is a command and an insert
    names several, and how often is asked; and the size of the link's two rings, where it is not two lists. A K that is wider than fits stands
    for the widest that does."""
    name: str
    turns: int
    windows: tuple[int, ...]
    ks: tuple[int, ...]
    starts: str = "good"
    limits: tuple[int, ...] = (1, 2, 3, 3, 5)
    t1s: tuple[int, ...] = (1, 2, 3, 10)
    commands: float = 0.2
    lists: float = 0.4
    seeks: float = 0.0
    asks: float = 0.15
    every: tuple[str, ...] = ()
    ring: Optional[int] = None
    weights: dict[str, float] = field(default_factory=dict)


# Of each turn how often it comes: those that are no methods are acts.
WEIGHTS = {"fly": 16, "prepare": 3, "up": 14, "work": 10, "clcw": 9, "down": 22, "tick": 3, "lose_up": 2, "lose_down": 2,
           "terminate": 0.5, "settle": 1, "turn_clock": 2, "leave": 1.5, "ask": 1.5, "burst": 3, "spoil": 0.7, "wrong": 1.5, "pump": 2}


class Writer:
    """Writes a script: `lines`, and `wanted`, what the plain desk answers to each."""

    def __init__(self, seed: int, style: Style) -> None:
        """Begins with a new plain desk, whose window and channel the seed chooses."""
        self.dice, self.style = random.Random(seed), style
        self.w, self.vc = self.dice.choice(style.windows), self.dice.choice((3, 3, 0, 63, 21))
        self.desk, self.moment = Desk(self.w, self.vc, style.ring), self.dice.choice((0, 100, 86400))
        self.lines: list[str] = []
        self.wanted: list[list[str]] = []

    def options(self) -> list[str]:
        """The options of a run of this script."""
        return ["--w", str(self.w), "--vc", str(self.vc)] + (["--ring", str(self.style.ring)] if self.style.ring else [])

    def say(self, act: str, by: Optional[str] = None) -> None:
        """One line, a little later than the one before; and, where the style says so, questions behind it."""
        self.moment += self.dice.randrange(3)
        self.put(f"{self.moment} {by or self.dice.choice(PERSONS)} {act}")
        if act.startswith("initiate") or self.dice.random() < self.style.asks:
            self.put(f"{self.moment} ann link")
        for question in self.style.every:
            self.put(f"{self.moment} ann {question}")

    def put(self, line: str) -> None:
        """This very line."""
        self.lines.append(line)
        self.wanted.append(self.desk.line(line))

    # ---- how the desk stands

    @property
    def book(self) -> Book:
        """Its book."""
        return self.desk.book

    @property
    def fop(self) -> Fop:
        """Its FOP."""
        return self.desk.link.fop

    @property
    def farm(self) -> Farm:
        """Its FARM."""
        return self.desk.link.farm

    @property
    def uplink(self) -> Carrier[Frame]:
        """What flies up."""
        return self.desk.link.up

    @property
    def downlink(self) -> Carrier[Item]:
        """What flies down."""
        return self.desk.link.down

    @property
    def widest(self) -> int:
        """The widest K that fits: half of the FARM's window."""
        return self.w // 2

    def some_k(self) -> int:
        """A K by the style; now and then one that does not fit, which is refused."""
        if self.dice.random() < 0.05:
            return self.dice.choice((self.widest + 1, 128, 255))
        return min(self.dice.choice(self.style.ks), self.widest)

    def standing(self, *places: Place) -> list[int]:
        """The last requests that stand at one of these places, or anywhere where none is named, the latest first."""
        count = len(self.book.requests)
        return [n for n in range(count, max(0, count - 60), -1) if not places or self.book.place(n) in places]

    def pick(self, *places: Place) -> int:
        """A request that stands at one of these places; now and then, and where there is none, any number."""
        there = self.standing(*places)
        if there and self.dice.random() < 0.95:
            return self.dice.choice(there)
        return self.dice.randrange(len(self.book.requests) + 2)

    def words(self, count: int) -> list[tuple[int, Reading]]:
        """The control words among the next items of the downlink: the place of each, and what it tells."""
        readings = [(place, read_word(it.value, self.vc)) for place, it in enumerate(self.downlink[:count]) if isinstance(it, Word)]
        return [(place, it) for place, it in readings if it]

    # ---- requests

    def outcome(self) -> str:
        """How a plain request turns out."""
        code, steps = self.dice.choice((16, 40, 255)), self.dice.randrange(1, 10)
        bad = [f"refuse/{code}", f"nostart/{code}", f"halt/{steps}/{code}", f"fail/{code}"]
        return self.dice.choice(["ok"] * 6 + [f"ok/{steps}"] * 2 + bad)

    def plain_words(self) -> str:
        """A plain request, as its entry spells it."""
        ack = "".join(letter if self.dice.random() < 0.5 else "-" for letter in "aspc")
        ack = self.dice.choice((ack, ack, "a" + ack[1:], "----", "----"))
        apid = self.dice.choice((0, 1, 2, 3, 2047))
        critical = "yes" if self.dice.random() < 0.06 else "no"
        return f"{apid} {ack} {critical} {self.dice.choice((8, 1, 10, 12, 255))} {self.dice.randrange(1, 256)} - - {self.outcome()}"

    def due(self) -> int:
        """A time at which an activity may fall due, or one that is refused."""
        now = self.desk.board.now
        return min(self.dice.choice((now + self.dice.randrange(40, 500), now + 59, now + 60, LAST_MOMENT)), LAST_MOMENT)

    def dues(self, count: int) -> list[int]:
        """A time for each of so many: mostly times that the spacecraft takes."""
        if count > 1 and self.dice.random() < 0.6:
            return [self.desk.board.now + self.dice.randrange(150, 500) for _ in range(count)]
        return [self.due() for _ in range(count)]

    def command_words(self) -> str:
        """A command of the schedule, as its entry spells it."""
        offset = self.dice.choice((self.dice.randrange(-200, 300), -60, LAST_MOMENT, -LAST_MOMENT, 0))
        kind = self.dice.choice((1, 1, 2, 3, 4, 4, 4, 4, 4, 4, 4, 4, 5, 5, 7, 7, 7, 15, 15, 17))
        ridden = self.riders() if kind == 4 else []
        deleted, shifted = self.pick(Place.SCHEDULED, Place.RIDING, Place.DOUBTFUL), self.pick(Place.SCHEDULED)
        target = {4: joined(map(str, ridden)), 5: deleted, 7: shifted}.get(kind, "-")
        time = {4: joined(map(str, self.dues(len(ridden)))), 7: offset, 15: offset}.get(kind, "-")
        ack = "".join(letter if self.dice.random() < 0.4 else "-" for letter in "asp") + "c"
        return f"{self.dice.choice((5, 6))} {ack} no 11 {kind} {target} {time} ok"

    def riders(self) -> list[int]:
        """What an insert names: mostly 1 to 8 requests that may ride, of which those that lack are entered and approved; now and then any."""
        count = self.dice.choice((2, 2, 3, 3, 4, 5, 8)) if self.dice.random() < self.style.lists else 1
        if self.dice.random() < 0.1:
            return [self.pick(Place.APPROVED) for _ in range(count)]
        forms = {n: self.book.requests[n - 1].form for n in self.standing(Place.APPROVED)}
        may = [n for n, form in forms.items() if form.is_plain() and form.asks("a")]
        ridden = self.dice.sample(may, min(count, len(may)))
        made = [self.prepare(f"{self.dice.choice((1, 2, 3))} a--c no 8 1 - - {self.outcome()}") for _ in range(count - len(ridden))]
        return ridden + [it for it in made if it]

    def enter(self, words: str, by: str = "ann") -> Optional[int]:
        """A request is entered; its number, where it was."""
        before = len(self.book.requests)
        self.say(f"enter {words}", by)
        return before + 1 if len(self.book.requests) > before else None

    def prepare(self, words: Optional[str] = None) -> Optional[int]:
        """A request is entered and approved; its number, where it was."""
        made = self.enter(words or (self.command_words() if self.dice.random() < self.style.commands else self.plain_words()))
        if made:
            for by in ["ann"] * (self.dice.random() < 0.03) + ["bob"] * (1 + (self.dice.random() < 0.1)) + ["eve"]:
                if self.book.place(made) is Place.ENTERED:
                    self.say(f"approve {made}", by)
        return made

    def fly(self) -> None:
        """A request is released: mostly one that is new, now and then one that was given back."""
        if self.fop.state not in SENDING and self.dice.random() < 0.9:
            self.start()
        elif self.fop.wait is not None and self.dice.random() < 0.9:
            self.pump()
        else:
            number = self.given_back() or self.prepare()
            if number:
                self.say(f"release {number}")

    def given_back(self) -> Optional[int]:
        """Now and then, one that may be released and is not new."""
        back = self.standing(Place.APPROVED)
        if back and self.dice.random() < 0.45:
            number = self.dice.choice(back[:6])
            if all(self.book.place(it) is Place.APPROVED for it in self.book.activities(number)) or self.dice.random() < 0.05:
                return number
        return None

    def burst(self) -> None:
        """Some requests fly one behind the other."""
        for _ in range(self.dice.randrange(2, 8)):
            self.fly()

    def pump(self) -> None:
        """What is in flight comes on board, and what comes down is read."""
        for _ in range(self.dice.randrange(1, 6)):
            self.say("up")
            if self.dice.random() < 0.8:
                self.say("work")
        self.say("clcw")
        for _ in range(min(len(self.downlink), self.dice.choice((2, 10, 30)))):
            self.say("down")

    def wrong(self) -> None:
        """An act that is mostly refused."""
        some = self.pick(Place.SENT, Place.CONFIRMED, Place.ENTERED, Place.COMPLETED, Place.RIDING)
        n = self.dice.choice((0, len(self.book.requests) + 1, some, some))
        starts = ("initiate none", "initiate check", "initiate unlock", "initiate setvr 0", "set vs 0")
        self.say(self.dice.choice((
            f"release {n}", f"release {n}", f"approve {n}", f"withdraw {n}", f"close {n}", f"request {n}", f"history {n} 0",
            f"enter 5 ---c no 11 5 {n} - ok") + (starts if self.fop.state != INITIAL or self.style.starts != "good" else ())))

    def leave(self) -> None:
        """A request is withdrawn or closed."""
        if self.dice.random() < 0.2:
            made = self.enter(self.plain_words()) or 0
            if self.dice.random() < 0.4 and self.book.requests[made - 1].form.asks("a"):
                self.say(f"release {self.prepare(f'5 ---c no 11 4 {made} 500 ok')}")
            self.say(f"release {made}")
            self.say(f"withdraw {made}")
        elif self.dice.random() < 0.3:
            self.say(f"withdraw {self.pick(Place.ENTERED, Place.APPROVED, Place.SENT)}")
        else:
            self.say(f"close {self.pick(*CLOSED_FROM)}")

    # ---- the link

    def start(self) -> None:
        """A step to a start, by the style."""
        if self.fop.state != INITIAL:
            self.say(self.dice.choice(("up", "up", "clcw", "clcw", "down", "down", "down", "down", "tick", "initiate none")))
        elif self.style.starts == "stale" and self.dice.random() < 0.75:
            self.start_stale()
        elif self.style.starts != "good" and self.dice.random() < 0.4:
            self.start_hasty()
        elif self.uplink:
            self.say(self.dice.choice(("loseup 0", "up")))
        elif self.downlink:
            self.say(self.dice.choice(("losedown 0", "down", "down")))
        else:
            self.start_level()

    def start_level(self) -> None:
        """Nothing is in flight: a good start."""
        farm, roll = self.farm, self.dice.random()
        if roll < 0.1:
            self.say("initiate check")
        elif roll < 0.2:
            self.say("initiate unlock")
        elif roll < 0.35:
            self.say(f"initiate setvr {self.number()}")
        elif roll < 0.45:
            self.say(f"set vs {self.number()}")
        elif any(farm.flags.values()):
            self.say(self.dice.choice(("initiate unlock", "initiate unlock", f"initiate setvr {self.number()}")))
        elif self.fop.vs != farm.vr:
            self.say(f"set vs {farm.vr}")
        else:
            self.say("initiate none")

    def number(self) -> int:
        """A frame's number: any, or one near V(R)."""
        near = (self.farm.vr + self.dice.randrange(-3, 4)) % 256
        return self.dice.choice((near, near, self.dice.choice((0, 250, 255)), self.dice.randrange(256)))

    def start_hasty(self) -> None:
        """A start whatever the link is like."""
        if self.dice.random() < 0.5:
            self.say(f"set vs {self.number()}")
        self.say(f"initiate {self.dice.choice(('none', 'none', 'none', 'check', 'unlock', f'setvr {self.number()}'))}")

    def start_stale(self) -> None:
        """A start beside old control words, whose numbers are near V(S)."""
        words = [it for _, it in self.words(STOCK)]
        if not words:
            self.say(self.dice.choice(("clcw", "up", "work")))
            return
        if self.dice.random() < 0.7:
            words = [it for it in words if it.is_wait] or [it for it in words if it.is_retransmit] or words
        self.say(f"set vs {(self.dice.choice(words).report - self.dice.randrange(3)) % 256}")
        self.say(f"initiate {self.dice.choice(('none',) * 6 + ('check', 'unlock'))}")
        for _ in range(self.dice.randrange(4)):
            if self.fop.state in SENDING:
                self.fly()

    def seek(self) -> None:
        """Of the words on the downlink that one comes down whose cell, by this limit or another, was met least; those before it
        are lost."""
        if self.fop.state in ("S2", "S3") and self.dice.random() < 0.2:
            self.ring()
            return
        ways = self.ways_down()
        dives = [way for way in ways if way[4] in DIVES]
        if dives and self.dice.random() < 0.6:
            ways = dives
        if not ways:
            self.say("clcw")
            return
        _, place, is_other, limit, _ = min(ways)
        if is_other:
            self.say(f"set limit {limit}")
        for _ in range(place):
            self.say("losedown 0")
        self.say("down")

    def ways_down(self) -> list[tuple[int, int, bool, int, tuple[str, str]]]:
        """For each of the next words, and some limits: how often its cell was met, its place, whether the limit is another, the limit, and the
        cell."""
        mine, ways = self.fop.limit, []
        for limit in {mine, 1, max(2, self.fop.count), min(255, self.fop.count + 1)}:
            self.fop.limit = limit
            cells = [(place, (self.fop.row_of(word), self.fop.state)) for place, word in self.words(STOCK)]
            ways += [(self.fop.visits[cell], place, limit != mine, limit, cell) for place, cell in cells]
        self.fop.limit = mine
        return ways

    def ring(self) -> None:
        """The timer runs out, now and then at the limit."""
        if not self.fop.timer or self.fop.timer > 12:
            self.say(f"set t1 {self.dice.choice(self.style.t1s)}")
            return
        if self.dice.random() < 0.4 and self.fop.count <= 255:
            self.say(f"set limit {self.fop.count}")
        for _ in range(self.fop.timer):
            self.say("tick")
        if self.dice.random() < 0.5:
            self.say(f"set limit {self.dice.choice(self.style.limits)}")

    def tick(self) -> None:
        """A tick, or as many as end the timer."""
        if self.dice.random() < 0.25:
            self.ring()
        else:
            self.say("tick")

    def settle(self) -> None:
        """A setting of the FOP."""
        act = self.dice.choice(("k", "k", "k", "limit", "limit", "t1", "t1", "vs"))
        value = {"k": self.some_k(), "limit": self.dice.choice(self.style.limits),
                 "t1": self.dice.choice(self.style.t1s), "vs": self.number()}[act]
        self.say(f"set {act} {value}")

    def lose_up(self) -> None:
        """A frame is lost."""
        self.say(f"loseup {self.dice.choice((0, 0, 1, 2, 5))}")

    def lose_down(self) -> None:
        """A report or a control word is lost."""
        self.say(f"losedown {self.dice.choice((0, 0, 1, 2, 5))}")

    def turn_clock(self) -> None:
        """The spacecraft's time goes on; now and then it is told to go back."""
        now = self.desk.board.now
        self.say(f"clock {max(0, now + self.dice.choice((-1, 0, 10, 60, 100, 300)))}")

    def ask(self) -> None:
        """A question."""
        n = self.pick(Place.COMPLETED, Place.SENT, Place.ENTERED)
        self.say(self.dice.choice(("places", "schedule", "link", f"history {n} {self.dice.choice((0, 0, 100))}", f"request {n}",
                                   "log 1", "waiting", f"moves {n}", f"standing {self.dice.choice(PLACE_WORDS)} 0", "steps p1",
                                   "approvestack s1", "begin p1", "step 1 1 done -")))

    def spoil(self) -> None:
        """A line that is no line."""
        self.put(self.dice.choice(BAD_LINES))

    def turn(self) -> None:
        """One turn: a cell is sought, a service started, or what the weights choose."""
        weights = {**WEIGHTS, **self.style.weights}
        if self.dice.random() < (0.7 if self.style.seeks and self.fop.state in ("S2", "S3") else self.style.seeks):
            if self.dice.random() < 0.85:
                self.seek()
            else:
                self.ring()
        elif self.fop.state == INITIAL and self.dice.random() < 0.5:
            self.start()
        else:
            turn = self.dice.choices(list(weights), list(weights.values()))[0]
            method: Optional[Callable[[], None]] = getattr(self, turn, None)
            if method:
                method()
            else:
                self.say(turn)

    def write(self) -> "Writer":
        """All turns."""
        self.say(f"set k {min(self.dice.choice(self.style.ks), self.widest)}")
        while len(self.lines) < self.style.turns:
            self.turn()
            if self.downlink and self.dice.random() < 0.05:
                self.say("schedule")
        self.end()
        return self

    def end(self) -> None:
        """At the end all is asked for."""
        for question in ["link", "schedule", "places"] + [f"request {n}" for n in self.standing()[:20]]:
            self.put(f"{self.moment} ann {question}")
