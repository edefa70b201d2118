"""Random scripts of acts on the book, which look at the plain desk beside them, and so meet most refusals and most places. Each line is answered by
the plain desk as it is written.
"""
from collections import Counter
from random import Random
from typing import Callable, Iterable, NamedTuple, Optional

from generate.texts import Records, damaged, joined, no_list, row_text, some_bytes, some_count, some_instant
from model import lines
from model.book import Book
from model.desk import LOADS, Desk
from model.facts import (CLOSED_FROM, LAST_MOMENT, LAST_NUMBER, MARK, MOST_BUFFERED, MOST_ROWS, MOST_SHOWN, PLACE_WORDS, PROCEDURE_HEADER, STACK_HEADER,
                         Place)
from model.fop import INITIAL
from model.lines import Act
from model.link import Link

PERSONS = "ann bob cid eve z a234567890123456".split()
SEEN = 60
# Lines of one random script, and each of so many is one over a link that loses.
LINES, LOSING_EACH = 2800, 4


class Told(NamedTuple):
    """A line of a script that is answered, and the answer."""
    line: str
    answer: list[str]


class Written:
    """A script, the files that it loads, and what the plain desk answers to each of its lines."""

    def __init__(self, title: str, desk: Optional[Desk] = None) -> None:
        """Nothing was said yet to this plain desk, or to a new one."""
        self.title, self.desk = title, desk or Desk()
        self.files = self.desk.files
        self.lines: list[str] = []
        self.told: list[Told] = []
        self.refused: Counter[int] = Counter()

    @property
    def book(self) -> Book:
        """The plain desk's book."""
        return self.desk.book

    def is_wanted(self, act: Act) -> bool:
        """Whether an act may stand in this script: a load finds its file."""
        return act.word not in LOADS or act.fields[1] in self.files

    def say(self, line: str) -> bool:
        """One line more, where its act is wanted. Answers whether it was written."""
        read = lines.script_lines(line + "\n")
        act = lines.act_of(read[0]) if read else None
        if act and not self.is_wanted(act):
            return False
        self.lines.append(line)
        for it in read:
            answer = self.desk.line(it)
            self.told.append(Told(it, answer))
            if answer[0].startswith("refused "):
                self.refused[int(answer[0].split(" ")[1])] += 1
        return True

    def file(self, text: bytes, name: Optional[str] = None) -> str:
        """A file with this text; its name."""
        name = name or f"f{len(self.files)}.csv"
        self.files[name] = text
        return name

    def status(self) -> int:
        """How the program has to end."""
        return self.desk.status()


class Command(NamedTuple):
    """The words of a request: service, subtype, target and time, which may be empty; reports, criticality and outcome."""
    words: list[str]
    ack: str
    critical: str
    outcome: str


class Writer(Written):
    """Writes a random script over a link that loses nothing: a service starts where both sides agree, and what flies comes on board."""

    def __init__(self, title: str, dice: Random, moment: int, desk: Optional[Desk] = None) -> None:
        """Begins at this moment, with a new plain desk, or with this one."""
        super().__init__(title, desk)
        self.dice, self.moment = dice, moment

    def often(self) -> list[tuple[Callable[[], object], int]]:
        """Of each turn how often it comes."""
        return [(self.enter, 10), (self.approve, 13), (self.approve_stack, 3), (self.leave, 5), (self.release, 12), (self.fly, 34),
                (self.start, 3), (self.stack, 2), (self.procedure, 2), (self.work_step, 9), (self.ask, 10), (self.spell, 7),
                (self.direct, 2), (self.turn_clock, 2), (self.cut, 1), (self.lay_in, 4)]

    def write(self, count: int) -> None:
        """So many lines, or a few more."""
        turns = [turn for turn, times in self.often() for _ in range(times)]
        while len(self.lines) < count:
            self.dice.choice(turns)()

    @property
    def link(self) -> Link:
        """The plain desk's link."""
        return self.desk.link

    def is_still(self) -> bool:
        """Whether nothing flies and both sides agree."""
        return not self.link.up and not self.link.down and self.link.fop.vs == self.link.farm.vr

    def is_wanted(self, act: Act) -> bool:
        """Whether an act may stand in this script: it loses nothing, and starts no service where the sides do not agree."""
        fop, is_off = self.link.fop, self.link.fop.state == INITIAL
        if act.word.startswith("initiate"):
            return not is_off or self.is_still() and act.word in ("initiate none", "initiate check")
        unwanted: dict[str, Callable[[], bool]] = {
            "set vs": lambda: is_off and not (act.fields[0] == fop.vs and self.is_still()),
            "tick": lambda: fop.timer != 0,
            "up": lambda: bool(self.link.up) and not self.desk.board.has_room(),
            "loseup": lambda: bool(act.fields[0] < len(self.link.up)),
            "losedown": lambda: bool(act.fields[0] < len(self.link.down)),
        }
        return super().is_wanted(act) and not (act.word in unwanted and unwanted[act.word]())

    def give(self, act: str, by: Optional[str] = None) -> bool:
        """A line of this act, a little later than the one before, and seldom much earlier."""
        self.moment = min(LAST_MOMENT, self.moment + self.dice.randrange(3))
        moment = self.dice.randrange(self.moment + 1) if self.dice.random() < 0.02 else self.moment
        return self.say(f"{moment} {by or self.dice.choice(PERSONS)} {act}")

    def there(self, places: Iterable[Place]) -> list[int]:
        """The last requests that stand at one of these places."""
        count = len(self.book.requests)
        return [n for n in range(max(1, count - SEEN), count + 1) if self.book.place(n) in places]

    def pick(self, *places: Place) -> int:
        """The number of a request that stands there; now and then, and where there is none, of any or of none."""
        there, count = self.there(places), len(self.book.requests)
        if not there or self.dice.random() < 0.05:
            return self.dice.choice([0, count + 1, 65535, 65536, LAST_NUMBER] + [max(1, count - self.dice.randrange(SEEN)) for _ in range(8)])
        return self.dice.choice(there)

    def other(self, *persons: str) -> str:
        """A person other than these; now and then any."""
        if self.dice.random() < 0.12:
            return self.dice.choice(PERSONS)
        return self.dice.choice([it for it in PERSONS if it not in persons])

    def name(self, known: Iterable[str]) -> str:
        """One of these names, or a new one, or one that is none."""
        return self.dice.choice(list(known)[-8:] + [f"n{self.dice.randrange(10**6)}", "x", "x" * 16, "x" * 17 if self.dice.random() < 0.1 else "y"])

    def ask_of_all(self) -> None:
        """At the end some approve each request, and each is released and shown; all approve each stack, and each execution is shown."""
        count = len(self.book.requests)
        for number in range(count + 2):
            for act in (f"approve {number}", f"release {number}", f"request {number}"):
                self.give(act)
        for name in self.book.stacks:
            for by in PERSONS:
                self.give(f"approvestack {name}", by)
        for act in [f"log {it}" for it in range(len(self.book.executions) + 2)] + ["schedule", "link", f"report 0 {LAST_MOMENT}"]:
            self.give(act)
        self.ask_of_desk()

    def ask_of_desk(self) -> None:
        """What waits and what is urgent, who stands at each place, each procedure, and the moves page by page."""
        for act in ["waiting", "urgent 1", f"urgent {MOST_SHOWN + 1}", *(f"standing {it} 0" for it in PLACE_WORDS), *(f"steps {it}" for it in self.book.procedures)]:
            self.give(act)
        for after in range(0, len(self.book.history) + 1, MOST_SHOWN):
            self.give(f"moves {after}")

    # ---- requests

    def outcome(self) -> str:
        """How a plain request turns out."""
        steps, code = self.dice.choice([1, 2, 9]), self.dice.choice([16, 40, 255])
        return self.dice.choice(["ok"] * 8 + [f"ok/{steps}", f"refuse/{code}", f"nostart/{code}", f"halt/{steps}/{code}", f"fail/{code}"])

    def form(self, named: Callable[[], int], instant: Callable[[int], str]) -> Command:
        """What is entered of a request; `named` gives a target, and `instant` spells the time of an insert."""
        dice, kind = self.dice, self.dice.choice([0] * 12 + [1, 2, 3, 4, 4, 4, 5, 7, 15, 17])
        ack = "".join(letter if dice.random() < 0.6 else "-" for letter in "aspc")
        critical = "yes" if dice.random() < 0.2 else "no"
        if kind == 0:
            service = dice.choice([1, 3, 8, 10, 12, 255])
            return Command([str(service), str(dice.randrange(1, 256)), "", ""], ack, critical, self.outcome())
        target, time = self.insert(named, instant) if kind == 4 else ("", "")
        target = str(named()) if kind in (5, 7) else target
        time = str(dice.choice([-LAST_MOMENT, -60, -1, 0, 1, 60, 3600, LAST_MOMENT])) if kind in (7, 15) else time
        return Command(["11", str(kind), target, time], ack[:3] + "c", critical, "ok")

    def insert(self, named: Callable[[], int], instant: Callable[[int], str]) -> tuple[str, str]:
        """What an insert names, and its times: 1 to 8 of each; now and then one twice, or lists that are none."""
        targets = [str(named()) for _ in range(some_count(self.dice))]
        if self.dice.random() < 0.9:
            targets = list(dict.fromkeys(targets))
        times = [instant(self.desk.board.now + self.dice.choice([0, 59, 60, 60, 61, 61, 120, 900])) for _ in targets]
        if self.dice.random() < 0.08:
            targets, times = (no_list(self.dice, it) if self.dice.random() < 0.7 else it for it in (targets, times))
        return joined(targets), joined(times)

    def nameable(self) -> int:
        """A request that a command names: mostly one that it may name."""
        places = (Place.ENTERED, Place.APPROVED, Place.SCHEDULED, Place.RIDING)
        forms = {n: self.book.requests[n - 1].form for n in self.there(places)}
        may = [n for n, form in forms.items() if form.is_plain() and form.asks("a")]
        return self.dice.choice(may) if may and self.dice.random() < 0.85 else self.pick(*places)

    def enter(self) -> None:
        """A request is entered."""
        it = self.form(self.nameable, str)
        words = " ".join(word or "-" for word in it.words)
        self.give(f"enter {self.dice.choice([0, 5, 5, 6, 2047])} {it.ack} {it.critical} {words} {it.outcome}")

    def approve(self) -> None:
        """A request is approved."""
        number = self.pick(Place.ENTERED)
        if not self.book.is_entered(number) or not self.there((Place.ENTERED,)) and self.dice.random() < 0.8:
            if self.dice.random() < 0.7:
                self.enter()
            else:
                self.give(f"approve {number}")
            return
        it = self.book.requests[number - 1]
        self.give(f"approve {number}", self.other(it.author, *self.book.approvers[number]))

    def approve_stack(self) -> None:
        """A stack is approved."""
        name = self.name(self.book.stacks)
        it = self.book.stacks.get(name)
        self.give(f"approvestack {name}", self.other(it.author, *it.approvers) if it else None)

    def leave(self) -> None:
        """A request is withdrawn or closed."""
        if self.dice.random() < 0.3:
            self.give(f"withdraw {self.pick(Place.ENTERED, Place.APPROVED)}")
        else:
            self.give(f"close {self.pick(*CLOSED_FROM)}")

    # ---- loads

    def load(self, kind: str, known: Iterable[str], header: str, rows: Records) -> None:
        """A text is loaded, which now and then has a fault."""
        records = [header.split(",")] + rows
        if self.dice.random() < 0.35:
            records = damaged(self.dice, records)
        data = some_bytes(self.dice, [row_text(it, self.dice) for it in records])
        if self.dice.random() < 0.05:
            at = self.dice.randrange(len(data) + 1)
            data = data[:at] + self.dice.choice([b"\xff", b",", b'"', b"\n", b" ", MARK]) + data[at + self.dice.randrange(2):]
        if self.dice.random() < 0.03:
            data += b"\n" * (self.dice.choice([65536, 65537]) - len(data))
        self.give(f"{kind} {self.name(known)} {self.file(data)}")

    def stack(self) -> None:
        """A stack is loaded, mostly a short one; now and then its last row is an insert of what it may name of the others."""
        rows: Records = []
        may: list[int] = []
        for line in range(1, self.dice.choice([1, 2, 3, 4, 5, 8, 9]) + 1):
            it = self.form(lambda: self.earlier_line(line, may), lambda time: some_instant(self.dice, time))
            ack = "a" + it.ack[1:] if self.dice.random() < 0.7 else it.ack
            may += [line] if it.words[0] != "11" and ack[0] == "a" else []
            after = str(self.dice.randrange(1, line)) if line > 1 and self.dice.random() < 0.4 else ""
            rows.append([str(line), str(self.dice.choice([5, 6, 7])), *it.words, ack, it.critical, after, it.outcome])
        if len(may) > 1 and self.dice.random() < 0.8:
            named = self.insert(lambda: self.dice.choice(may), lambda time: some_instant(self.dice, time))
            rows.append([str(len(rows) + 1), "8", "11", "4", *named, "---c", "no", "", "ok"])
        self.load("stack", self.book.stacks, STACK_HEADER, rows)

    def earlier_line(self, line: int, may: list[int]) -> int:
        """A line before this one that a command names: mostly one of these, which it may name."""
        return self.dice.choice(may) if may and self.dice.random() < 0.85 else self.dice.randrange(1, max(2, line))

    def procedure(self) -> None:
        """A procedure is loaded."""
        rows = []
        for step in range(1, self.dice.choice([1, 2, 3, 5]) + 1):
            text = self.dice.choice(["check it", "~" * 80, " ", "it's done", "on, slowly", 'say "go"', "<b>1 & 2</b>", "&amp;"])
            request = str(self.pick(Place.ENTERED, Place.APPROVED)) if self.dice.random() < 0.6 else ""
            rows.append([str(step), text, self.dice.choice(["yes", "no", "no"]), request])
        self.load("procedure", self.book.procedures, PROCEDURE_HEADER, rows)

    def work_step(self) -> None:
        """A step is recorded, or an execution begun."""
        dice, executions = self.dice, self.book.executions
        going = [it.number for it in executions[-30:] if self.book.next_step(it)]
        if not going or dice.random() < 0.15:
            self.give(f"begin {self.name(self.book.procedures)}")
            return
        number = dice.choice(going + [len(executions) + 1, 0] if dice.random() < 0.1 else going)
        step = self.book.next_step(executions[number - 1]) if number in going else 1
        step = step if dice.random() < 0.9 else dice.choice([0, 1, step + 1, 100, LAST_NUMBER])
        by = dice.choice(PERSONS)
        second = dice.choice(["-", by, self.other(by), self.other(by), self.other(by)])
        self.give(f"step {number} {step} {dice.choice(['done'] * 6 + ['skipped'] * 4 + ['failed'])} {second}", by)

    # ---- the link

    def release(self) -> None:
        """A request is released, mostly one that is approved."""
        there = self.there((Place.APPROVED,))
        inserts = [n for n in there if self.book.activities(n)]
        number = (self.dice.choice(inserts) if inserts and self.dice.random() < 0.4
                  else self.pick(Place.APPROVED, Place.APPROVED, Place.ENTERED))
        self.give(f"release {number}")

    def command(self) -> Optional[str]:
        """The words of a command of the schedule that names what it may; none where nothing may be named."""
        dice, now = self.dice, self.desk.board.now
        forms = {n: self.book.requests[n - 1].form for n in self.there((Place.APPROVED,))}
        named = [n for n, form in forms.items() if form.is_plain() and form.asks("a")]
        shown = self.desk.mirror.activities()
        if shown and dice.random() < 0.4:
            time, _, request = dice.choice(shown)
            return dice.choice([f"5 {request} -", f"7 {request} {now + dice.choice([59, 60, 900]) - time}"])
        if dice.random() < 0.4:
            return dice.choice(["1 - -", "1 - -", "3 - -", "2 - -", "17 - -", "15 - 60", "15 - -1"])
        listed = dice.sample(named, min(len(named), some_count(dice)))
        first = dice.choice([30, 59, 60, 60, 61, 90, 400])
        times = [str(now + (first if dice.random() < 0.8 else dice.choice([59, 60, 400]))) for _ in listed]
        return f"4 {joined(map(str, listed))} {joined(times)}" if named else None

    def lay_in(self) -> None:
        """A command of the schedule is entered and approved, and mostly released and carried out."""
        words, by = self.command(), self.dice.choice(PERSONS)
        if not words:
            self.enter()
        elif self.give(f"enter 5 {self.dice.choice('a-')}{self.dice.choice('s-')}-c no 11 {words} ok", by):
            number = len(self.book.requests)
            self.give(f"approve {number}", self.other(by))
            if self.dice.random() < 0.7:
                self.give(f"release {number}")
                for _ in range(6):
                    self.fly()

    def start(self) -> None:
        """The service begins, or what flies comes to its end first."""
        if self.link.fop.state != INITIAL or self.is_still():
            self.give(f"initiate {self.dice.choice(['none'] * 4 + ['check', 'unlock', 'setvr 0'])}")
        for _ in range(8):
            self.fly()

    def fly(self) -> None:
        """What flies comes on."""
        link, board = self.link, self.desk.board
        if link.fop.state == INITIAL and self.is_still() and self.dice.random() < 0.3:
            self.give("initiate none")
            return
        acts = (["up"] * 3 if link.up and board.has_room() else []) + ["work"] * len(board.buffer) + ["down"] * min(MOST_BUFFERED, len(link.down))
        self.give(self.dice.choice(acts * 2 + ["clcw", "clcw", "up", "work", "down", "tick", "loseup 0", "losedown 0"]))

    def turn_clock(self) -> None:
        """The spacecraft's time goes on, or is told to go back."""
        now = self.desk.board.now
        self.give(f"clock {min(LAST_MOMENT, max(0, now + self.dice.choice([-1, 0, 10, 60, 500])))}")

    def direct(self) -> None:
        """The FOP is directed."""
        self.give(self.dice.choice(["set k 1", "set k 2", "set k 10", "set k 11", "set t1 1", "set t1 65535", "set limit 1", "set limit 255",
                                    "set vs 0", f"set vs {self.link.fop.vs}", "terminate"]))

    def cut(self) -> None:
        """The service ends while something is out and something waits."""
        self.give("set k 1")
        for _ in range(2):
            self.release()
        self.give("terminate")
        self.give(f"set k {self.dice.choice([3, 5, 10])}")

    # ---- questions, and lines that are none

    def ask(self) -> None:
        """A question."""
        number, last = self.pick(Place.COMPLETED, Place.APPROVED, Place.SENT), len(self.book.executions)
        moments, rows = [0, self.moment, LAST_MOMENT], len(self.book.history)
        after = self.dice.choice([0, 0, 0, rows, max(0, rows - 20), LAST_NUMBER])
        shift = f"report {self.dice.choice([self.moment, max(0, self.moment - 9), 0])} {self.dice.choice(moments)}"
        self.give(self.dice.choice(["places", f"history {number} {after}", f"history {number} {after}", f"request {number}", f"request {number}",
                                    "link", "schedule", f"log {self.dice.randrange(max(0, last - 6), last + 2)}", *self.questions()]
                                   + [shift] * (self.dice.random() < 0.05)))

    def questions(self) -> list[str]:
        """Questions about the whole desk, now and then of a place or a name that is none."""
        rows, count = len(self.book.history), len(self.book.requests)
        place = self.dice.choice(PLACE_WORDS) if self.dice.random() < 0.95 else self.dice.choice(["Nowhere", "entered", "ENTERED", "Enter", "-", "0"])
        after = self.dice.choice([0, 0, rows - 1, rows, rows + 1, rows - MOST_SHOWN, rows - MOST_SHOWN - 1, self.dice.randrange(rows + 1), LAST_NUMBER])
        behind = self.dice.choice([0, 0, count - 1, count, count - MOST_SHOWN, self.dice.randrange(count + 1), LAST_NUMBER])
        begin = self.dice.choice([1, 1, 1, 0, 2, MOST_SHOWN, MOST_SHOWN + 1, LAST_NUMBER])
        return ["waiting", "waiting", f"urgent {begin}", f"urgent {begin}", f"moves {max(0, after)}", f"standing {place} {max(0, behind)}", f"steps {self.name(self.book.procedures)}"]

    def spell(self) -> None:
        """A line that was written before, with a fault in its spelling."""
        dice = self.dice
        line = dice.choice(self.lines[-MOST_ROWS:]) if self.lines else "0 ann places"
        at, kind = dice.randrange(len(line) + 1), dice.randrange(6)
        sign = dice.choice(list(" -0129/azAZ;\t\r\0~") + ["\xff", "\xc3\xa9", "  "])
        words = line.split(" ")
        if kind == 5:
            word = dice.randrange(len(words))
            words[word] = dice.choice(["", "0", "00", "-1", "-", "desk", "4294967295", "4294967296", "65536", "4102444800", words[word] * 2,
                                       words[word].swapcase()])
            self.say(" ".join(words))
        elif kind == 4:
            self.say(line[:at])
        else:
            self.say(line[:at] + sign * (kind != 2) + line[at + (kind > 1):])


class LosingWriter(Writer):
    """Writes one over a link that loses: frames and reports are lost, timers end, and services start where they should not, and again where they
    should."""

    def is_wanted(self, act: Act) -> bool:
        """Whether an act may stand in this script: each that finds its file."""
        return Written.is_wanted(self, act)

    def start(self) -> None:
        """The service begins, mostly once nothing flies and both sides agree."""
        fop, farm = self.link.fop, self.link.farm
        if fop.state != INITIAL or self.dice.random() < 0.1:
            super().start()
            return
        while self.link.up:
            self.give(self.dice.choice(["up", "loseup 0"]))
        while self.link.down:
            self.give(self.dice.choice(["down", "down", "down", "losedown 0"]))
        if any(farm.flags.values()):
            for act in ("initiate unlock", "up", "clcw", "down"):
                self.give(act)
        else:
            self.give(f"set vs {farm.vr}")
            self.give("initiate none")

    def fly(self) -> None:
        """What flies comes on, and some of it is lost."""
        if self.link.fop.state == INITIAL and self.dice.random() < 0.3:
            self.start()
        else:
            super().fly()


def is_losing(seed: int) -> bool:
    """Whether the script of a seed is over a link that loses."""
    return seed % LOSING_EACH == 3


def book_script(seed: int, turns: int = LINES) -> Written:
    """The random script of a seed, with so many lines or a few more: each fourth is over a link that loses."""
    dice, kind = Random(seed), LosingWriter if is_losing(seed) else Writer
    script = kind(f"seed {seed}", dice, dice.choice([0, 0, 10**9, LAST_MOMENT - turns]))
    script.write(turns)
    script.ask_of_all()
    return script
