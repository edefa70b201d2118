"""Random posts of a day at a desk that is served, of which a third repeat a call of before: the same again, another body under its number, what is
spoilt, or the same by another person. Between them are questions by a GET.
"""
from random import Random
from typing import Any, Callable, Mapping, NamedTuple, Optional

from generate.days import Day
from generate.http_posts import LONG, rows
from generate.http_words import body_of, get, post
from generate.scripts import PERSONS
from model.calls import Calls
from model.facts import LAST_MOMENT, LAST_NUMBER, MOST_ROWS, MOST_SHOWN, Place
from model.http import Acts, Loads, answer_to
from model.lines import LOAD
from model.rows import Tables

REPEATS = 1 / 3  # of all posts
RECENT = 40
# Values that a post is spoilt with, of each key: the first of each are looked at behind the kept replies, the others before them.
SPOILT: dict[str, list[Any]] = {
    "act": [LONG, "", "x", "places", "link", "waiting", "urgent 1", "moves 0", "withdraw 4294967296", 5, None], "csv": ["", "x", "\n" * 65537, 5, None], "name": ["No", "", "a" * 17, 5, None],
    "moment": [-1, LAST_MOMENT + 1, 0.5, 1e3, "100", None], "number": [0, LAST_NUMBER + 1, 1.0, -1, "7", None], "by": ["desk", "No", "", 5, None]}


class Call(NamedTuple):
    """A post to a path, with these keys."""
    path: str
    keys: Mapping[str, Any]

    def changed(self, **keys: Any) -> "Call":
        """The same with other values."""
        return self._replace(keys={**self.keys, **keys})

    def raw(self) -> bytes:
        """The bytes that are sent."""
        return post(self.path, body_of(dict(self.keys)))


class Exchange(NamedTuple):
    """What is sent, of a post the call, the response that is due, and whether that is a kept reply."""
    call: Optional[Call]
    raw: bytes
    response: bytes
    is_kept: bool


class PostedDay(Day):
    """Writes the posts of a day, and what the plain desk answers to each; `sent` has those of the days before."""

    def __init__(self, dice: Random, tables: Tables, moment: int, day: int, sent: list[Call]) -> None:
        """Begins with the plain desk that is opened over these tables at this moment."""
        super().__init__(dice, tables, moment, day)
        self.calls, self.sent = Calls(self.desk), sent
        self.exchanges: list[Exchange] = []

    def say(self, line: str) -> bool:
        """A line as a post, and repeats behind it. Answers whether it was one: a text that is not UTF-8 is in no JSON."""
        moment, by, act = line.split(" ", 2)
        keys: dict[str, Any] = {"by": by, "moment": int(moment), "number": self.number()}
        if not LOAD.match(act):
            self.send(Call("/acts", {"act": act, **keys}))
        else:
            kind, name, path = act.split(" ")
            try:
                self.send(Call(f"/{kind}s", {"csv": self.files[path].decode("utf-8"), "name": name, **keys}))
            except UnicodeDecodeError:
                return False
        self.lines.append(line)
        while self.dice.random() < REPEATS:
            self.repeat()
        return True

    def often(self) -> list[tuple[Callable[[], object], int]]:
        """Of each turn how often it comes: now and then a stack is loaded whose reply is longer than a response."""
        return [*super().often(), (self.load_many, 1), (self.look, 6)]

    def look(self) -> None:
        """A question by a GET, now and then of what is none."""
        number, rows = self.pick(Place.ENTERED, Place.APPROVED), len(self.book.history)
        after = self.dice.choice([0, rows, max(0, rows - MOST_SHOWN), max(0, rows - MOST_SHOWN - 1), LAST_NUMBER, LAST_NUMBER + 1, "x"])
        self.answer(None, get(self.dice.choice(["/places", "/waiting", "/waiting", f"/urgent/{self.dice.choice([0, 1, 1, 2, MOST_SHOWN + 1])}", "/board", "/opening", f"/moves/{after}", f"/moves/{after}", f"/requests/{number}",
                                                f"/history/{number}/0", f"/procedures/{self.name(self.book.procedures)}"])))

    def load_many(self) -> None:
        """A stack of the most rows, which may be approved."""
        name = f"m{self.dice.randrange(10**6)}"
        self.give(f"stack {name} {self.file(rows(MOST_ROWS, apid=9).encode())}")
        self.give(f"approvestack {name}")

    def number(self) -> int:
        """A number, mostly one that nobody has used."""
        return self.dice.choice([1, 2, LAST_NUMBER]) if self.dice.random() < 0.02 else self.dice.randrange(1, LAST_NUMBER + 1)

    def send(self, call: Call) -> None:
        """One post more, which may be repeated later."""
        self.answer(call, call.raw())
        self.sent.append(call)

    def answer(self, call: Optional[Call], raw: bytes) -> None:
        """One exchange more."""
        asked = answer_to(raw)
        assert asked is not None, "a whole request asks something"
        is_kept = isinstance(asked, (Acts, Loads)) and self.calls.kept_for(asked) is not None
        self.exchanges.append(Exchange(call, raw, self.calls.response(asked), is_kept))

    def repeat(self) -> None:
        """A call of before is repeated in some way."""
        dice = self.dice
        call = dice.choice(self.sent[-RECENT:] if dice.random() < 0.6 else self.sent)
        ways: list[tuple[Callable[[Call], Call], int]] = [(lambda it: it, 11), (self.other_body, 4), (self.other_person, 3), (self.spoilt, 2)]
        self.send(dice.choices([way for way, _ in ways], [times for _, times in ways])[0](call))

    def other_body(self, call: Call) -> Call:
        """Another call of before under the number of this one, by its person."""
        return self.dice.choice(self.sent).changed(by=call.keys["by"], number=call.keys["number"])

    def other_person(self, call: Call) -> Call:
        """The same call by anybody."""
        return call.changed(by=self.dice.choice(PERSONS))

    def spoilt(self, call: Call) -> Call:
        """The call with another value at one of its keys, at which it may lack then."""
        key = self.dice.choice(list(call.keys))
        return call.changed(**{key: self.dice.choice(SPOILT[key])})


def posted_day(dice: Random, tables: Tables, moment: int, day: int, sent: list[Call], count: int) -> PostedDay:
    """The posts of a day, so many or a few more; the first is the last that was sent before, again."""
    made = PostedDay(dice, tables, moment, day, sent)
    if sent:
        made.send(sent[-1])
    while len(made.exchanges) < count:
        made.write(len(made.lines) + 1)
    return made
