"""Random lines of a day at a desk that is kept in a file: they go on from what its tables hold, over a link that loses, and look at the plain desk
that was opened over them.
"""
from random import Random
from typing import Callable

from generate.scripts import LosingWriter
from generate.texts import joined
from model.desk import Desk
from model.facts import Place
from model.rows import Tables

LINES = 90


class Day(LosingWriter):
    """Writes the lines of a day, none of which asks for a report."""

    def __init__(self, dice: Random, tables: Tables, moment: int, day: int) -> None:
        """Begins with the plain desk that is opened over these tables at this moment."""
        super().__init__(f"day {day}", dice, moment, Desk.opened(tables, moment, files={}))
        self.day = day

    def often(self) -> list[tuple[Callable[[], object], int]]:
        """Of each turn how often it comes: no line is spelled wrongly here, and the clock goes on often."""
        return [(turn, times) for turn, times in super().often() if turn not in (self.spell, self.ask)] + [
            (self.ask_little, 5), (self.turn_clock, 3), (self.lay_in, 6)]

    def ask_little(self) -> None:
        """A question, or a line that is no line."""
        number = self.pick(Place.ENTERED)
        self.give(self.dice.choice(["places", f"history {number} 0", f"request {number}", "link", "schedule", "log 1", "release",
                                    f"approve {number} ", *self.questions()]))

    def close_day(self) -> None:
        """The day often ends with requests out, an insert among them, and one that waits."""
        turns = self.dice.choice([[self.release, self.lay_in, self.release], [self.release, self.lay_in_several], [self.lay_in_several, self.release]])
        for turn in [self.start, *turns] if self.dice.random() < 0.8 else []:
            self.give("set k 1")
            turn()

    def lay_in_several(self) -> None:
        """An insert of some new requests is entered, approved and released; now and then one of them is closed then."""
        listed = []
        for _ in range(self.dice.choice([2, 3, 3, 8])):
            if self.give("enter 6 a--c no 8 1 - - ok", "ann"):
                listed.append(len(self.book.requests))
                self.give(f"approve {listed[-1]}", "bob")
        times = [str(self.desk.board.now + 60 + at) for at in range(len(listed))]
        self.give(f"enter 5 ---c no 11 4 {joined(map(str, listed[::-1]))} {joined(times)} ok", "ann")
        number = len(self.book.requests)
        self.give(f"approve {number}", "bob")
        self.give(f"release {number}")
        if self.dice.random() < 0.3:
            self.give(f"close {listed[0]}")

    def opening(self) -> list[str]:
        """What the opening printed before the first line."""
        return [it.line() for it in self.desk.opening]

    def answers(self) -> list[str]:
        """All that a run of the day prints."""
        return self.opening() + [it for _, answer in self.told for it in answer] + [self.desk.places()]


def day_script(dice: Random, tables: Tables, moment: int, day: int, lines: int = LINES) -> Day:
    """The lines of a day, so many or a few more, at a desk with these tables, opened at this moment."""
    script = Day(dice, tables, moment, day)
    script.write(lines)
    script.close_day()
    return script
