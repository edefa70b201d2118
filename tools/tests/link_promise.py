"""What a desk promises, by what it prints alone: each request that was entered stands at one place, and the counts are those of the
moves; while the premise is kept each request that was confirmed was accepted exactly once, in the order of transmission. And of the
windows: K is at most half of W; while the premise is kept the FARM is never in Lockout, and no alert comes but one that may come: T1 and
TERM in each service, LIMIT in one that has started, NN(R) and SYNCH in S4 where the start was not level.
Nothing is known here of how a desk comes to its answers.
"""
from collections import Counter
from typing import Optional

from model.facts import PLACE_WORDS

# The alerts that may come while the premise is kept: in a service that has started, and before that in S4 and S5.
ALWAYS = {"T1", "TERM"}
STARTED, UNLEVEL = ALWAYS | {"LIMIT"}, ALWAYS | {"NN(R)", "SYNCH"}


class Broken(Exception):
    """What of the promise does not hold."""


class Judge:
    """Reads printed lines; `seen` counts what was looked at."""

    def __init__(self) -> None:
        """Nothing was printed yet."""
        self.places: list[str] = []
        self.counts: Counter[str] = Counter()
        self.seen: Counter[str] = Counter()
        self.rows, self.skip, self.last_accepted, self.last_confirmed = 0, 0, 0, 0
        self.transmitted: dict[int, int] = {}
        self.accepted: Counter[int] = Counter()
        self.confirmed: Counter[int] = Counter()
        self.is_kept, self.is_started = True, False
        self.fop: dict[str, str] = {}
        self.farm: dict[str, str] = {}
        self.alerts: Counter[tuple[str, str]] = Counter()
        # what may come before a service has started: that is told by the first `link` behind its initiation
        self.may_come: Optional[set[str]] = None

    def reads(self, lines: list[str]) -> Optional[str]:
        """All lines of a run. Answers what does not hold; none where all does."""
        for number, line in enumerate(lines, 1):
            try:
                self.read(line)
            except Broken as why:
                return f"printed line {number}, {line!r}: {why}"
        return None

    def read(self, line: str) -> None:
        """One line: the moves that answer a question tell nothing new."""
        word, _, rest = line.partition(" ")
        if self.skip:
            self.skip -= 1
        elif word == "history":
            self.skip = int(rest.split(": ")[1].split(" ")[0])
        elif word == "moves":
            self.skip = int(rest.split(" ")[0])
        elif word == "move":
            self.moves(*rest.split(" "))
        elif word == "places":
            self.compares(rest)
        elif word == "fop":
            self.fop = named(f"state {rest}")
        elif word == "farm":
            self.farm = named(f"state {rest}")
        elif word == "link":
            self.hears(rest.split(" ")[-1] == "kept")
            self.looks()
        elif word == "started":
            self.is_started = True
        elif word == "alert":
            self.ends(rest)
        elif line.startswith("ok accepted "):
            self.accepts(int(line.rsplit(" ", 1)[1]))

    def need(self, holds: bool, why: str) -> None:
        """What has to hold."""
        if not holds:
            raise Broken(why)

    def promised(self, holds: bool, why: str) -> None:
        """What has to hold while the premise is kept, and may not afterwards."""
        self.need(holds or not self.is_kept, why)
        if not holds:
            self.seen["not so where the premise is broken"] += 1

    def moves(self, seq: str, _moment: str, _by: str, request: str, place: str, to: str, cause: str) -> None:
        """A move: the next row, from where its request stands."""
        self.rows, n = self.rows + 1, int(request)
        self.need(int(seq) == self.rows, "not the next row")
        if place == "-":
            self.need(n == len(self.places) + 1 and cause == "enter", "not the next request")
            self.places.append(to)
        else:
            self.need(n <= len(self.places) and self.places[n - 1] == place, "it does not stand there")
            self.counts[place] -= 1
            self.places[n - 1] = to
        self.counts[to] += 1
        if cause == "transmit":
            self.promised(n not in self.transmitted, "transmitted twice")
            self.transmitted[n] = len(self.transmitted) + 1
        elif cause == "confirm":
            self.confirms(n)

    def accepts(self, n: int) -> None:
        """A request is accepted on board: once, and in the order of transmission."""
        self.accepted[n] += 1
        self.promised(self.accepted[n] == 1, "accepted twice")
        place = self.transmitted.get(n, 0)
        self.promised(place > self.last_accepted, "accepted out of order")
        self.last_accepted = max(self.last_accepted, place)
        self.seen["accepted"] += 1

    def confirms(self, n: int) -> None:
        """A request is confirmed: it was accepted exactly once, and in the order of transmission."""
        self.confirmed[n] += 1
        self.promised(self.confirmed[n] == 1, "confirmed twice")
        self.promised(self.accepted[n] == 1, f"confirmed, and accepted {self.accepted[n]} times")
        place = self.transmitted.get(n, 0)
        self.promised(place > self.last_confirmed, "confirmed out of order")
        self.last_confirmed = max(self.last_confirmed, place)
        self.seen["confirmed while kept"] += self.is_kept

    def compares(self, rest: str) -> None:
        """The counts are those of the moves, and sum to the requests that were entered."""
        total, _, numbers = rest.partition(": ")
        counts = [int(it) for it in numbers.split(" ")]
        self.need(counts == [self.counts[place] for place in PLACE_WORDS], "not the counts of the moves")
        self.need(int(total) == len(self.places) == sum(counts), "not as many as were entered")
        self.seen["places"] += 1

    def hears(self, is_kept: bool) -> None:
        """What `link` says of the premise: once it is broken it stays so."""
        self.need(self.is_kept or not is_kept, "the premise is kept again")
        self.is_kept = is_kept
        self.seen["kept" if is_kept else "broken"] += 1

    # ---- windows that fit

    def looks(self) -> None:
        """What `link` tells of the windows, and of a start."""
        fop, farm = self.fop, self.farm
        self.need(2 * int(fop["k"]) <= int(farm["w"]), "K is more than half of W")
        self.need(farm["state"] != "Lockout" or not self.is_kept, "Lockout while the premise is kept")
        self.seen["Lockout where the premise is broken"] += farm["state"] == "Lockout"
        if fop["state"] in ("S4", "S5") and self.may_come is None:
            is_level = fop["vs"] == farm["vr"] and farm["flags"] == "---"
            self.may_come = ALWAYS if fop["state"] == "S5" or is_level else UNLEVEL

    def ends(self, kind: str) -> None:
        """A service ends by an alert: by one that may come."""
        may_come = STARTED if self.is_started else self.may_come or UNLEVEL
        self.need(kind in may_come or not self.is_kept, "an alert that cannot come here while the premise is kept")
        told = f"{'started' if self.is_started else 'unlevel' if may_come is UNLEVEL else 'beginning'} {'kept' if self.is_kept else 'broken'}"
        self.alerts[told, kind] += 1
        self.is_started, self.may_come = False, None


def named(words: str) -> dict[str, str]:
    """The values of a line that names each of them."""
    names = words.split(" ")
    return dict(zip(names[::2], names[1::2]))
