"""The rehearsal spacecraft: the reports of a request, the commands of its schedule with their tests, and what falls due. It is written from the
requirements, and asks the program nothing.
"""
from collections import Counter
from typing import Any, Callable, NamedTuple, Optional, Union

from model.facts import LAST_MOMENT, MARGIN, MOST_ACTIVITIES, MOST_BUFFERED, Code, Subtype, Verification
from model.request import Form, Identity, Request
from model.schedule import Schedule


class Verify(NamedTuple):
    """A report of request verification."""
    subtype: int
    request: int
    step: int = 0
    code: int = 0


class Summary(NamedTuple):
    """What the schedule is: whether it is enabled, and the time of each of its activities, by the number of its request."""
    is_enabled: bool
    times: dict[int, int]


Report = Union[Verify, Summary]

# What has to be met of commands on board, each with the code of its failure, of inserts of several activities, and of activities that fall due.
ON_BOARD: list[tuple[Any, ...]] = (
    [(subtype, 0) for subtype in Subtype]
    + [(Subtype.INSERT, Code.TOO_EARLY), (Subtype.INSERT, Code.THERE), (Subtype.INSERT, Code.FULL), (Subtype.DELETE, Code.NOT_THERE),
       (Subtype.SHIFT, Code.NOT_THERE), (Subtype.SHIFT, Code.TOO_EARLY), (Subtype.SHIFT_ALL, Code.TOO_EARLY), ("due", True), ("due", False),
       ("several", 0), ("several", Code.TOO_EARLY), ("several", Code.THERE), ("several", Code.FULL)])


# ---- the reports of a request

def accept_reports(it: Request) -> list[Report]:
    """The report of acceptance, if there is one."""
    kind, *numbers = it.form.outcome.split("/")
    if kind == "refuse":
        return [Verify(Verification.REFUSED, it.number, 0, int(numbers[0]))]
    return [Verify(Verification.ACCEPTED, it.number)] if it.form.asks("a") else []


def later_reports(it: Request) -> list[Report]:
    """The reports of a plain request that was accepted, as it is carried out."""
    kind, *numbers = it.form.outcome.split("/")
    if kind == "refuse":
        return []
    code = int(numbers[-1]) if kind != "ok" else 0
    if kind == "nostart":
        return [Verify(Verification.NOT_STARTED, it.number, 0, code)]
    done = {"ok": int(numbers[0]) if numbers else 0, "halt": int(numbers[0]) - 1 if numbers else 0}.get(kind, 0)
    reports: list[Report] = [Verify(Verification.STARTED, it.number)] if it.form.asks("s") else []
    reports += [Verify(Verification.STEPPED, it.number, step) for step in range(1, done + 1)] if it.form.asks("p") else []
    if kind == "halt":
        reports.append(Verify(Verification.HALTED, it.number, done + 1, code))
    if kind in ("halt", "fail"):
        return reports + [Verify(Verification.FAILED, it.number, 0, code)]
    return reports + ([Verify(Verification.COMPLETED, it.number)] if it.form.asks("c") else [])


# ---- the spacecraft

class Board:
    """The spacecraft; `requests` tells each request by its number, `visits` counts what became of commands and activities."""

    def __init__(self, requests: list[Request]) -> None:
        """At time 0, with nothing on board."""
        self.requests, self.now, self.schedule = requests, 0, Schedule()
        self.buffer: list[int] = []
        self.visits: Counter[tuple[Any, ...]] = Counter()

    def has_room(self) -> bool:
        """Whether one more request may come."""
        return len(self.buffer) < MOST_BUFFERED

    def accept(self, number: int) -> list[Report]:
        """A request comes on board: its reports so far."""
        it = self.requests[number - 1]
        if not it.form.outcome.startswith("refuse"):
            self.buffer.append(number)
        return accept_reports(it)

    def is_bad(self, time: int) -> bool:
        """Whether an activity may not have this time."""
        return time < self.now + MARGIN or time > LAST_MOMENT

    def identity(self, number: int) -> Identity:
        """The identity of a request."""
        return self.requests[number - 1].identity

    def failure_of(self, form: Form) -> int:
        """The code of the first test that a command of the schedule fails; 0 where it passes all."""
        there, names = self.schedule.times, [*map(self.identity, self.schedule.times), *map(self.identity, form.activities())]
        tests: dict[int, list[tuple[Callable[[], bool], Code]]] = {
            Subtype.INSERT: [(lambda: any(map(self.is_bad, form.times)), Code.TOO_EARLY),
                             (lambda: len(set(names)) < len(names), Code.THERE),
                             (lambda: len(names) > MOST_ACTIVITIES, Code.FULL)],
            Subtype.DELETE: [(lambda: form.target not in there, Code.NOT_THERE)],
            Subtype.SHIFT: [(lambda: form.target not in there, Code.NOT_THERE),
                            (lambda: self.is_bad(there[form.target] + form.offset), Code.TOO_EARLY)],
            Subtype.SHIFT_ALL: [(lambda: any(self.is_bad(it + form.offset) for it in there.values()), Code.TOO_EARLY)],
        }
        return next((int(code) for holds, code in tests.get(form.subtype, []) if holds()), 0)

    def command(self, it: Request) -> list[Report]:
        """A command of the schedule is carried out: its reports."""
        code = self.failure_of(it.form)
        self.visits[it.form.subtype, code] += 1
        self.visits["several", code] += len(it.form.activities()) > 1
        if code:
            return [Verify(Verification.NOT_STARTED, it.number, 0, code)]
        reports: list[Report] = [Verify(Verification.STARTED, it.number)] if it.form.asks("s") else []
        self.schedule.changes(it.form)
        if it.form.command() is Subtype.SUMMARIZE:
            reports.append(Summary(self.schedule.is_enabled, dict(self.schedule.times)))
        return reports + [Verify(Verification.COMPLETED, it.number)]

    def work(self) -> tuple[Optional[Request], list[Report]]:
        """The oldest request of the buffer is carried out: which, if there is one, and its reports."""
        if not self.buffer:
            return None, []
        it = self.requests[self.buffer.pop(0) - 1]
        return it, later_reports(it) if it.form.is_plain() else self.command(it)

    def clock(self, time: int) -> list[Report]:
        """The time goes on: the reports of what falls due, by time and identity."""
        self.now, times, reports = time, self.schedule.times, []
        due = sorted((at, self.identity(number), number) for number, at in times.items() if at <= time)
        for _, _, number in due:
            del times[number]
            it = self.requests[number - 1]
            self.visits["due", self.schedule.is_enabled] += 1
            is_done = self.schedule.is_enabled
            reports += accept_reports(it) + later_reports(it) if is_done else [Verify(Verification.NOT_STARTED, number, 0, Code.DISABLED)]
        return reports
