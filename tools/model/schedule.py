"""A schedule: what a command makes of it, without the tests that the spacecraft makes before. It is written from the requirements, and asks the
program nothing.
"""
from collections import Counter
from typing import Any

from model.facts import LAST_MOMENT, TAKES_OFFSET, Subtype
from model.request import Form

# What has to be met of what the mirror reads: each command, and what is told apart of it. An insert of what stands there is none of it, since an
# activity rides once.
MIRRORED: list[Any] = [
    (Subtype.INSERT, ""), (Subtype.INSERT, "several"), (Subtype.DELETE, ""), (Subtype.DELETE, "there"), (Subtype.SHIFT, ""), (Subtype.SHIFT, "before 0"),
    (Subtype.SHIFT, "past the last"), (Subtype.SHIFT_ALL, ""), (Subtype.SHIFT_ALL, "before 0"), (Subtype.SHIFT_ALL, "past the last"),
    (Subtype.ENABLE, ""), (Subtype.DISABLE, ""), (Subtype.RESET, ""), "summary", "out by a report"]


class Schedule:
    """A status, and a set of activities: the time of each, by the number of its request."""

    def __init__(self) -> None:
        """Empty and disabled."""
        self.is_enabled = False
        self.times: dict[int, int] = {}
        self.visits: Counter[Any] = Counter()

    def changes(self, form: Form) -> None:
        """What a command of the schedule makes of it, without tests: a time past the limits becomes the nearest limit."""
        self.visits[self.case_of(form)] += 1
        command = form.command()
        if command in (Subtype.ENABLE, Subtype.DISABLE):
            self.is_enabled = command is Subtype.ENABLE
        elif command is Subtype.RESET:
            self.is_enabled, self.times = False, {}
        elif command is Subtype.INSERT:
            self.times.update(zip(form.targets, form.times))
        elif command is Subtype.DELETE:
            self.times.pop(form.target, None)
        elif command in TAKES_OFFSET:
            for request in self.shifted(form):
                self.times[request] = min(max(self.times[request] + form.offset, 0), LAST_MOMENT)

    def shifted(self, form: Form) -> list[int]:
        """The activities that a command shifts."""
        return [request for request in self.times if form.command() is Subtype.SHIFT_ALL or request in form.targets]

    def case_of(self, form: Form) -> tuple[int, str]:
        """What is told apart of a command: whether what it names stands, or is more than one, and whether a time would pass its limits."""
        command, is_there = form.command(), any(it in self.times for it in form.targets)
        if command is Subtype.SHIFT_ALL or command is Subtype.SHIFT and is_there:
            times = [self.times[request] + form.offset for request in self.shifted(form)]
            is_past = max(times, default=0) > LAST_MOMENT
            return form.subtype, "before 0" if min(times, default=0) < 0 else "past the last" if is_past else ""
        return form.subtype, "there" if is_there else "several" if len(form.targets) > 1 else ""
