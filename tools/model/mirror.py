"""The mirror: what the ground makes of the reports that it reads of the spacecraft's schedule. It is written from the requirements, and asks the
program nothing.
"""
from model.board import Report, Summary
from model.facts import Verification
from model.request import Identity, Request
from model.schedule import Schedule


class Mirror(Schedule):
    """What the ground knows of the schedule by the reports that it read; `visits` counts what it read."""

    def __init__(self, requests: list[Request]) -> None:
        """Empty and disabled; `requests` tells each request by its number."""
        super().__init__()
        self.requests = requests

    def reads(self, report: Report) -> None:
        """One report is read: a summary takes the place of all, the first report of an activity takes it out, and a command that is completed is
        carried out here too."""
        if isinstance(report, Summary):
            self.is_enabled, self.times = report.is_enabled, dict(report.times)
            self.visits["summary"] += 1
            return
        if self.times.pop(report.request, None) is not None:
            self.visits["out by a report"] += 1
        form = self.requests[report.request - 1].form
        if report.subtype == Verification.COMPLETED and not form.is_plain():
            self.changes(form)

    def activities(self) -> list[tuple[int, Identity, int]]:
        """Time, identity and request of each activity, in this order."""
        return sorted((time, self.requests[number - 1].identity, number) for number, time in self.times.items())

    def lines(self) -> list[str]:
        """How it is printed."""
        head = f"mirror {'enabled' if self.is_enabled else 'disabled'} {len(self.times)}"
        return [head] + [f"activity {identity} {time}" for time, identity, _ in self.activities()]
