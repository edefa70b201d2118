"""The log's clock. Each machine has its own, which is never behind a time that it has read in the log, and never goes back: so one that is an hour fast takes the
others with it, once, and one that is slow is in step as soon as it reads."""
import threading
import time
from typing import Callable


def now() -> float:
    """Seconds that went by, also while the machine slept."""
    return time.clock_gettime(time.CLOCK_BOOTTIME)


class Clock:
    """Milliseconds of the log."""

    def __init__(self, told: Callable[[], float] = time.time, passed: Callable[[], float] = now) -> None:
        """It begins with what this machine's clock tells; the other one tells what passed."""
        self.told, self.passed, self.lock = told, passed, threading.Lock()
        self.newest, self.at = 0, passed()

    def now(self) -> int:
        """The time."""
        with self.lock:
            return self.forward(int(self.told() * 1000))

    def saw(self, time_of_log: int) -> None:
        """A time stands in the log: it is no less by now."""
        with self.lock:
            self.forward(time_of_log)

    def forward(self, least: int) -> int:
        """The time, which is this or later."""
        passed = self.passed()
        self.newest, self.at = max(least, self.newest + int((passed - self.at) * 1000)), passed
        return self.newest
