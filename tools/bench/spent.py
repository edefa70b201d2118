"""What a run of a program takes, of the processors and of memory.

The memory is told by `/usr/bin/time`, which has little of its own: what the system tells of a child has at least what its parent had when it was made.
"""
import os
import time
from typing import NamedTuple, Sequence

from tests.runs import bytes_of


class Took(NamedTuple):
    """What a run took: of processors and by the clock, in seconds, and of memory, in megabytes."""
    processor: float
    clock: float
    memory: float


class Spent(NamedTuple):
    """How a run ended, what it printed and said, and what it took."""
    status: int
    out: str
    err: str
    took: Took


def spent(folder: str, words: Sequence[str]) -> Spent:
    """Runs the program that these words name, which prints into files of the folder."""
    out, err, memory = (f"{folder}/spent.{it}" for it in ("out", "err", "memory"))
    timed = ["/usr/bin/time", "-q", "-o", memory, "-f", "%M", *words]
    flags = os.O_WRONLY | os.O_CREAT | os.O_TRUNC
    files = [(os.POSIX_SPAWN_OPEN, 1, out, flags, 0o600), (os.POSIX_SPAWN_OPEN, 2, err, flags, 0o600)]
    began = time.monotonic()
    _, status, used = os.wait4(os.posix_spawn(timed[0], timed, os.environ, file_actions=files), 0)
    took = Took(used.ru_utime + used.ru_stime, time.monotonic() - began, int(bytes_of(memory)) / 1024)
    return Spent(os.waitstatus_to_exitcode(status), bytes_of(out).decode("latin-1"), bytes_of(err).decode("latin-1"), took)
