"""How the tests run the program on files, and look at what it leaves there."""
import os
import subprocess
import tempfile
import unittest
from collections import Counter
from concurrent.futures import ProcessPoolExecutor
from dataclasses import dataclass
from functools import partial
from typing import Callable, Iterable, NamedTuple, Optional, Sequence

from tests.asked import ASKED, TOOLS
from tests.new_desks import said_first, said_then, why_in


@dataclass
class Ran:
    """What a run of the program left: of its errors all but the line that it made a new desk, where that was due, and why something cannot be used, which stands by itself."""
    status: int
    lines: list[str]
    errors: str
    why: str = ""


class Ended(NamedTuple):
    """How the program ended."""
    status: int
    out: str
    err: str


def write_lines(path: str, lines: Iterable[str]) -> None:
    """Writes a text of lines."""
    with open(path, "w", encoding="ascii") as file:
        file.write("".join(f"{line}\n" for line in lines))


def write_files(folder: str, files: dict[str, bytes]) -> None:
    """Writes the files that a script loads."""
    for name, data in files.items():
        with open(f"{folder}/{name}", "wb") as file:
            file.write(data)


def bytes_of(path: str) -> bytes:
    """All bytes of a file."""
    with open(path, "rb") as file:
        return file.read()


def run_kept(program: str, folder: str, path: str, moment: int, script: str) -> Ran:
    """Runs a script, a file of the folder, on the desk that is kept in another, opened at this moment."""
    words = ["run", "--db", path, "--at", str(moment), script]
    first = said_first(folder, words)
    done = subprocess.run([program, *words], cwd=folder, stdin=subprocess.DEVNULL, capture_output=True, timeout=900, check=False)
    said = done.stderr.decode("latin-1")
    return Ran(done.returncode, done.stdout.decode("latin-1").splitlines(), said_then(first, done.returncode, said), why_in(said))


def quick_folder() -> Optional[str]:
    """A folder in memory, where the system has one, for files of which nobody asks whether they come to a disk; else none."""
    return "/dev/shm" if os.access("/dev/shm", os.W_OK) else None


def made_shim(name: str, folder: str) -> str:
    """Makes NAME.so of tools/faults/NAME.c, which stands before calls of the C library, and gives its path."""
    if subprocess.run([f"{TOOLS}/faults/make_shim.sh", name, folder], check=False).returncode:
        raise AssertionError(f"{name}.so cannot be made (Debian: gcc, libc6-dev)")
    return f"{folder}/{name}.so"


class Tried(unittest.TestCase):
    """Tests that find faults, and tell each in a line."""

    def no_faults(self, faults: Sequence[str]) -> None:
        """Fails where there are faults."""
        if faults:
            self.fail("\n".join(faults))

    def shared_out(self, name: str, share: Callable[[str, str, int, int], tuple[Counter[str], list[str]]], count: int, shares: int) -> Counter[str]:
        """Has so many things tried, each share of them in a process with a seed of its own, by the program, in a folder. Tells the seeds and how the
        things went, and fails where a share found a fault."""
        first, count = ASKED.seed_or(1), ASKED.count_or(count)
        seeds = range(first, first + shares)
        print(f"{name}: seeds {first} to {first + shares - 1}", flush=True)
        with tempfile.TemporaryDirectory(prefix=f"{name}-", dir=quick_folder()) as work, ProcessPoolExecutor(shares) as pool:
            told = list(pool.map(partial(share, ASKED.program, work, -(-count // shares)), seeds))
        counts: Counter[str] = sum((it for it, _ in told), Counter())
        print(f"{name}: {', '.join(f'{amount} {it}' for it, amount in sorted(counts.items()))}")
        self.no_faults([fault for _, faults in told for fault in faults])
        return counts
