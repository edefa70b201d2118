#!/usr/bin/env python3
"""Runs the tests of the desk.

    tools/run.py --list                                  what there is to run, what each looks for, and what it needs installed
    tools/run.py                                         all of it, as the gate does behind `rt ci`
    tools/run.py --only report                           one entry; --only may stand several times
    tools/run.py --only plain-book --seed 7 --count 1    one seed of one entry
    tools/run.py --beside 4                              four entries beside each other, each in a process of its own
    tools/run.py --planted                               faults planted into the plain desk: how many are found

The program is the one that was built here (crates/tc_cli/out/tc_cli), or else the one that dist/ keeps. An entry is a unittest.TestCase of
tools/tests or tools/faults, or a script of the shell. What could not be tried is told in a line `not tried: ..`. The last line is
`N passed, N failed`, where each test method counts and each script; the status is 1 where one failed, or where nothing was tried.
"""
import argparse
import io
import os
import re
import subprocess
import sys
import tempfile
import time
import unittest
from concurrent.futures import ThreadPoolExecutor
from typing import Any, Callable, NamedTuple, Optional

from entries import ENTRIES, HANG_ON_TIME, Entry
from tests.asked import ASKED, BUILT, KEPT, TOOLS


class Took(NamedTuple):
    """What an entry took: minutes by the clock and of processors; and what became of it."""
    name: str
    minutes: float
    processor: float
    told: str


class Script(unittest.TestCase):
    """An entry that is a command of its own."""

    def __init__(self, entry: Entry, more: list[str]) -> None:
        """The command, with these words behind it."""
        super().__init__("run_it")
        self.entry, self.more = entry, more

    def id(self) -> str:
        """Its name."""
        return self.entry.name

    def run_it(self) -> None:
        """Runs the command, which tells what it found by its status."""
        path, *words = self.entry.command
        words = [ASKED.program if it == "PROGRAM" else it for it in words]
        status = subprocess.run([f"{TOOLS}/{path}", *words, *self.more], stdin=subprocess.DEVNULL, check=False).returncode
        self.assertEqual(0, status, f"tools/{path} ended with status {status}")


class Told(unittest.TestResult):
    """Counts what passed, and prints each failure as it comes."""

    def __init__(self) -> None:
        """Nothing was tried yet."""
        super().__init__()
        self.passed, self.failed = 0, 0

    def addSuccess(self, test: unittest.TestCase) -> None:
        """A test passed."""
        super().addSuccess(test)
        self.passed += 1

    def addFailure(self, test: unittest.TestCase, err: Any) -> None:
        """What a test looks for is not so: its message says what."""
        super().addFailure(test, err)
        self.fails(test, str(err[1]))

    def addError(self, test: unittest.TestCase, err: Any) -> None:
        """A test goes no further."""
        super().addError(test, err)
        self.fails(test, self.errors[-1][1])

    def addSubTest(self, test: unittest.TestCase, subtest: unittest.TestCase, err: Any) -> None:
        """A part of a test: only one that failed counts, and then as one more."""
        super().addSubTest(test, subtest, err)
        if err is not None:
            self.fails(subtest, str(err[1]))

    def addSkip(self, test: unittest.TestCase, reason: str) -> None:
        """A test could not try anything, and nothing is wanted of it."""
        super().addSkip(test, reason)
        print(f"not tried: {reason}")

    def fails(self, test: unittest.TestCase, why: str) -> None:
        """Counts and tells a failure."""
        self.failed += 1
        print(f"FAILED {test.id()}: {why}")


def suite_of(entry: Entry, more: list[str]) -> unittest.TestSuite:
    """The tests of an entry."""
    if entry.command:
        return unittest.TestSuite([Script(entry, more)])
    return unittest.defaultTestLoader.loadTestsFromNames(entry.modules)


def processor_seconds() -> float:
    """What this process and those that it waited for took of processors."""
    it = os.times()
    return it.user + it.system + it.children_user + it.children_system


def run_entry(entry: Entry, told: Told, more: list[str]) -> Took:
    """Runs the tests of an entry, and tells what they took."""
    print(f"== {entry.name}: {entry.looks_for}")
    before, began, processor = (told.passed, told.failed), time.monotonic(), processor_seconds()
    suite_of(entry, more).run(told)
    minutes, processor = (time.monotonic() - began) / 60, (processor_seconds() - processor) / 60
    passed, failed = told.passed - before[0], told.failed - before[1]
    took = Took(entry.name, minutes, processor, f"{failed} failed" if failed else f"{passed} passed" if passed else "not tried")
    print(f"{took.name}: {took.told}, in {minutes:.1f} minutes, {processor:.1f} of processors")
    return took


class Apart(NamedTuple):
    """What became of an entry that ran in a process of its own."""
    took: Took
    passed: int
    failed: int
    said: str


def run_apart(entry: Entry, words: list[str]) -> Apart:
    """Runs the tests of an entry in a process of its own."""
    began = time.monotonic()
    with tempfile.TemporaryFile("w+", encoding="utf-8", errors="replace") as output:
        command = [sys.executable, os.path.abspath(__file__), "--only", entry.name, *words]
        child = subprocess.Popen(command, stdin=subprocess.DEVNULL, stdout=output, stderr=subprocess.STDOUT)
        _, status, used = os.wait4(child.pid, 0)
        child.returncode = os.waitstatus_to_exitcode(status)
        output.seek(0)
        text = output.read()
    told = re.search(rf"^{entry.name}: (.*), in .* of processors\n", text, re.M)
    counts = re.search(r"^(\d+) passed, (\d+) failed\n\Z", text, re.M)
    passed, failed = (int(counts[1]), int(counts[2])) if counts else (0, 1)
    took = Took(entry.name, (time.monotonic() - began) / 60, (used.ru_utime + used.ru_stime) / 60, told[1] if told else f"ended with status {child.returncode}")
    return Apart(took, passed, failed, text[max(text.find("== "), 0):told.end()] if told else text)


def run_beside(entries: list[Entry], most: int, told: Told, words: Callable[[Entry], list[str]]) -> list[Took]:
    """Runs so many entries beside each other, each with its words, and prints what each said in their order. One that hangs on time, and failed, is run once more
    when all others have ended, and that counts."""
    ran = []
    with ThreadPoolExecutor(most) as pool:
        for it in pool.map(lambda entry: run_apart(entry, words(entry)), entries):
            print(it.said, end="")
            ran.append(it)
    for at, entry in enumerate(entries):
        if ran[at].failed and entry.name in HANG_ON_TIME:
            print(f"tried again: {entry.name} failed beside others, and runs alone now")
            ran[at] = run_apart(entry, words(entry))
            print(ran[at].said, end="")
    told.passed += sum(it.passed for it in ran)
    told.failed += sum(it.failed for it in ran)
    return [it.took for it in ran]


def table(rows: list[Took], minutes: float) -> None:
    """Prints what each entry took, and all of them by the clock."""
    print(f"\n{f'entry, on {os.cpu_count()} cores':24} minutes  processor")
    for it in [*rows, Took("all", minutes, sum(it.processor for it in rows), "")]:
        print(f"{it.name:24} {it.minutes:7.1f} {it.processor:10.1f}  {it.told}".rstrip())


def print_list() -> None:
    """Prints all entries: their names, what they look for, and what they need."""
    for it in ENTRIES:
        words = [f"needs {it.needs}" if it.needs else "", "takes --seed and --count" if it.takes_seed else "",
                 "only where it is named" if it.by_hand else ""]
        print(f"{it.name:16} {it.looks_for}")
        print("".join(f"{'':16} {'; '.join(word for word in words if word)}\n" if any(words) else ""), end="")


def parsed(words: list[str]) -> argparse.Namespace:
    """The words of the command line."""
    names = [it.name for it in ENTRIES]
    parser = argparse.ArgumentParser(prog="tools/run.py", description=__doc__, formatter_class=argparse.RawDescriptionHelpFormatter)
    parser.add_argument("--list", action="store_true", help="print what there is to run, and what it needs installed")
    parser.add_argument("--only", action="append", choices=names, metavar="NAME", help="run this entry; may stand several times")
    parser.add_argument("--seed", type=int, metavar="N", help="of the entries that take one, and of --planted: begin with this seed")
    parser.add_argument("--count", type=int, metavar="N",
                        help="of the entries that take one, and of --planted: so many seeds, scripts, texts or faults")
    parser.add_argument("--program", metavar="PATH", help="the program that is run")
    parser.add_argument("--beside", type=int, metavar="N", default=1, help="run so many entries beside each other (1)")
    parser.add_argument("--planted", action="store_true", help="plant faults into the plain desk, and print how many are found")
    parser.add_argument("--cells", action="store_true", help="plain-link: print how often each cell of FOP-1 and FARM-1 was met")
    parser.add_argument("--all", action="store_true", help="edits: try also those that are on record")
    parser.add_argument("--record", action="store_true", help="edits: write down in tools/edits.tried which were refused")
    asked = parser.parse_args(words)
    chosen = [it for it in ENTRIES if it.name in asked.only] if asked.only else [it for it in ENTRIES if not it.by_hand]
    if (asked.seed is not None or asked.count is not None) and not asked.planted and not any(it.takes_seed for it in chosen):
        parser.error("none of these entries takes --seed or --count")
    asked.chosen = chosen
    return asked


def program_of(path: Optional[str]) -> str:
    """The program that is run: this one, or the one that was built here, or the one that is kept."""
    program = os.path.abspath(path) if path else BUILT if os.access(BUILT, os.X_OK) else KEPT
    if not os.path.isfile(program) or not os.access(program, os.X_OK):
        sys.exit(f"run.py: there is no program {program}: tools/build.sh builds it, and --program names another")
    return program


def main() -> int:
    """Runs the entries that are asked for."""
    if isinstance(sys.stdout, io.TextIOWrapper):
        sys.stdout.reconfigure(line_buffering=True)
    os.environ["PYTHONUNBUFFERED"] = "1"
    asked = parsed(sys.argv[1:])
    if asked.list:
        print_list()
        return 0
    ASKED.program, ASKED.seed, ASKED.count, ASKED.cells = program_of(asked.program), asked.seed, asked.count, asked.cells
    of_seeds = [f"--{name}={value}" for name, value in (("seed", asked.seed), ("count", asked.count)) if value is not None]
    if asked.planted:
        words = [sys.executable, f"{TOOLS}/planted/plant.py", "--program", ASKED.program, *of_seeds]
        return subprocess.run(words, check=False).returncode
    print(f"the program is {ASKED.program}")
    told, began = Told(), time.monotonic()
    of_edits = ["--all"] * asked.all + ["--record"] * asked.record
    if asked.beside > 1:
        rows = run_beside(asked.chosen, asked.beside, told, lambda it: ["--program", ASKED.program, *of_edits, *(of_seeds if it.takes_seed else [])])
    else:
        rows = [run_entry(it, told, of_edits if it.name == "edits" else []) for it in asked.chosen]
    table(rows, (time.monotonic() - began) / 60)
    print(f"{told.passed} passed, {told.failed} failed")
    return int(told.failed > 0 or told.passed == 0)


if __name__ == "__main__":
    sys.exit(main())
