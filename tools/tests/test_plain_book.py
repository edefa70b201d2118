"""Long scripts beside the plain desk, about the book.

The plain desk answers each line by itself, from the requirements. The scripts that are run are random ones by their seeds, some of them over a link
that loses, and those of plans. Every line that the program prints has to be the plain desk's, and so has the status; some scripts are run on a desk
that is kept, whose tables have to be the plain desk's too, row by row in the order in which they were written. The first line that differs is told
for each script. Where all are run, each refusal and each lawful move has to be met, and each refusal of each act that these scripts can reach.
"""
import shutil
import subprocess
import tempfile
from collections import Counter
from concurrent.futures import ProcessPoolExecutor
from dataclasses import dataclass
from functools import partial
from itertools import zip_longest
from typing import Callable, Union

from generate.book_plans import PLANS
from generate.scripts import LINES, Written, book_script, is_losing
from model.facts import LAWFUL, TESTS, Cause, Place, Refusal, cause_word, place_word
from model.kept import read_tables, sqlite3
from model.rows import ROWS
from tests.asked import ASKED
from tests.new_desks import said_first
from tests.runs import Tried, write_files

SEEDS = 24
KEPT_EACH = 4
LONGEST = 600
LEAST_REFUSALS, FEW = 50, {8: 9, 18: 9}
# What hardly comes where few reports are lost, which is for test_plain_link.py; the last never, since a control word flies behind the report.
LOST = {(Place.RIDING, Place.ACCEPTED), (Place.RIDING, Place.STARTED), (Place.RIDING, Place.COMPLETED), (Place.RIDING, Place.FAILED),
        (Place.RIDING, Place.DELETED), (Place.DOUBTFUL, Place.DELETED), (Place.SCHEDULED, Place.STARTED), (Place.SCHEDULED, Place.COMPLETED),
        (Place.CONFIRMED, Place.ACCEPTED)}
# What is refused once the history is full, which is for test_changed.py; and a step never names a request that is not there, since its load did not.
FULL = {"enter", "begin", "stack", "procedure"}
NEVER = {("step", Refusal.UNKNOWN_REQUEST)}


@dataclass
class Found:
    """What became of a script: how many lines it has and were printed, what was refused and moved, and what differs."""
    lines: int
    printed: int
    refused: Counter[int]
    tests: Counter[tuple[str, int]]
    moves: Counter[tuple[int, int, int]]
    fault: str


def table_fault(script: Written, path: str) -> str:
    """Which table of a file is not the plain desk's, and the first of its rows."""
    wanted = script.desk.tables()
    try:
        there = read_tables(path)
    except sqlite3.Error as fault:
        return f"the file that is kept does not read: {fault}"
    for name in ROWS:
        for it, row in zip_longest(getattr(wanted, name), getattr(there, name)):
            if it != row:
                return f"the table {name} has {row}, and not {it}"
    return ""


# ---- a script

def first_fault(script: Written, lines: list[str]) -> str:
    """The first line that the program printed and the plain desk does not answer, or the other way round."""
    at = 0
    for number, (line, answer) in enumerate(script.told, 1):
        for want in answer:
            got = lines[at] if at < len(lines) else None
            if got != want:
                return f"at its line {number}, {line!r:.150}: printed {got!r:.200}, and not {want!r:.200}"
            at += 1
    want = script.desk.places()
    return "" if lines[at:] == [want] else f"at its end: printed {lines[at:at + 3]!r:.200}, and not {want!r}"


def write_script(script: Written, folder: str) -> None:
    """Writes a script and its files."""
    write_files(folder, script.files)
    with open(f"{folder}/script.tc", "wb") as file:
        file.write("".join(f"{it}\n" for it in script.lines).encode("latin-1"))


def compare(program: str, script: Written, folder: str, is_kept: bool) -> str:
    """Runs a script, and tells how that differs from the plain desk; nothing where it does not."""
    write_script(script, folder)
    words = ["run", *(["--db", "kept.db"] if is_kept else []), "script.tc"]
    first = said_first(folder, words)
    try:
        ran = subprocess.run([program, *words], cwd=folder, stdin=subprocess.DEVNULL, capture_output=True, timeout=LONGEST, check=False)
    except subprocess.SubprocessError as why:
        return str(why)
    lines = ran.stdout.decode("latin-1").split("\n")
    fault = first_fault(script, lines[:-1])
    if not fault and (ran.returncode, ran.stderr, lines[-1]) != (script.status(), first.encode(), ""):
        fault = f"status {ran.returncode}, and not {script.status()}: {ran.stderr!r:.200}"
    return fault or (table_fault(script, f"{folder}/kept.db") if is_kept else "")


def try_script(program: str, work: str, job: Union[int, Callable[[], Written]]) -> Found:
    """Writes the script of a plan, or of a seed, and compares."""
    script = book_script(job, LINES) if isinstance(job, int) else job()
    is_kept = job % KEPT_EACH == 0 or is_losing(job) if isinstance(job, int) else script.title in ("stacks of 200 rows", "borders")
    folder = tempfile.mkdtemp(dir=work)
    try:
        fault = compare(program, script, folder, is_kept)
    finally:
        shutil.rmtree(folder)
    moves = Counter((it.from_place, it.to_place, it.cause) for it in script.book.history)
    tests: Counter[tuple[str, int]] = Counter({(act, int(number)): times for (act, number), times in script.desk.refusals.items()})
    printed = sum(len(it) for _, it in script.told) + 1
    return Found(len(script.told), printed, script.refused, tests, moves, fault and f"{script.title}: {fault}")


# ---- all scripts

def lacks(found: list[Found]) -> list[str]:
    """What was hardly met: refusals, refusals of each act, and lawful moves."""
    refused: Counter[int] = sum((it.refused for it in found), Counter())
    tests: Counter[tuple[str, int]] = sum((it.tests for it in found), Counter())
    moves: Counter[tuple[int, int, int]] = sum((it.moves for it in found), Counter())
    few = [f"refusal {it} {refused[it]} times" for it in range(1, 20) if refused[it] < FEW.get(it, LEAST_REFUSALS)]
    few += [f"{act}, refusal {it.line}" for act, wanted in TESTS.items() for it in wanted
            if not tests[act, it] and (act, it) not in NEVER and (it is not Refusal.DESK_FULL or act in FULL)]
    is_lost = {it for it in LAWFUL if it[:2] in LOST and it[2] in (Cause.REPORT, Cause.DELETE)}
    wanted_moves = {it for it in LAWFUL if it[2] is not Cause.OPEN} - is_lost
    return few + [f"{place_word(before)} {place_word(to)} {cause_word(cause)}" for before, to, cause in sorted(wanted_moves - moves.keys())]


class PlainBook(Tried):
    """Acts on the book."""

    def test_scripts(self) -> None:
        """The program answers plans and random scripts as the plain desk does; with a seed or a number, those random ones alone."""
        first, count = ASKED.seed_or(1), ASKED.count_or(SEEDS)
        jobs: list[Union[int, Callable[[], Written]]] = [*(PLANS if ASKED.is_whole else []), *range(first, first + count)]
        with tempfile.TemporaryDirectory(prefix="book-") as work, ProcessPoolExecutor(4) as pool:
            found = list(pool.map(partial(try_script, ASKED.program, work), jobs))
        faults = [it.fault for it in found if it.fault]
        moves: Counter[tuple[int, int, int]] = sum((it.moves for it in found), Counter())
        print(f"plain book: {len(jobs)} scripts, {sum(it.lines for it in found)} lines answered,"
              f" {sum(sum(it.refused.values()) for it in found)} refused, {sum(it.printed for it in found)} lines printed,"
              f" {sum(moves.values())} moves of {len(moves)} kinds, {len(faults)} differ")
        lacking = lacks(found) if ASKED.is_whole else []
        self.no_faults(faults + [f"hardly met: {it}" for it in lacking])
