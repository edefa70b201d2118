"""The calls on the two files that keep a desk failed from one on, by tools/faults/stop_io.c: each write, each cut and each sync of the file and its log;
and then these with each read.

A run of a script is made again and again, where its calls fail from the first on, from the second, and so on up to the last. Of a run with more than 1,000 calls,
reads among them, they fail from every 97th on, and from each of the last 100.
Each run has to end in one of these ways:
  - at the opening: the file cannot be used, which is told, and nothing is printed;
  - at a line, an act or a question that reads the file: it is answered 31, each line behind it that reads 32, and so are the places at the end;
  - as the desk is closed: all is answered as it is where nothing fails.
The two latter may end with status 2 besides, and the words that the file cannot be used, since it could not be closed. A desk that is made is told as a new one
but where the opening failed before its tables stood in the file; it may fail behind them, and then an empty desk is left.

Its tables, as they lie in the file and its log, have to be the plain desk's before the act that was answered 31, or, where the fault came behind the commit,
after the whole of it; before an opening that fails they are of the version of which they were. Then the file is opened without a fault: its tables are those that
an opening makes of these, and what the program tells of them is the plain desk's too. How many left which is told.
"""
import tempfile
from collections import Counter
from concurrent.futures import ThreadPoolExecutor
from typing import Sequence

from faults.kept_runs import OPENED, READING, RUNS, Desks, Ended, Run, Trial
from model.desk import QUESTIONS
from model.lines import act_of
from tests.asked import ASKED
from tests.plain_runs import Plain
from tests.runs import Tried, quick_folder

STORE = "refused 31 Store\n"
AT_ONCE = 4
THE_END = "no call failed"
# Which calls fail, by the settings of tools/faults/stop_io.c: without the reads, or with them.
WRITES: dict[str, str] = {}
READS = {"FAIL_READS": "1"}
# Of a run with more calls than the first of these they fail from every so manyth on, and from each of so many last.
MANY, STEP, LAST = 1000, 97, 100


def state_of(trial: Trial, ran: Ended) -> tuple[str, int]:
    """Where a run met the fault, in words, and the state before it, as far as its output tells; "" where it printed what it may not."""
    if not ran.out and ran.status == 2:
        return "at the opening", 0
    if ran.out == trial.plain.whole:
        return "at the closing" if ran.status == 2 else THE_END, len(trial.fronts) - 1
    front, _, behind = ran.out.partition(STORE)
    if front in trial.fronts[1:] and behind == trial.plain.stopped(trial.plain.fronts.index(front)):
        state = trial.fronts.index(front, 1)
        return "at a question" if is_question(trial.plain, state - 1) else "at an act", state
    return "", 0


def is_question(plain: Plain, number: int) -> bool:
    """Whether the line of this number, from 0, asks what changes nothing."""
    return number < len(plain.lines) and getattr(act_of(plain.lines[number]), "word", "") in QUESTIONS


def verdict_of(trial: Trial, number: int, calls: dict[str, str]) -> str:
    """What becomes of a run whose calls fail from this one on: where it met the fault, and what it left; of a disagreement, what it is."""
    folder = trial.copy()
    ran = trial.desks.run(folder, trial.script, OPENED, FAIL_FROM=str(number), **calls)
    where, state = state_of(trial, ran)
    told = {0: "", 1: "", 2: f"tcdesk: cannot use {folder}/desk.db\n"}
    if not where or ran.err != told.get(ran.status, "no such status") or not trial.is_told(ran):
        return f"it ended in no way that it may: {ran}"
    if where == THE_END:
        return where
    return f"{where}: {trial.verdict(folder, ran, [state])}"


def numbers_of(calls: int) -> list[int]:
    """The calls from which on a run of so many fails, and the one behind them all."""
    first = calls + 1 - LAST if calls > MANY else 1
    return [*range(1, first, STEP), *range(first, calls + 2)]


def tell(trial: Trial, pool: ThreadPoolExecutor, which: dict[str, str]) -> tuple[int, list[str], Counter[str]]:
    """Fails a run from its calls on, some at a time, and says how that went. Gives how many runs there were, those that disagreed, and what was
    seen."""
    counts: Counter[str] = Counter()
    bad: list[str] = []
    calls = trial.desks.calls(trial.copy(), trial.script, OPENED, **which)
    numbers = numbers_of(calls)
    for number, verdict in zip(numbers, pool.map(lambda it: verdict_of(trial, it, which), numbers)):
        is_known = (verdict == THE_END) == (number > calls) and verdict.split(": ")[-1] in (THE_END, "before", "after", "either")
        counts[verdict if is_known else "bad"] += 1
        bad += [] if is_known else [f"{trial.run.name}, from call {number} of {calls} on: {verdict:.900}"]
    runs = sum(counts.values()) - counts[THE_END]
    told = ", ".join(f"{number} {it}" for it, number in sorted(counts.items()) if it != THE_END)
    some = f", from every {STEP}th of {calls} calls on and from each of the last {LAST}" if calls > MANY else ""
    print(f"{trial.run.name}{', reads too' if which else ''}: {runs} runs{some}: {told}", flush=True)
    return runs, bad, counts


class FailingStore(Tried):
    """A disk that fails from one call on."""

    def test_runs(self) -> None:
        """Each call of each run that writes, cuts or syncs a file."""
        self.fail_from_each("fail_store", RUNS, WRITES, ("at the opening: before", "at an act: before", "at an act: after"))

    def test_reads(self) -> None:
        """These calls and each that reads a file, also of a run with questions that read it."""
        wanted = ("at the opening: before", "at the opening: after", "at an act: before", "at an act: after", "at a question: either", "at the closing: either")
        self.fail_from_each("fail_store, reads too", (*RUNS, READING), READS, wanted)

    def fail_from_each(self, name: str, runs: Sequence[Run], which: dict[str, str], wanted: Sequence[str]) -> None:
        """Fails these calls of these runs, from each one on, and looks whether all was seen that is wanted."""
        with tempfile.TemporaryDirectory(prefix="store-", dir=quick_folder()) as work, ThreadPoolExecutor(AT_ONCE) as pool:
            desks = Desks(work, ASKED.program)
            told = [tell(Trial(desks, run), pool, which) for run in runs]
        bad = [it for _, list_, _ in told for it in list_]
        print(f"{name}: {sum(count for count, _, _ in told)} runs, {len(bad)} bad")
        seen: Counter[str] = sum((counts for _, _, counts in told), Counter())
        self.no_faults(bad + [f"never seen: {it}" for it in wanted if not seen[it]])
