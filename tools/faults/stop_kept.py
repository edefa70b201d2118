"""The built program stopped at each of its calls on the files that keep a desk.

A run of a script on a desk in a file is stopped dead (tools/faults/stop_io.c) at call 1, 2, 3 and so on of those that change or sync the file or its
log, until a run ends that has no such call. Each stop is tried in four ways: before the call or when half of it is made; and with all on the disk
that was written, as where the program is killed, or with all lost of each file that was written since its last sync, as where the power fails.

What is left is read by SQLite, as it lies in the file and its log: it has to be the plain desk's tables, after the acts of which the stopped run printed an answer,
or after these and the one act in progress: no answered act is missing, and none is there by half. A desk of an earlier version of the schema is of that version
still, or of the newest. Then it is opened by the program, which has to end with status 0, and SQLite reads all tables from the file alone: those that the plain
desk's opening makes of them. What the program itself tells of them has to be the plain desk's too.

A desk that is made is stopped also before its tables stand, and between their making and the opening behind it: then the file has no table, and the next run
says that it is a new desk, or it has those of an empty desk. Where the stopped run had said so its tables stand, also where the power failed.

For each disagreement there is a line, and for each run one with how many stops left the state before the act in progress, how many that
after it, and how many either, where both are the same.
"""
import tempfile
from collections import Counter
from concurrent.futures import ThreadPoolExecutor

from faults.kept_runs import OPENED, RUNS, Desks, Ended, Trial
from tests.asked import ASKED
from tests.runs import Tried, quick_folder

# The statuses of a program that tools/faults/stop_io.c stopped, and of one that it was to stop in the middle of a call that has none.
STOPPED, NOTHING_TO_HALVE = 137, 138
AT_ONCE = 4

# The four ways of a stop, by their settings.
WAYS: dict[str, dict[str, str]] = {
    "before the call": {},
    "in the call": {"STOP_HALF": "1"},
    "before the call, the power lost": {"STOP_LOST": "1"},
    "in the call, the power lost": {"STOP_HALF": "1", "STOP_LOST": "1"},
}


def stop(trial: Trial, number: int, way: str) -> str:
    """Stops a run at a call, and tells which state it left: before, after, or either; that there was no call to halve, or none of this number; of a
    fault, what it is."""
    folder = trial.copy()
    ran = trial.desks.run(folder, trial.script, OPENED, STOP_AT=str(number), **WAYS[way])
    if ran.status == NOTHING_TO_HALVE:
        return "nothing to halve"
    if ran == Ended(trial.plain.status, trial.plain.whole, "", trial.is_new):
        return "the end"
    states = trial.answered(ran.out)
    if ran.status != STOPPED or ran.err or not states or not trial.is_told(ran):
        return f"it did not stop, or printed no front of what it prints where it is not stopped: {ran}"
    return trial.verdict(folder, ran, states)


def tell(trial: Trial, pool: ThreadPoolExecutor) -> tuple[int, list[str]]:
    """Tries all stops of a run, some at a time, and says how they went. Gives how many there were, and those that disagreed."""
    counts: Counter[str] = Counter()
    bad: list[str] = []
    first = 1
    while "the end" not in counts:
        tried = [(number, way) for number in range(first, first + AT_ONCE) for way in WAYS]
        for (number, way), verdict in zip(tried, pool.map(lambda it: stop(trial, *it), tried)):
            is_known = verdict in ("before", "after", "either", "nothing to halve", "the end")
            counts[verdict if is_known else "bad"] += 1
            bad += [] if is_known else [f"{trial.run.name}, call {number}, {way}: {verdict}"]
        first += AT_ONCE
        if len(bad) > 20:
            break
    stops = sum(counts[it] for it in ("before", "after", "either", "bad"))
    print(f"{trial.run.name}: {stops} stops: {', '.join(f'{count} {it}' for it, count in sorted(counts.items()))}", flush=True)
    return stops, bad


class Stops(Tried):
    """Stops at each call on the files."""

    def test_runs(self) -> None:
        """All stops of all runs."""
        with tempfile.TemporaryDirectory(prefix="stops-", dir=quick_folder()) as work, ThreadPoolExecutor(AT_ONCE) as pool:
            desks = Desks(work, ASKED.program)
            told = [tell(Trial(desks, run), pool) for run in RUNS]
        bad = [it for _, list_ in told for it in list_]
        print(f"stop_kept: {sum(stops for stops, _ in told)} stops, {len(bad)} bad")
        self.no_faults(bad)
