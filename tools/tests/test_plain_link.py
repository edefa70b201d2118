"""The desk over a link beside a plain desk, which asks the program nothing.

The plain desk answers each line of a script from the requirements: FOP-1 and FARM-1 as literal tables, two carriers that are lists or
rings, the spacecraft, its schedule and the mirror, and where each request stands. The program runs long scripts that fit
how the link stands, with losses, starts of every kind, windows K from 1 to 127 and W from 2 to 254, rings of 1 to 4,096, lockout and the way back; every line that it prints, and
its status, are those of the plain desk. Each cell of the two tables that a desk can reach has to be met, and each ring has to be full both ways.

Then longer scripts, in which after each act is asked where the requests stand. Of what is printed alone (link_promise.py, without the
plain desk), in all of the scripts: each request stands at one place, the counts are those of the moves, and while the premise is kept
each request that was confirmed was accepted once, in the order of transmission, no FARM locks out, and a service ends by no alert but
those that may come. The first fault of each script is told.
"""
import subprocess
import tempfile
from collections import Counter
from concurrent.futures import ProcessPoolExecutor
from functools import partial
from typing import Any, Mapping, NamedTuple, Optional

from generate.link_scripts import REFUSED, RINGS, SEED, Job, jobs_of, some_jobs, written
from generate.link_writers import Writer
from model import farm, fop
from model.board import ON_BOARD
from model.carrier import Carrier
from model.desk import Desk
from model.facts import LAWFUL, Cause
from model.schedule import MIRRORED
from tests.asked import ASKED
from tests.link_promise import Judge
from tests.runs import Tried

class Told(NamedTuple):
    """What came of one script."""
    fault: str
    acts: int
    printed: int
    refused: int
    met: Counter[Any]
    seen: Counter[str]
    alerts: Counter[tuple[str, str]]


# ---- one script

def keep(path: str, lines: list[str]) -> None:
    """Writes a script."""
    with open(path, "w", encoding="ascii") as script:
        script.write("".join(f"{line}\n" for line in lines))


def run(program: str, writer: Writer) -> tuple[int, list[str], str]:
    """The status and the lines of the program's run of a script."""
    with tempfile.TemporaryDirectory(prefix="link-") as folder:
        keep(f"{folder}/script.tc", writer.lines)
        words = [program, "run", *writer.options(), f"{folder}/script.tc"]
        done = subprocess.run(words, stdin=subprocess.DEVNULL, capture_output=True, timeout=900, check=False)
    return done.returncode, done.stdout.decode("latin-1").splitlines(), done.stderr.decode("latin-1").strip()


def difference(writer: Writer, status: int, lines: list[str], errors: str) -> Optional[str]:
    """The first line that the program prints otherwise than the plain desk; none where there is none."""
    at = 0
    for number, (line, wanted) in enumerate(zip(writer.lines + ["the end"], writer.wanted + [[writer.desk.places()]]), 1):
        printed = lines[at:at + len(wanted)]
        if printed != wanted:
            place = next((i for i, (a, b) in enumerate(zip(printed, wanted)) if a != b), min(len(printed), len(wanted)))
            told = printed[place] if place < len(printed) else "nothing more"
            return f"line {number}, {line!r}: printed {told!r}, wanted {wanted[place]!r} {errors}"
        at += len(wanted)
    if len(lines) > at:
        return f"behind the end: printed {lines[at]!r}"
    if status != writer.desk.status():
        return f"the status is {status} {errors}"
    return None


def met_by(desk: Desk) -> Counter[Any]:
    """What a script met of all that has to be met."""
    carriers: dict[str, Carrier[Any]] = {"up": desk.link.up, "down": desk.link.down}
    met: dict[str, Mapping[Any, int]] = {
        "FOP-1": desk.link.fop.visits, "FARM-1": desk.link.farm.visits, "on board": desk.board.visits, "mirror": desk.mirror.visits,
        "move": Counter((it.from_place, it.to_place, it.cause) for it in desk.book.history), "refused": desk.refusals,
        "overwritten": {(way, it.size): it.dropped for way, it in carriers.items() if it.size}}
    return Counter({(kind, it): count for kind, counts in met.items() for it, count in counts.items()})


def play(program: str, job: Job) -> Told:
    """Runs the script of a job, and compares it; what is printed is judged by itself too."""
    writer = written(job)
    status, lines, errors = run(program, writer)
    judge = Judge()
    fault = difference(writer, status, lines, errors)
    broken: Optional[str] = judge.reads(lines)
    fault = fault or broken
    if fault:
        path = f"{tempfile.gettempdir()}/link-{job[0]}-{job[1]}.tc"
        keep(path, writer.lines)
        fault = f"{' '.join(str(it) for it in job)}, run {' '.join(writer.options())} {path}: {fault}"
    seen = judge.seen + Counter({f"{what} over a ring": count for what, count in judge.seen.items() if writer.style.ring})
    return Told(fault or "", len(writer.lines), len(lines), sum(it.startswith("refused") for it in lines), met_by(writer.desk), seen,
                judge.alerts)


# ---- all of them

TO_MEET: list[tuple[str, Any]] = (
    [("FOP-1", cell) for cell in [*fop.CELLS, *fop.BESIDES]] + [("FARM-1", cell) for cell in farm.CELLS]
    + [("on board", it) for it in ON_BOARD] + [("mirror", it) for it in MIRRORED]
    + [("move", it) for it in sorted(LAWFUL) if it[2] is not Cause.OPEN]
    + [("refused", (act, number)) for act, numbers in REFUSED.items() for number in numbers]
    + [("overwritten", (way, size)) for way in ("up", "down") for size in RINGS])
# What has to be seen of the promise: that it was put to the test, also over rings, and that it hangs on the premise. No cell of a FARM in
# Lockout, and none of the rows that lead to the other alerts, is left out of what has to be met: while the premise is kept a desk meets
# none of them, but a start over what is still in flight leads to each.
LEAST = {"places": 30000, "accepted": 3000, "confirmed while kept": 2000, "not so where the premise is broken": 20,
         "places over a ring": 15000, "confirmed while kept over a ring": 400, "Lockout where the premise is broken": 500}
# The same of the alerts: those that come while the premise is kept, and those of a service that has started where it is broken.
LEAST_ALERTS = {("started kept", "T1"): 100, ("started kept", "LIMIT"): 20, ("started kept", "TERM"): 50, ("beginning kept", "T1"): 20,
                ("unlevel kept", "NN(R)"): 10, ("unlevel kept", "SYNCH"): 3, ("started broken", "LOCKOUT"): 10,
                ("started broken", "SYNCH"): 10, ("started broken", "NN(R)"): 10}


def unmet(met: Counter[Any]) -> list[str]:
    """What no script met, of what a desk can meet; and the cells that were met and cannot be."""
    faults = [f"no script meets {kind}: {it}" for kind, it in TO_MEET if not met[kind, it]]
    return faults + [f"{kind}: {it} cannot be met, and was" for kind, it in met if kind in ("FOP-1", "FARM-1") and len(it) == 2
                     and (kind, it) not in TO_MEET]


def print_cells(met: Counter[Any]) -> None:
    """How often each cell was met, and all else."""
    for row in fop.TABLE:
        counts = ((met["FOP-1", (row, state)], ("FOP-1", (row, state)) in TO_MEET) for state in fop.STATES + (fop.INITIAL,))
        print(f"{row:4}" + "".join(f"{count if is_reached else '-':>7}" for count, is_reached in counts))
    for kind, it in TO_MEET:
        if kind != "FOP-1" or len(it) > 2:
            print(f"{met[kind, it]:7} {kind}: {' '.join(str(word) for word in it) if isinstance(it, tuple) else it}")


def told_alerts(alerts: Counter[tuple[str, str]], premise: str) -> str:
    """How often each alert ended a service that had started."""
    return ", ".join(f"{kind} {count}" for (told, kind), count in sorted(alerts.items()) if told == f"started {premise}")


def hardly(told: list[Told], met: Counter[Any]) -> list[str]:
    """What was not met, or hardly seen, of all that these scripts have to meet."""
    seen: Counter[str] = sum((it.seen for it in told), Counter())
    alerts: Counter[tuple[str, str]] = sum((it.alerts for it in told), Counter())
    few = [f"only {seen[what]} {what}" for what, least in LEAST.items() if seen[what] < least]
    return unmet(met) + few + [f"only {alerts[what]} {what}" for what, least in LEAST_ALERTS.items() if alerts[what] < least]


class PlainLink(Tried):
    """The link, and the spacecraft behind it."""

    def test_scripts(self) -> None:
        """The program answers all scripts as the plain desk does, and keeps its promise; with a number, so many random ones alone."""
        jobs = jobs_of(ASKED.seed_or(SEED)) if ASKED.count is None else some_jobs(ASKED.seed_or(SEED), ASKED.count)
        with ProcessPoolExecutor(4) as pool:
            told = list(pool.map(partial(play, ASKED.program), jobs))
        met: Counter[Any] = sum((it.met for it in told), Counter())
        seen: Counter[str] = sum((it.seen for it in told), Counter())
        alerts: Counter[tuple[str, str]] = sum((it.alerts for it in told), Counter())
        faults = [it.fault for it in told if it.fault] + (hardly(told, met) if ASKED.count is None else [])
        if ASKED.cells:
            print_cells(met)
        print(f"plain link: {len(told)} scripts, {sum(it.acts for it in told)} lines of which {sum(it.refused for it in told)} refused,"
              f" {sum(it.printed for it in told)} printed; {len(fop.CELLS)} cells of FOP-1, {len(farm.CELLS)} of FARM-1 and"
              f" {len(TO_MEET) - len(fop.CELLS) - len(farm.CELLS)} others, each at least {min(met[it] for it in TO_MEET)}"
              f" times; {seen['confirmed while kept']} confirmed while the premise was kept, {seen['places']} counts of places; alerts of"
              f" services that had started: {told_alerts(alerts, 'kept')} while the premise was kept, {told_alerts(alerts, 'broken')} where"
              f" it was broken; {len(faults)} faults")
        self.no_faults(faults)
