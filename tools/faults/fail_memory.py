"""Each request for memory of the built program refused in turn, and the line that was refused sent again.

A run of a script with one request refused (tools/faults/fail_malloc.c) may end in these ways, and in no other:
  - all lines are right: the request was not needed;
  - one line is refused 30, and all others are answered as if it were not there;
  - one line is refused 31, and each line behind it that reads 32;
  - the right lines up to some line, with status 2 and the words that memory, the tables or the file cannot be used.
Where a line was refused 30, the script is run once more with that line written twice, and the same request refused: the first is refused 30, and the
second and all behind it are answered as in a run that is not disturbed. The text has the same length both times, by line ends behind it, so that it
takes the same memory. What is right is the plain desk's. Of a desk that is kept in a file the tables are read too: those of the acts that were
answered, or, where a run was stopped, these and the whole of the act in progress. An opening of a file of an earlier version of the schema that is stopped leaves
it as it was, of that version, or has brought it to the newest whole.

The number of the refused request goes up until a run asks for less memory than that. Where each was refused, each act of the script has to have been
refused 30 by some run.
"""
import os
import shutil
import subprocess
import tempfile
from collections import Counter
from concurrent.futures import ProcessPoolExecutor
from itertools import count
from typing import NamedTuple, Optional

from model.desk import QUESTIONS
from model.kept import read_tables, sqlite3
from model.lines import act_of
from model.rows import Tables
from tests.asked import ASKED
from tests.made_files import OLD_DAY, OLDER, Older, make_older
from tests.new_desks import new_desk, without_beside
from tests.plain_runs import Plain, case_files, case_lines, kept_tables, text_of, unlike
from tests.runs import Ended, Tried, made_shim, quick_folder, write_files

SPARE, MOST_BAD, ENDING = 512, 10, 64  # bytes behind a script; runs that are bad, until a share ends; requests that a run makes behind its last line, at most
MEMORY, STORE = "refused 30 Memory\n", "refused 31 Store\n"


class Script(NamedTuple):
    """A script whose requests for memory are refused, each stepth of them, from the first of an opening on or from the first behind it."""
    name: str
    lines: list[str]
    options: tuple[str, ...] = ()
    step: int = 1
    has_opening: bool = False
    is_kept: bool = False
    # The file of an earlier version that is opened; none, where a desk is made.
    older: Optional[Older] = None


def over_the_end() -> list[str]:
    """300 requests over the end of the frames' numbers, with the widest window: it is full each time before what flies comes down, and one waits."""
    lines = ["0 ann set k 127"]
    for number in range(1, 301):
        lines += ["0 ann enter 5 ---- no 8 1 - - ok", f"0 bob approve {number}"]
    lines.append("0 ann initiate none")
    for begin, end in ((1, 129), (129, 256), (256, 301)):
        lines += [f"0 ann release {number}" for number in range(begin, end)] + ["0 ann tick", "0 ann link"]
        flying = 127 if end < 301 else 46
        lines += [line for _ in range(flying) for line in ("0 ann up", "0 ann work")] + ["0 ann clcw", "0 ann down", "0 ann places"]
    return lines


# Scripts of which each request is refused, in memory; and each how manyth of those of a desk that is kept, and of one of an earlier version.
EACH = ("one-lost-frame", "limit-alert", "insert-too-early", "insert", "two-activities-too-early", "two-activities", "insert-eight", "stack-approval",
        "interlock", "procedure")
KEPT_STEP, OLDER_STEP = 5, 13


def scripts() -> list[Script]:
    """All scripts."""
    made = [Script("each-act", case_lines("each-act"), has_opening=True), Script("each-load", case_lines("each-load")),
            Script("each-act over rings", case_lines("each-act"), ("--ring", "8"), 13, has_opening=True),
            Script("over the end of the numbers", over_the_end(), ("--w", "254"), 997)]
    made += [Script(name, case_lines(name)) for name in EACH]
    made += [Script(f"{name}, kept", case_lines(name), step=KEPT_STEP, is_kept=True) for name in (*EACH, "each-load")]
    return made + [Script(f"{it}", it.lines.splitlines(), step=OLDER_STEP, has_opening=True, is_kept=True, older=it) for it in OLDER]


class Found(NamedTuple):
    """What became of a run with a request refused: how it ended, the line at which, and what is bad of it."""
    how: str
    line: int = 0
    bad: str = ""


class Trial:
    """The runs of a script: what is right of it, and a folder with the files that it loads, in which it is run."""

    def __init__(self, program: str, shim: str, folder: str, script: Script) -> None:
        self.program, self.shim, self.script, self.folder = program, shim, script, folder
        self.files = case_files()
        self.before = self.make_older(script.older) if script.older else None
        self.right = self.plain(script.lines)
        self.size = len(text_of(script.lines)) + SPARE
        self.cuts = ["memory", "kept.db"] if script.is_kept else ["memory", "tables"]
        write_files(folder, self.files)

    def make_older(self, older: Older) -> Tables:
        """Makes the file of an earlier version that the runs begin with, and gives its tables."""
        make_older(f"{self.folder}/older.db", older)
        return read_tables(f"{self.folder}/older.db")

    def plain(self, lines: list[str]) -> Plain:
        """What the plain desk makes of these lines."""
        return Plain(lines, self.files, self.script.options, left=self.before, moment=OLD_DAY, is_kept=self.script.is_kept)

    def run(self, lines: list[str], at: int) -> Optional[Ended]:
        """Runs these lines with one request for memory refused, on a new desk, or on that of an earlier version. The text is as long for any lines. None where it
        was not made."""
        for name in ("kept.db", "kept.db-wal", "kept.db-shm"):
            if os.path.exists(f"{self.folder}/{name}"):
                os.remove(f"{self.folder}/{name}")
        if self.before:
            shutil.copy(f"{self.folder}/older.db", f"{self.folder}/kept.db")
        with open(f"{self.folder}/script", "w", encoding="latin-1", newline="") as file:
            file.write(text_of(lines).ljust(self.size, "\n"))
        words = [self.program, "run", *self.script.options, *(["--db", "kept.db"] if self.script.is_kept else []),
                 *(["--at", str(OLD_DAY)] if self.before else []), "script"]
        with open(f"{self.folder}/mark", "wb") as mark:
            told = mark.fileno()
            ran = subprocess.run(words, cwd=self.folder, stdin=subprocess.DEVNULL, capture_output=True, pass_fds=[told], timeout=600, check=False,
                                 env={**os.environ, "FAIL_AT": str(at), "FAIL_MARK": str(told), "LD_PRELOAD": self.shim})
            was_refused = os.fstat(told).st_size > 0
        ended = Ended(ran.returncode, ran.stdout.decode("latin-1"), self.said_besides(without_beside(ran.stderr.decode("latin-1")), ran.stdout != b""))
        return ended if was_refused else None

    def said_besides(self, err: str, has_printed: bool) -> str:
        """What was said but for the line that a desk in a file is new. That is due where something was printed: an opening may end for memory before its
        tables stand, or behind that, with an empty desk."""
        line = new_desk("kept.db")
        if not self.script.is_kept or self.before or not (has_printed or err.startswith(line)):
            return err
        return err.removeprefix(line) if err.startswith(line) else f"{err}[and not that it is a new desk]"

    def first(self) -> int:
        """The first request behind the opening, or some before it: a run whose request is refused there prints nothing. (So does one that has no memory for its
        first answer; so what is looked for is how many requests a script without a line makes.)"""
        if self.script.has_opening:
            return 1
        low, high = 1, 1 << 20
        while low < high:
            middle = (low + high) // 2
            low, high = (middle + 1, high) if self.run([], middle) else (low, middle)
        return max(1, low - ENDING)

    def how(self, ran: Ended) -> Found:
        """How a run with a request refused ended, by what it printed."""
        right, count = self.right, len(self.script.lines)
        if ran.status == 2:
            said = ran.err in [f"tcdesk: cannot use {it}\n" for it in self.cuts]
            state = right.fronts.index(ran.out) if ran.out in right.fronts else count if ran.out == right.whole else None
            return Found("ended", state) if said and state is not None else Found("bad")
        if (ran.out, ran.err, ran.status) == (right.whole, "", right.status):
            return Found("right", count)
        for word, how in ((MEMORY, "refused 30"), (STORE, "refused 31")):
            front = ran.out.split(word)[0]
            if word in ran.out and front in right.fronts and (ran.status, ran.err) == (1, ""):
                return Found(how, right.fronts.index(front))
        return Found("bad")

    def tables_fault(self, right: Plain, states: list[int]) -> str:
        """What is wrong of the tables of the file, which are to be those of one of these states of the plain desk."""
        if not self.script.is_kept:
            return ""
        try:
            found = kept_tables(f"{self.folder}/kept.db", "mode=rw")
        except sqlite3.Error as fault:
            return f"the file does not read: {fault}"
        wanted = [right.states[min(state, len(right.lines))] for state in states]
        if found in wanted or found is None and 0 in states:
            return ""
        return unlike(found, wanted[0])

    def look(self, at: int) -> Optional[Found]:
        """What becomes of a run with this request refused. None where that was not made."""
        ran = self.run(self.script.lines, at)
        if ran is None:
            return None
        if self.before and (ran.status, ran.out) == (2, ""):
            return self.not_opened(ran, self.before)
        found = self.how(ran)
        line = found.line
        if found.how == "bad":
            return found._replace(bad=f"{ran}")
        if found.how == "refused 30":
            return self.refused(ran, at, line)
        if found.how == "refused 31" and ran.out != self.right.fronts[line] + STORE + self.right.stopped(line):
            return found._replace(bad=f"{ran}")
        return found._replace(bad=self.tables_fault(self.right, [line] if found.how == "right" else [line, line + 1]))

    def not_opened(self, ran: Ended, before: Tables) -> Found:
        """What becomes of a run that printed nothing, since it could not open the desk that was left, or had just opened it."""
        found = kept_tables(f"{self.folder}/kept.db", "mode=rw")
        is_right = ran.err in [f"tcdesk: cannot use {it}\n" for it in self.cuts] and found in (before, self.right.states[0])
        return Found("left" if found == before else "ended", 0, "" if is_right else f"{ran}, {unlike(found, before)}")

    def refused(self, ran: Ended, at: int, line: int) -> Found:
        """What becomes of a run in which this line was refused 30, and of one with the line written twice."""
        lines, front = self.script.lines, self.right.fronts[line] + MEMORY
        without = self.plain(lines[:line] + lines[line + 1:])
        bad = "" if ran.out == front + (without.behind(line) if line < len(lines) else "") else f"without the line it goes on otherwise: {ran}"
        bad = bad or self.tables_fault(without, [len(lines)])
        if line == len(lines) or bad:
            return Found("refused 30", line, bad)
        again = self.run(lines[:line] + lines[line:line + 1] + lines[line:], at)
        if again != Ended(1, front + self.right.behind(line), ""):
            bad = f"sent again: {again}"
        return Found("refused 30", line, bad or self.tables_fault(self.right, [len(lines)]))


SHARES = 4  # processes


class Share(NamedTuple):
    """What one process tries of a script: each so manyth request, from one on."""
    program: str
    shim: str
    work: str
    script: Script
    part: int

    def tries(self) -> tuple[str, list[Found]]:
        """All runs of this share."""
        with tempfile.TemporaryDirectory(dir=self.work) as folder:
            trial = Trial(self.program, self.shim, folder, self.script)
            step, first = self.script.step, trial.first()
            found: list[Found] = []
            for at in count(first + self.part * step, SHARES * step):
                it = trial.look(at)
                if it is None or sum(bool(it.bad) for it in found) >= MOST_BAD:
                    return self.script.name, found
                found.append(it._replace(bad=it.bad and f"{self.script.name}, request {at}, line {it.line}: {it.bad:.900}"))
        raise AssertionError("the requests for memory have an end")


def never_refused(script: Script, found: list[Found]) -> list[str]:
    """The acts of a script that are carried out, and that no run refused 30, where each request was refused."""
    right = Plain(script.lines, case_files(), script.options)
    refused = {it.line for it in found if it.how == "refused 30"}
    acts = [at for at, line in enumerate(script.lines)
            if not right.reply(at).startswith("refused") and getattr(act_of(line), "word", "") not in QUESTIONS]
    return [f"{script.name}: {script.lines[at]} was never refused 30" for at in acts if at not in refused and script.step == 1]


class Memory(Tried):
    """Memory that is refused."""

    def test_each_request(self) -> None:
        """Each request of each script, and the line that was refused sent again."""
        with tempfile.TemporaryDirectory(prefix="memory-", dir=quick_folder()) as work, ProcessPoolExecutor(SHARES) as pool:
            shim = made_shim("fail_malloc", work)
            shares = [Share(ASKED.program, shim, work, it, part) for it in scripts() for part in range(SHARES)]
            told = list(pool.map(Share.tries, shares))
        faults: list[str] = []
        for script in scripts():
            found = [it for name, list_ in told if name == script.name for it in list_]
            hows = Counter(it.how for it in found)
            bad = [it.bad for it in found if it.bad] + never_refused(script, found)
            print(f"memory: {script.name}: {len(found)} requests: {', '.join(f'{hows[it]} {it}' for it in sorted(hows))}; {len(bad)} bad", flush=True)
            wanted = "left" if script.older else "refused 30"
            faults += bad + ([] if hows[wanted] else [f"{script.name}: no run was {wanted}"])
        self.no_faults(faults)
