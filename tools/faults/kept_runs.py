"""Runs of the built program on desks that are kept in a file, whose calls on that file are stopped or fail (tools/faults/stop_io.c), and what of
them is right: all of it by the plain desk, which asks the program nothing.
"""
import os
import shutil
import subprocess
import tempfile
from dataclasses import replace
from typing import NamedTuple, Optional, Sequence

from generate.texts import joined
from model.facts import MOST_ROWS, MOST_STEPS, PROCEDURE_HEADER, SCHEMA_VERSION, STACK_HEADER
from model.kept import sqlite3
from model.rows import Reply, Tables, empty_tables
from tests.made_files import EARLIER, as_version, make_file, some_replies
from tests.new_desks import holds_no_table, new_desk, without_beside
from tests.plain_runs import Plain, case_lines, kept_tables, text_of, unlike
from tests.runs import made_shim, write_files

# When the desk is left, when the run opens it that is stopped or fails, and when it is opened again.
LEFT, OPENED, AGAIN = 100, 1000, 9000
REPLIES = 120  # of a desk of an earlier version: more than a page of 100, in which an opening reads them


class Run(NamedTuple):
    """A run: its lines, each without its moment, and those that made the desk before it (none: there is no file)."""
    name: str
    left: tuple[str, ...]
    lines: tuple[str, ...]
    # How many requests were entered before.
    requests: int = 0
    # Whether the desk before it was stopped too, with all its rows in the log.
    is_left_open: bool = False
    # Of which version of the schema the desk before it is: one of an earlier version is made by SQLite, with replies where that has a table of them.
    version: int = SCHEMA_VERSION
    # How many replies of a page each the desk before it has, which is made by SQLite then.
    pages: int = 0

    @property
    def is_older(self) -> bool:
        """Whether the desk before it is of an earlier version."""
        return self.version in EARLIER


# Requests that were never on their way: 1 and 2 are approved, 3 is not.
QUIET = (
    "ann enter 5 a--c no 8 1 - - ok",
    "ann enter 5 a--c no 8 2 - - ok",
    "ann enter 5 a--c no 8 3 - - ok",
    "bob approve 1",
    "bob approve 2",
)

# Request 1 is Scheduled, 5 and 6 Sent, 9 Queued; 4 and 3 ride in 5, 8 and 7 in 9.
ON_THE_WAY = (
    "ann enter 5 a--c no 8 1 - - ok",
    "ann enter 5 ---c no 11 4 1 600 ok",
    "ann enter 5 a--c no 8 1 - - ok",
    "ann enter 5 a--c no 8 1 - - ok",
    "ann enter 5 ---c no 11 4 4;3 700;800 ok",
    "ann enter 5 a--c no 8 1 - - ok",
    "ann enter 5 a--c no 8 1 - - ok",
    "ann enter 5 a--c no 8 1 - - ok",
    "ann enter 5 ---c no 11 4 8;7 700;800 ok",
    *(f"bob approve {request}" for request in range(1, 10)),
    "ann initiate none",
    "ann set k 3",
    "ann release 2",
    "ann up",
    "ann work",
    "ann down",
    "ann release 5",
    "ann release 6",
    "ann release 9",
)
ON_THE_WAY_REQUESTS = 9

# One act at least of each kind that writes rows.
ACTS = (
    "ann enter 5 a--c no 8 4 - - ok",
    "bob approve 4",
    "ann initiate none",
    "ann release 4",
    "ann up",
    "ann work",
    "ann down",
    "ann stack some some.csv",
    "bob approvestack some",
    "ann procedure warm warm.csv",
    "ann begin warm",
    "ann step 1 1 done -",
    "ann step 1 2 done bob",
    "ann terminate",
    "ann close 1",
    "ann withdraw 3",
    "ann set t1 1",
    "ann set limit 1",
    "ann initiate none",
    "ann release 2",
    "ann tick",
)

STACK = "ann stack many many.csv"
PROCEDURE = "ann procedure long long.csv"


def of_case(name: str) -> tuple[str, ...]:
    """The lines of a script of tools/cases, without their moments."""
    return tuple(line.split(" ", 1)[1] for line in case_lines(name))


RUNS = (
    Run("a desk that is made", (), ()),
    Run("the opening of a desk with requests on their way", ON_THE_WAY, (), ON_THE_WAY_REQUESTS),
    Run("the opening of one that was stopped", ON_THE_WAY, (), ON_THE_WAY_REQUESTS, is_left_open=True),
    *(run for version in EARLIER for run in (
        Run(f"the opening of one of version {version}", ON_THE_WAY, ("ann close 1", "bob withdraw 2"), ON_THE_WAY_REQUESTS, version=version),
        Run(f"the opening of one of version {version} that moves nothing", QUIET, (), 3, version=version),
        Run(f"the opening of one of version {version} that was stopped", ON_THE_WAY, (), ON_THE_WAY_REQUESTS, is_left_open=True, version=version))),
    Run("a script of several acts", QUIET, ACTS, 3),
    Run("an insert", (), of_case("insert")),
    Run("an insert of two", (), of_case("two-activities")),
    Run("an insert of two, one of which comes too early", (), of_case("two-activities-too-early")),
    Run(f"the load of {MOST_ROWS} rows", QUIET, (STACK, "bob approvestack many"), 3),
    Run(f"the load of {MOST_STEPS} steps", QUIET, (PROCEDURE, "ann begin long"), 3),
)

# Questions, and acts, over a file of more pages than the 2,000 that the program holds in memory: the last that its opening read are held in place of those of
# the moves, of the counts and of the requests, so that what asks for these reads the file.
READING = Run("questions and acts that read the file", QUIET,
              ("zed history 1 0", "zed places", "ann enter 5 a--c no 8 4 - - ok", "bob approve 4", "zed history 4 0"), 3, pages=2200)


def stack_of(rows: int) -> bytes:
    """The text of a stack of so many rows, each of which waits for the one before it. Each tenth inserts the eight before it."""
    made = [f"{row},{6 + row % 3},8,{row},,,a--c,no,{row - 1 or ''},ok" for row in range(1, rows + 1)]
    for row in range(10, rows + 1, 10):
        named, times = joined(str(row - at) for at in range(8, 0, -1)), joined(["1970-01-01T00:10:00Z"] * 8)
        made[row - 1] = f"{row},9,11,4,{named},{times},---c,no,{row - 1},ok"
    return text_of([STACK_HEADER, *made]).encode()


def page_replies(count: int) -> list[Reply]:
    """So many replies, each so long that a page of the file takes one of them."""
    return [Reply("ann", number, "x" * 3899 + "\n") for number in range(1, count + 1)]


def procedure_of(steps: int) -> bytes:
    """The text of a procedure of so many steps, of which the second is done by two, and releases request 1."""
    made = [f"{step},check what number {step} shows,{'yes,1' if step == 2 else 'no,'}" for step in range(1, steps + 1)]
    return text_of([PROCEDURE_HEADER, *made]).encode()


FILES = {"some.csv": stack_of(12), "many.csv": stack_of(MOST_ROWS), "warm.csv": procedure_of(3), "long.csv": procedure_of(MOST_STEPS)}


class Ended(NamedTuple):
    """How the program ended, and whether it said first that its desk is a new one, with what it said besides."""
    status: int
    out: str
    err: str
    is_new: bool = False


class Seen(NamedTuple):
    """What is seen of a desk when it is opened again: the run of its questions, and the tables that the file alone has then."""
    ran: Ended
    tables: Optional[Tables]
    fault: str = ""

    def unlike(self, right: "Seen") -> str:
        """In what this is not what is right, in words."""
        if self.ran.status != right.ran.status or self.ran.err or self.fault or right.tables is None:
            return f"it is not opened: {self.ran}, {self.fault}"
        return unlike(self.tables, right.tables) or f"it prints {self.ran.out!r}, and not {right.ran.out!r}"


class Desks:
    """The folder in which desks are made, run and stopped, and the program that does it."""

    def __init__(self, work: str, program: str) -> None:
        """The library that stops the program, or fails its calls, is made in this folder, and the files that its lines load are put there."""
        self.work, self.program, self.shim = work, program, made_shim("stop_io", work)
        write_files(work, FILES)

    def run(self, folder: str, script: str, moment: int, **settings: str) -> Ended:
        """Runs a script on the desk of a folder."""
        database = f"{folder}/desk.db"
        words = [self.program, "run", "--db", database, "--at", str(moment), script]
        own = dict(os.environ, LD_PRELOAD=self.shim, STOP_FILE=database, **settings)
        it = subprocess.run(words, env=own, cwd=self.work, stdin=subprocess.DEVNULL, capture_output=True, timeout=600, check=False)
        err, line = without_beside(it.stderr.decode("latin-1")), new_desk(database)
        return Ended(it.returncode, it.stdout.decode("latin-1"), err.removeprefix(line), err.startswith(line))

    def calls(self, folder: str, script: str, moment: int, **settings: str) -> int:
        """How many calls a run makes that is not stopped."""
        told = self.run(folder, script, moment, STOP_AT="0", **settings).err.strip()
        if not told.isdigit() or told == "0":
            raise AssertionError(f"the program's calls on its files are not seen: {told}")
        return int(told)


def with_moment(moment: int, lines: tuple[str, ...]) -> list[str]:
    """Lines that all have one moment."""
    return [f"{moment} {line}" for line in lines]


class Trial:
    """One run, and what its desk is where nothing disturbs it, by the plain desk, in each state: before the opening, after that, and after each line.
    `fronts` has what is printed up to there, `states` the tables."""

    def __init__(self, desks: Desks, run: Run) -> None:
        self.desks, self.run = desks, run
        self.folder = tempfile.mkdtemp(dir=desks.work)
        lines = with_moment(OPENED, run.lines)
        self.script = self.script_of("script", lines)
        self.asked = with_moment(AGAIN, ("zed places", *(f"zed history {request} 0" for request in range(1, run.requests + 1))))
        self.questions = self.script_of("questions", self.asked)
        before = self.plain_left()
        self.plain = Plain(lines, FILES, left=before, moment=OPENED, is_kept=True)
        self.fronts = ["", *self.plain.fronts]
        self.states = [before or empty_tables(), *self.plain.states]
        self.is_new = before is None
        self.rights: dict[int, Seen] = {}
        self.left = self.make_left()

    def script_of(self, name: str, lines: list[str]) -> str:
        """Writes a script, and gives its path."""
        with open(f"{self.folder}/{name}", "w", encoding="latin-1", newline="") as file:
            file.write(text_of(lines))
        return file.name

    def plain_left(self) -> Optional[Tables]:
        """The tables of the desk that the run begins with; none where there is none."""
        left = Plain(with_moment(LEFT, self.run.left), FILES, is_kept=True).states[-1] if self.run.left else None
        if left and self.run.pages:
            return replace(left, reply=page_replies(self.run.pages))
        return as_version(replace(left, reply=some_replies(REPLIES)), self.run.version) if left and self.run.is_older else left

    def right_of(self, state: int) -> Seen:
        """What has to be seen of a desk that was left in this state, or in the last, and is opened again."""
        state = min(state, len(self.states) - 1)
        if state not in self.rights:
            asked = Plain(self.asked, FILES, left=self.state(state), moment=AGAIN, is_kept=True)
            self.rights[state] = Seen(Ended(asked.status, asked.whole, ""), asked.states[-1])
        return self.rights[state]

    def empty(self) -> str:
        """A new folder."""
        return tempfile.mkdtemp(dir=self.folder)

    def copy(self) -> str:
        """A new folder with a copy of the desk that the run begins with."""
        return str(shutil.copytree(self.left, self.empty(), dirs_exist_ok=True))

    def make_left(self) -> str:
        """Makes the desk that the run begins with, and gives its folder."""
        folder = self.empty()
        if not self.run.left:
            return folder
        if self.run.is_older or self.run.pages:
            make_file(f"{folder}/desk.db", self.states[0], self.run.is_left_open)
            return folder
        script = self.script_of("before", with_moment(LEFT, self.run.left))
        ran = self.desks.run(folder, script, LEFT)
        if ran.status or ran.err or not ran.is_new:
            raise AssertionError(f"a run that was not stopped: {ran}")
        return self.left_open(script) if self.run.is_left_open else folder

    def left_open(self, script: str) -> str:
        """A desk that was stopped at the first call after its last answer: its rows are in the log alone."""
        found = ""
        for at in range(self.desks.calls(self.empty(), script, LEFT), 0, -1):
            folder = self.empty()
            if "places" not in self.desks.run(folder, script, LEFT, STOP_AT=str(at)).out:
                return found
            found = folder
        raise AssertionError("no stop comes before the last answer")

    def is_told(self, ran: Ended) -> bool:
        """Whether a run said that its desk is a new one exactly where it was. One that ended before it printed anything may have made none yet."""
        return ran.is_new == self.is_new or not (ran.is_new or ran.out)

    def state(self, number: int) -> Tables:
        """The tables of this state, or of the last."""
        return self.states[min(number, len(self.states) - 1)]

    def lies(self, folder: str) -> Tables:
        """The tables of the desk in a folder as they lie there, in the file and in the log beside it; those of an empty desk where one is made and there is no
        table yet. It raises sqlite3.Error where they are no desk's."""
        if self.is_new and holds_no_table(f"{folder}/desk.db"):
            return empty_tables()
        copy = str(shutil.copytree(folder, self.empty(), dirs_exist_ok=True))
        try:
            found = kept_tables(f"{copy}/desk.db", "mode=rw")
        finally:
            shutil.rmtree(copy)
        if found is None:
            raise sqlite3.DatabaseError("there is no table")
        return found

    def verdict(self, folder: str, ran: Ended, states: Sequence[int]) -> str:
        """What a run left that was disturbed once it had come to one of these states: the tables of such a one (before), of the state behind them (after), or of
        either, by what lies in the folder and by what is seen of it when it is opened again. Of anything else, what it is."""
        try:
            lies = self.lies(folder)
        except sqlite3.Error as why:
            return f"what it left does not read: {why}"
        # The last that was answered, and the next, which may have been in progress. An opening that moves nothing prints nothing.
        next_ = states[-1] + 1
        found, before, after = self.again(folder, ran), self.right_of(states[-1]), self.right_of(next_)
        was = {it for it in (*states, next_) if lies == self.state(it) and found == self.right_of(it)}
        if was:
            return "either" if next_ in was and len(was) > 1 else "after" if next_ in was else "before"
        return (f"after {ran.out[-60:]!r}: not as before the act, {unlike(lies, self.state(states[-1]))}, {found.unlike(before)}; nor as after it,"
                f" {unlike(lies, self.state(next_))}, {found.unlike(after)}")

    def again(self, folder: str, ran: Ended) -> Seen:
        """Opens the desk that this run left in a folder once more, tells what is seen of it, and removes the folder. Of a desk that is made a run may leave no
        table, and then this one says that it is new, or those of an empty desk. Where the run said so itself its tables have to stand."""
        is_new = holds_no_table(f"{folder}/desk.db")
        again = self.desks.run(folder, self.questions, AGAIN)
        fault = "" if again.is_new == is_new and not (is_new and (ran.is_new or not self.is_new)) else f"new: {is_new}, said {ran.is_new}, {again.is_new}"
        try:
            seen = Seen(again._replace(is_new=False), kept_tables(f"{folder}/desk.db", "mode=ro&immutable=1"), fault)
        except sqlite3.Error as why:
            seen = Seen(again, None, str(why))
        shutil.rmtree(folder)
        return seen

    def answered(self, out: str) -> list[int]:
        """The states up to which a run printed exactly this."""
        if out == self.plain.whole:
            return [len(self.fronts) - 1]
        return [state for state, front in enumerate(self.fronts) if front == out]
