"""What the views of examples/views.sql tell of a desk's file, for whoever reads one with the stock shell.

Python's SQLite reads them, and the shell where it is installed. What `waiting`, `approvals` and `timeline` have to tell of one desk, with something of
each kind, is written out by hand. Of many desks of random days it is told by the plain desk: what a release is refused there is what `waiting` says of
it, and so is all else that it lists.
"""
import random
import shutil
import subprocess
import tempfile
from collections import Counter
from typing import Any, Iterator, Sequence

from generate.days import day_script
from model.book import Book
from model.desk import Desk
from model.facts import Cause, Place, Refusal
from model.kept import connect, tables_of
from model.refused import Refused
from model.report import time_of
from model.rows import Tables, empty_tables
from tests.asked import ASKED, TOP
from tests.made_files import OLDER, make_file, make_older
from tests.runs import Tried, bytes_of, quick_folder, run_kept, write_lines

VIEWS = f"{TOP}/examples/views.sql"
SEED, DESKS, DAYS = 20311201, 12, 4
Row = Sequence[Any]

# ---- one desk, by hand

STACK = """\
line,apid,service,subtype,target,time,ack,critical,after,outcome
1,7,8,1,,,a---,no,,ok
2,7,8,2,,,a---,yes,1,ok
3,7,8,3,,,a---,no,2,ok
4,7,11,4,2;1;3,1970-01-01T01:00:00Z;1970-01-01T01:00:00Z;1970-01-01T01:00:00Z,---c,no,1,ok
"""
SPARE = "line,apid,service,subtype,target,time,ack,critical,after,outcome\n1,9,3,1,,,----,no,,ok\n2,9,3,2,,,a---,no,,ok\n"
STEPS = "step,text,second,request\n1,look,no,\n2,\"switch on, slowly\",yes,1\n3,look again,yes,\n"
# Requests 1 to 4 are the stack heater's, 5 and 6 spare's; 7 is approved once of twice, 8 by nobody; 9 is in doubt; 10 inserts 11, which is withdrawn, and 12.
DAY = """\
90 ann stack heater heater.csv
91 eve stack spare spare.csv
92 bob approvestack heater
93 eve approvestack heater
94 eve withdraw 5
100 ann enter 5 a--c yes 8 1 - - ok
100 bob enter 5 a--c no 8 2 - - ok
100 bob enter 5 a--c no 8 3 - - ok
100 ann enter 6 ---c no 11 4 1;6 9000;9000 ok
100 ann enter 5 a--c no 8 5 - - ok
100 ann enter 5 a--c no 8 6 - - ok
101 eve enter 6 ---c no 11 4 11;3;12 9000;9000;9000 ok
110 cid approve 7
111 ann approve 9
112 bob approve 10
113 cid approve 11
114 bob approve 13
120 ann withdraw 11
130 ann procedure power power.csv
131 ann begin power
132 bob begin power
133 cid begin power
134 dan begin power
140 ann initiate none
150 bob step 1 1 done -
151 ann step 2 1 failed -
152 cid step 3 1 done -
153 cid step 3 2 skipped bob
154 cid step 3 3 done ann
160 bob release 9
86400 bob terminate
""".splitlines()
HAND = {
    "waiting": """\
approval|stack spare|eve|no|0|1||1 of its requests, from 6 on
approval|request 7|ann|yes|1|2|cid|
approval|request 8|bob|no|0|1||
approval|request 12|ann|no|0|1||
release|request 1|ann|no||||free
release|request 2|ann|yes||||locked by line 1 of heater, request 1 at Approved
release|request 3|ann|no||||locked by line 2 of heater, request 2 at Approved
release|request 4|ann|no||||locked by line 1 of heater, request 1 at Approved; locked by line 2 of heater, request 2 at Approved
release|request 10|ann|no||||its activity 6 is at Entered
release|request 13|eve|no||||locked by line 2 of heater, request 2 at Approved; its activity 11 is at Withdrawn; its activity 12 is at Entered
doubt|request 9|bob|no||||since 1970-01-02 00:00:00
step|execution 1|ann|||||step 2 of power, with a second person, releases request 1: switch on, slowly
step|execution 4|dan|||||step 1 of power: look
""",
    "approvals": """\
request|7|ann|1 of 2|cid|
request|9|bob|1 of 1|ann|1970-01-01 00:01:51
request|10|ann|1 of 1|bob|1970-01-01 00:01:52
request|11|ann|1 of 1|cid|1970-01-01 00:01:53
request|13|eve|1 of 1|bob|1970-01-01 00:01:54
stack|heater|ann|1 of 2|bob|
stack|heater|ann|2 of 2|eve|1970-01-01 00:01:33
""",
    "timeline WHERE request = 9": """\
14|1970-01-01 00:01:40|bob|9|-|Entered|enter
19|1970-01-01 00:01:51|ann|9|Entered|Approved|approve
24|1970-01-01 00:02:40|bob|9|Approved|Queued|release
25|1970-01-01 00:02:40|bob|9|Queued|Sent|transmit
26|1970-01-02 00:00:00|bob|9|Sent|Doubtful|doubt
""",
}


# ---- what the plain desk tells

def locks_of(book: Book, number: int) -> str:
    """Why the book refuses the release of a request, all that stands against it; free where nothing does."""
    told, going = list[str](), (number, *book.activities(number))
    for it in (book.requests[at - 1] for at in going):
        if book.is_held(it.number):
            before = book.stacks[it.stack].numbers[it.after - 1]
            told.append(f"locked by line {it.after} of {it.stack}, request {before} at {book.place(before).word}")
    told += [f"its activity {at} is at {book.place(at).word}" for at in going[1:] if book.place(at) is not Place.APPROVED]
    return "; ".join(dict.fromkeys(told)) or "free"


def refusal_of(desk: Desk, number: int) -> int:
    """What a release is refused by the book, 0 where by nothing of it: a link that takes none does not count."""
    try:
        desk.check_release(number)
    except Refused as why:
        return 0 if why.number in (Refusal.SERVICE_NOT_ACTIVE, Refusal.WAIT_QUEUE_FULL) else int(why.number)
    return 0


def approvals_wanted(book: Book) -> Iterator[tuple[int, Row]]:
    """What waits for an approval, each behind its number or that of its first row that does."""
    for it in book.requests:
        if not it.stack and book.place(it.number) is Place.ENTERED:
            given, critical = book.approvers[it.number], it.form.is_critical
            yield it.number, ("approval", f"request {it.number}", it.author, "yes" if critical else "no", len(given), 1 + critical,
                              " ".join(given) or None, "")
    for name, stack in book.stacks.items():
        rows = [it for it in stack.numbers if book.place(it) is Place.ENTERED]
        if rows:
            yield rows[0], ("approval", f"stack {name}", stack.author, "yes" if stack.wanted == 2 else "no", len(stack.approvers), stack.wanted,
                            " ".join(stack.approvers) or None, f"{len(rows)} of its requests, from {rows[0]} on")


def steps_wanted(book: Book) -> Iterator[Row]:
    """The executions that have not ended, with their next steps."""
    for it in book.executions:
        at = book.next_step(it)
        if at:
            step = book.procedures[it.procedure].steps[at - 1]
            more = ", with a second person" * step.is_countersigned + (f", releases request {step.request}" if step.request else "")
            yield "step", f"execution {it.number}", it.by, None, None, None, None, f"step {at} of {it.procedure}{more}: {step.text}"


def waiting_of(book: Book) -> list[Row]:
    """All rows of `waiting`."""
    def of(waits_for: str, number: int, told: str) -> Row:
        """A row of a request that waits for no approval."""
        it = book.requests[number - 1]
        return waits_for, f"request {number}", it.author, "yes" if it.form.is_critical else "no", None, None, None, told

    def at(place: Place) -> list[int]:
        """The requests that stand there."""
        return [it.number for it in book.requests if book.place(it.number) is place]

    return [row for _, row in sorted(approvals_wanted(book))] + [of("release", it, locks_of(book, it)) for it in at(Place.APPROVED)] + [
        of("doubt", it, f"since {time_of(book.last[it - 1].moment)}") for it in at(Place.DOUBTFUL)] + list(steps_wanted(book))


def approvals_of(book: Book) -> list[Row]:
    """All rows of `approvals`."""
    moments = {it.request: it.moment for it in book.history if it.cause == Cause.APPROVE}
    rows: list[Row] = []
    for number, persons in sorted(book.approvers.items()):
        it = book.requests[number - 1]
        wanted = 1 + it.form.is_critical
        rows += [("request", number, it.author, f"{at} of {wanted}", by, time_of(moments[number]) if at == wanted else None)
                 for at, by in enumerate(persons, 1)]
    for name, stack in sorted(book.stacks.items()):
        moved = [moments[it] for it in stack.numbers if it in moments]
        rows += [("stack", name, stack.author, f"{at} of {stack.wanted}", by, time_of(moved[0]) if moved and at == stack.wanted else None)
                 for at, by in enumerate(stack.approvers, 1)]
    return rows


def timeline_of(book: Book) -> list[Row]:
    """All rows of `timeline`."""
    return [(it.seq, time_of(it.moment), it.person, it.request, Place(it.from_place).word, Place(it.to_place).word, Cause(it.cause).word)
            for it in book.history]


# ---- the tests

def text_of(rows: Sequence[Row]) -> str:
    """Rows as the shell prints them."""
    return "".join("|".join("" if it is None else str(it) for it in row) + "\n" for row in rows)


def read(path: str, *views: str) -> list[list[Row]]:
    """What each of these views tells of a file, which is only read."""
    connection = connect(path, "mode=ro")
    try:
        connection.executescript(bytes_of(VIEWS).decode())
        return [connection.execute(f"SELECT * FROM {it}").fetchall() for it in views]
    finally:
        connection.close()


class Views(Tried):
    """The views, on files that no desk has open."""

    def setUp(self) -> None:
        """A folder for files."""
        work = tempfile.TemporaryDirectory(prefix="views-", dir=quick_folder())
        self.addCleanup(work.cleanup)
        self.folder = work.name

    def test_written(self) -> None:
        """The desk that is written out above, by Python's SQLite and by the shell; and its file stays as it is."""
        for name, text in (("heater", STACK), ("spare", SPARE), ("power", STEPS)):
            write_lines(f"{self.folder}/{name}.csv", text.splitlines())
        write_lines(f"{self.folder}/day.tc", DAY)
        ran = run_kept(ASKED.program, self.folder, "desk.db", 0, "day.tc")
        self.assertEqual((0, ""), (ran.status, ran.errors), ran.lines)
        path = f"{self.folder}/desk.db"
        before = bytes_of(path)
        for view, rows in zip(HAND, read(path, *HAND)):
            self.assertEqual(HAND[view], text_of(rows), view)
        if shutil.which("sqlite3"):
            words = ["sqlite3", "-readonly", path, "-cmd", f".read {VIEWS}", *(f"SELECT * FROM {it}" for it in HAND)]
            told = subprocess.run(words, capture_output=True, text=True, check=False)
            self.assertEqual(("".join(HAND.values()), ""), (told.stdout, told.stderr))
        else:
            print("not tried: the views by the shell sqlite3, which is not installed")
        self.assertEqual(before, bytes_of(path), "the file is another")

    def test_earlier(self) -> None:
        """Files of earlier versions: what they have tables for is read."""
        for older in OLDER:
            path = f"{self.folder}/{older.name}{older.version}.db"
            make_older(path, older)
            with connect(path, "mode=ro") as connection:
                moves = len(tables_of(connection).move)
            told = read(path, "requests", "counts", "approvals", "timeline")
            self.assertEqual(moves, len(told[3]), older)

    def faults_of(self, tables: Tables, desk: Desk, counts: Counter[str]) -> list[str]:
        """How the views of a file with these tables, which are the desk's, differ from what the desk tells. Each row that waits is counted by its kind."""
        path = f"{self.folder}/random.db"
        make_file(path, tables)
        book, names = desk.book, ("waiting", "approvals", "timeline")
        got, wanted = read(path, *names), (waiting_of(book), approvals_of(book), timeline_of(book))
        faults = [f"{name}:\n-- wanted:\n{text_of(want)}-- got:\n{text_of(rows)}" for name, want, rows in zip(names, wanted, got) if list(want) != rows]
        for row in got[0]:
            refusal = refusal_of(desk, int(row[1].split()[1])) if row[0] == "release" else 0
            says = 0 if row[7] == "free" else 7 if "locked" in row[7] else 19
            counts[row[0] + (f" {refusal}" if row[0] == "release" else "")] += 1
            faults += [f"{row}: a release is refused {refusal}"] if row[0] == "release" and says != refusal else []
        counts["approval of more"] += sum(row[0] == "approval" and row[4] > 0 for row in got[0])
        counts["countersigned"] += sum("second person" in row[7] for row in got[0])
        counts["releasing step"] += sum(row[0] == "step" and "releases" in row[7] for row in got[0])
        return faults

    def test_random(self) -> None:
        """Desks of random days, after each day."""
        first, count = ASKED.seed_or(SEED), ASKED.count_or(DESKS)
        faults, counts = list[str](), Counter[str]()
        for seed in range(first, first + count):
            dice, tables = random.Random(seed), empty_tables()
            for day in range(1, DAYS + 1):
                script = day_script(dice, tables, day * 1000, day)
                tables = script.desk.tables()
                faults += [f"seed {seed}, day {day}: {it}" for it in self.faults_of(tables, script.desk, counts)]
        print(f"views: {count * DAYS} desks, {', '.join(f'{counts[it]} {it}' for it in sorted(counts))}, {len(faults)} differ")
        self.no_faults(faults[:5])
        if ASKED.is_whole:
            wanted = ("approval", "approval of more", "release 0", "release 7", "release 19", "doubt", "step", "countersigned", "releasing step")
            self.assertEqual([], [it for it in wanted if counts[it] == 0], "what no desk had")
