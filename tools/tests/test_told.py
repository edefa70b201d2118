"""What the program tells a person besides its answers: each line before its answer, which line was refused and why, why something cannot be used, moments that go back,
and that it waits for a script.

All that is compared was written by hand. What the program prints without these options stays as it is: the cases that stand elsewhere look for that.
"""
import os
import pty
import re
import select
import sqlite3
import subprocess
import tempfile
import time
from typing import NamedTuple, Optional, Sequence

from tests.asked import ASKED, TOP
from tests.runs import Ended, Tried

PATIENCE = 300.0
NONE = "places 0: 0 0 0 0 0 0 0 0 0 0 0 0 0 0 0\n"
STACK = "line,apid,service,subtype,target,time,ack,critical,after,outcome\n"
FILES = {
    "bad.csv": f"{STACK}1,x,8,1,,,---c,no,,ok\n",
    "shift.tc": ("# a pass\n100 ann enter 5 ---c no 8 1 - - ok\n\n1O0 ann approve 1\n100 ann stack s1 bad.csv\n100 ann approve 7\n90 ann enter 5 ---c no 8 1 - - ok\n"),
    "lines.tc": "# a pass\n100 ann enter 5 ---c no 8 1 - - ok\n\n1O0 ann approve 1\n100 ann approve 7\n90 ann enter 5 ---c no 8 1 - - ok\n",
    "late.tc": "86400 ann enter 5 ---c no 8 1 - - ok\n",
    "none.tc": "",
    "load.tc": "100 ann places\n100 ann stack s1 missing.csv\n",
    "loads.tc": "100 ann stack s1 bad.csv\n100 ann procedure p1 missing.csv\n1O0 ann stack s1 bad.csv\n",
    "good.csv": f"{STACK}1,5,8,1,,,---c,no,,ok\n2,5,8,1,,,---c,no,1,ok\n",
    "steps.csv": "step,text,second,request\n1,check power,yes,\n",
    "causes.tc": "".join(f"100 {line}\n" for line in (
        "ann stack s1 good.csv", "ann procedure p1 steps.csv", "ann enter 5 ---c no 8 1 - - ok", "bob approve 1", "bob approvestack s2", "ann release 3", "bob approve 3",
        "bob approve 3", "bob approvestack s1", "ann initiate none", "ann release 2", "ann initiate none", "ann set vs 3", "ann set k 255", "ann clock 50", "ann clock 40", "ann begin p1",
        "ann step 1 1 done -", "ann step 1 1 done ann", "ann begin p2", "ann log 2", "ann withdraw 3", "ann withdraw 3", "ann close 3")),
    "back.tc": "".join(f"{at} ann enter 5 ---c no 8 1 - - ok\n" for at in (200, 100, 150)),
    "named.tc": "100 ann enter 5 a--c no 11 4 1;1 600;700 ok\n",
    **{f"{name}.csv": f"{STACK}1,5,8,1,,,a--c,no,,ok\n2,5,11,4,1,{time},---c,no,,ok\n" for name, time in (
        ("offset", "2031-01-01T10:00:00"), ("slashes", "01/01/2031 10:00"), ("year", "2100-01-01T00:00:00Z"), ("times", "2031-01-01T10:00:00Z;2031-01-01T11:00:00Z"))},
    "eight.csv": STACK + "".join(f"{line},5,8,1,,,a--c,no,,ok\n" for line in range(1, 9))
                 + "9,5,11,4,1;2;3;4;5;6;7;8," + ";".join(f"2031-01-01T10:0{at}:00Z" for at in range(7)) + ";2031-01-01,---c,no,,ok\n",
    "quote.csv": f'{STACK}1,5,8,1,,,---c,no,,ok\n2,5,8,2,"x,,---c,no,,ok\n3,5,8,3,,,---c,no,,ok\n',
    "text.db": "no database" * 200,
    "empty.db": "",
}
SHOWN = """\
> 100 ann enter 5 ---c no 8 1 - - ok
ok request 1 5/0
move 1 100 ann 1 - Entered enter
> 1O0 ann approve 1
refused 1 BadText
"""


class Case(NamedTuple):
    """Words of the command line, and how the program has to end: a part of standard error by its lines."""
    words: str
    status: int
    out: Optional[str]
    err: str


def lines_of(*lines: str) -> str:
    """Lines, each ended by LF."""
    return "".join(f"{line}\n" for line in lines)


def cannot(what: str, why: str = "") -> str:
    """What is said of what cannot be used."""
    return lines_of(f"tcdesk: cannot use {what}", *([f"tcdesk: because {why}"] if why else []))


FILE, FOLDER, NO_NAME = "there is no such file", "it is a folder", "it is no name of a file"
SPECIAL, NO_DATABASE, FOREIGN = "it is a pipe, a socket or a device", "it is no database, or a damaged one", "its tables are not a desk's"
LATER, DAMAGED = "its tables are of a newer schema, which a later program made", "it tells what no desk could have written"
NAMES, JOURNAL = "it has two names, or its log has", "SQLite left a journal beside it, which sqlite3 has to play back"
LONG = "n" * 252  # a name that a file may have, and a log beside it may not
REASONS = [
    Case("run missing.tc", 2, "", cannot("missing.tc", FILE)),
    Case("run none/missing.tc", 2, "", cannot("none/missing.tc", FILE)),
    Case("run text.db/none.tc", 2, "", cannot("text.db/none.tc", "there is no such folder")),
    Case("run folder", 2, "", cannot("folder", FOLDER)),
    Case("run long.tc", 2, "", cannot("long.tc", "it has more than 1048576 bytes")),
    Case("run load.tc", 2, NONE, cannot("missing.csv", FILE)),
    Case("check script missing.tc", 2, "", cannot("missing.tc", FILE)),
    Case("check script folder", 2, "", cannot("folder", FOLDER)),
    Case("check stack missing.csv", 2, "", cannot("missing.csv", FILE)),
    Case("check procedure folder", 2, "", cannot("folder", FOLDER)),
    Case("run --db folder none.tc", 2, "", cannot("folder", FOLDER)),
    Case("run --db none/desk.db none.tc", 2, "", cannot("none/desk.db", "there is no such folder")),
    Case("run --db :memory: none.tc", 2, "", cannot(":memory:", NO_NAME)),
    Case("run --db  none.tc", 2, "", cannot("", NO_NAME)),
    Case("run --db dangling none.tc", 2, "", cannot("dangling")),
    Case(f"run --db {LONG} none.tc", 2, "", cannot(LONG)),
    Case(f"run --db {LONG} none.tc", 2, "", cannot(LONG)),
    Case("loop desk.db missing.tc", 2, "", cannot("missing.tc", FILE)),
    Case("report missing.db 0 1", 2, "", cannot("missing.db", FILE)),
    Case("report empty.db 0 1", 2, "", cannot("empty.db", "it is empty")),
    Case("backup missing.db copy.db", 2, "", cannot("missing.db", FILE)),
    Case("backup empty.db copy.db", 2, "", cannot("empty.db", "it is empty")),
    Case("backup late.db ", 2, "", cannot("", NO_NAME)),
    Case("backup late.db none/copy.db", 2, "", cannot("none/copy.db", "there is no such folder")),
]
# What is no desk's file, and why; each command that opens one tells it, but that a report judges no more than that rows read.
NO_DESKS = {
    "folder": FOLDER, "fifo": SPECIAL, "left.db": JOURNAL, "text.db": NO_DATABASE, "foreign.db": FOREIGN, "later.db": LATER, "damaged.db": DAMAGED,
    "wide.db": DAMAGED, "twice.db": NAMES, "logged.db": NAMES,
}
COMMANDS = ("run --db {} none.tc", "loop --w 20 {} none.tc", "serve {} 1", "report {} 0 1", "board {}", "backup {} copy.db")
REASONS += [Case(command.format(name), 2, "", cannot(name, why)) for name, why in NO_DESKS.items() for command in COMMANDS
            if (name, command) != ("damaged.db", "report {} 0 1")]
CAUSES = [
    (4, "13 UnknownStack: the request came with a stack, which is approved as a whole by approvestack"),
    (5, "13 UnknownStack: no stack has this name"),
    (6, "4 NotApproved: the request is not approved yet"),
    (8, "3 WrongPlace: only a request at Entered can be approved"),
    (11, "7 Interlock: the line of the stack that it comes after is not at Completed; of an insert, or the one that an activity comes after"),
    (12, "12 BadDirective: an initiation is taken in S6 alone: link tells the state"),
    (13, "12 BadDirective: V(S) is set in S6 alone: link tells the state"),
    (14, "12 BadDirective: K is more than W / 2"),
    (16, "12 BadDirective: the time is before the spacecraft's"),
    (18, "15 Countersign: the step needs a second person, and none is named"),
    (19, "15 Countersign: the step needs a second person, and the one of the line itself is named"),
    (20, "16 UnknownProcedure: no procedure has this name"),
    (21, "16 UnknownProcedure: no execution has this number"),
    (23, "3 WrongPlace: only a request at Entered or Approved can be withdrawn"),
    (24, "3 WrongPlace: only a request at Confirmed, Riding, Scheduled, Accepted, Started or Doubtful can be closed"),
]
INSTANTS = "not instants of whole seconds from 1970 to 2099 with an offset, such as 2031-05-04T10:00:00Z, parted by ;"
CHECKS = [
    Case("check stack offset.csv", 1, f'line 2, field time: {INSTANTS}: "2031-01-01T10:00:00"\n', ""),
    Case("check stack slashes.csv", 1, f'line 2, field time: {INSTANTS}: "01/01/2031 10:00"\n', ""),
    Case("check stack year.csv", 1, f'line 2, field time: {INSTANTS}: "2100-01-01T00:00:00Z"\n', ""),
    Case("check stack times.csv", 1, 'line 2, field time: not as many instants as targets, parted by ;: "2031-01-01T10:00:00Z;2031-01-01T11:00:00Z"\n', ""),
    Case("check stack eight.csv", 1, f'line 9, field time: {INSTANTS}: "2031-01-01T10:00:00Z;2031-01-01T10:01:00Z;2031-01-01T10:02:00Z;2031-01-01T10:03:00Z;'
         '2031-01-01T10:04:00Z;2031-01-01T10:05:00Z;2031-01-01T10:06:00Z;2031-01-01"\n', ""),
    Case("check stack quote.csv", 1, "line 2: not 10 fields: 5, and a quote stays open to the end of the file\n", ""),
    Case("check script named.tc", 1, 'line 1, word 9: a request that is named twice: "1;1"\n', ""),
    Case("check script back.tc", 0, "ok\nline 2: at 100, before a line at 200\nline 3: at 150, before a line at 200\n", ""),
]
AT = "tcdesk: --at is Unix seconds, 0 to 4102444799 (for now: $(date +%s)), or an instant such as 2031-05-04T10:00:00Z: "
WORDS = [Case(f"{command} --at {word}", 2, "", f"{AT}{word}\n")
         for command in ("run none.tc", "run --db new.db none.tc", "serve new.db 1", "loop new.db none.tc")
         for word in ("now", "2026-11-28", "4102444800", "01", "2026-11-28T10:00:00.5Z", "2100-01-01T00:00:00Z")]
WORDS += [Case("check shift none.tc", 2, "", "tcdesk: KIND is script, stack or procedure: shift\n")]
BEFORE = "tcdesk: opened at {}, before the last move at 86400\n"
NEW_LINK = "tcdesk: opened at {} after 1 moves: the link is new\n"
MOMENTS = [
    Case("run --db late.db none.tc", 0, None, BEFORE.format(0)),
    Case("run --db late.db --at 86399 none.tc", 0, None, BEFORE.format(86399)),
    Case("run --db late.db --at 86400 none.tc", 0, None, ""),
    Case("run --db late.db --at 1970-01-02T00:00:00Z none.tc", 0, None, ""),
    Case("run --db late.db --at 1970-01-02T01:00:00+02:00 none.tc", 0, None, BEFORE.format(82800)),
    Case("run --at 2026-11-28T10:00:00Z none.tc", 0, NONE, ""),
    Case("loop late.db none.tc --at 5", 0, None, BEFORE.format(5)),
    Case("loop late.db none.tc --at 5 --verbose", 0, None, BEFORE.format(5) + NEW_LINK.format(5)),
    Case("loop late.db none.tc --at 86400 --verbose", 0, None, NEW_LINK.format(86400)),
    Case("loop late.db none.tc --at 86400", 0, None, ""),
]


def made(folder: str) -> None:
    """Makes the files of the cases in a folder."""
    os.mkdir(f"{folder}/folder")
    for name, text in FILES.items():
        with open(f"{folder}/{name}", "w", encoding="ascii") as file:
            file.write(text)
    with open(f"{folder}/long.tc", "wb") as large:
        large.truncate(1048577)
    run(folder, ["run", "--db", "late.db", "late.tc"])
    run(folder, ["run", "--db", "later.db", "none.tc"])
    for name in ("damaged.db", "wide.db", "twice.db", "logged.db"):
        run(folder, ["run", "--db", name, "late.tc"])
    os.mkfifo(f"{folder}/fifo")
    for end in ("", "-wal"):
        os.link(f"{folder}/{'logged' if end else 'twice'}.db{end}", f"{folder}/second{end}")
    os.symlink("nowhere/desk.db", f"{folder}/dangling")
    run(folder, ["run", "--db", "left.db", "late.tc"])
    with open(f"{folder}/left.db-journal", "wb") as journal:
        journal.write(b"\xd9" * 512)
    changed(f"{folder}/later.db", "UPDATE meta SET value = 4 WHERE name = 'schema'", "CREATE TABLE news (at INTEGER)")
    changed(f"{folder}/damaged.db", "DELETE FROM move")
    changed(f"{folder}/wide.db", "UPDATE request SET apid = -1")
    changed(f"{folder}/foreign.db", "CREATE TABLE notes (text TEXT)")


def changed(path: str, *statements: str) -> None:
    """Changes a database by SQLite."""
    connection = sqlite3.connect(path)
    for it in statements:
        connection.execute(it)
    connection.commit()
    connection.close()


def run(folder: str, words: Sequence[str]) -> Ended:
    """How the program ends on these words."""
    it = subprocess.run([ASKED.program, *words], cwd=folder, stdin=subprocess.DEVNULL, capture_output=True, timeout=PATIENCE, check=False)
    return Ended(it.returncode, it.stdout.decode("latin-1"), it.stderr.decode("latin-1"))


def differs(case: Case, ended: Ended) -> list[str]:
    """How a case ends otherwise than is wanted."""
    is_right = ended.status == case.status and case.out in (None, ended.out) and ended.err == case.err
    return [] if is_right else [f"{case.words}: wanted {case[1:]}, and got {ended}"]


def on_terminal(folder: str, words: Sequence[str], typed: bytes) -> str:
    """What a terminal shows of the program, once it was typed so and then Ctrl-D."""
    process, screen = pty.fork()
    if process == 0:
        os.chdir(folder)
        os.execv(ASKED.program, [ASKED.program, *words])
    os.write(screen, typed + b"\x04")
    shown, end = b"", time.monotonic() + PATIENCE
    while time.monotonic() < end and select.select([screen], [], [], PATIENCE)[0]:
        try:
            some = os.read(screen, 4096)
        except OSError:
            break
        if not some:
            break
        shown += some
    os.close(screen)
    os.waitpid(process, 0)
    return shown.decode("latin-1").replace("\r\n", "\n")


class Told(Tried):
    """What is told besides the answers."""

    def setUp(self) -> None:
        """A folder with the files of the cases."""
        place = tempfile.TemporaryDirectory(prefix="told-")
        self.addCleanup(place.cleanup)
        self.folder = place.name
        made(self.folder)

    def all_end(self, cases: Sequence[Case]) -> None:
        """Each case ends as is wanted."""
        self.no_faults([fault for it in cases for fault in differs(it, run(self.folder, it.words.split(" ")))])

    def test_reasons(self) -> None:
        """Why something cannot be used stands behind it."""
        self.all_end(REASONS)

    def test_busy(self) -> None:
        """A file that another program has open."""
        held = sqlite3.connect(f"{self.folder}/late.db")
        held.execute("BEGIN EXCLUSIVE")
        busy = cannot("late.db", "another program has it open")
        self.all_end([Case("run --db late.db none.tc", 2, "", busy), Case("report late.db 0 1", 2, "", busy)])
        held.close()

    def test_denied(self) -> None:
        """Files that this user may not read."""
        if os.geteuid() == 0:
            self.skipTest("the root user may read and write all files")
        os.chmod(f"{self.folder}/none.tc", 0)
        os.chmod(f"{self.folder}/late.db", 0o400)
        os.chmod(f"{self.folder}/text.db", 0)
        os.mkdir(f"{self.folder}/shut", 0o500)
        why = "there is no permission for it"
        self.all_end([Case("run none.tc", 2, "", cannot("none.tc", why)), Case("run --db late.db late.tc", 2, "", cannot("late.db", why)),
                      Case("report text.db 0 1", 2, "", cannot("text.db", why)), Case("board text.db", 2, "", cannot("text.db", why)),
                      Case("run --db shut/desk.db late.tc", 2, "", cannot("shut/desk.db", why)), Case("backup late.db shut/copy.db", 2, "", cannot("shut/copy.db", why)),
                      Case("backup text.db copy.db", 2, "", cannot("text.db", why))])

    def test_words(self) -> None:
        """Words of the command line that are wrong."""
        self.all_end(WORDS)

    def test_moments(self) -> None:
        """Openings by instants, and before the last move."""
        self.all_end(MOMENTS)

    def test_echo(self) -> None:
        """Each line that is answered stands before its answer, and else all is printed as ever."""
        for words in (["run"], ["run", "--db", "new.db"]):
            plain, shown = run(self.folder, [*words, "shift.tc"]), run(self.folder, ["run", "--echo", "shift.tc"])
            self.assertEqual((plain.status, plain.out), (shown.status, re.sub("(?m)^> .*\n", "", shown.out)))
        self.assertTrue(shown.out.startswith(SHOWN), shown.out)
        with open(f"{self.folder}/shift.tc", encoding="ascii") as file:
            answered = [line for line in file.read().splitlines() if line and line[0] != "#"]
        self.assertEqual([f"> {line}" for line in answered], [line for line in shown.out.splitlines() if line[0] == ">"])

    def test_loop_echo(self) -> None:
        """A loop shows its lines as a run does."""
        shown, sent = run(self.folder, ["run", "--echo", "lines.tc"]), run(self.folder, ["loop", "new.db", "lines.tc", "--echo"])
        self.assertEqual(shown[:2], sent[:2])

    def test_refusals(self) -> None:
        """Which line was refused, and why, is told where all is to be told, and off a terminal only then; with the lines that go back in time."""
        wanted = lines_of('shift.tc:4: refused 1 BadText: word 1: not a moment, whole Unix seconds from 0 to 4102444799, in plain digits: "1O0"',
                          "shift.tc:5: refused 1 BadText: tcdesk check stack bad.csv tells what is wrong with that file",
                          "shift.tc:6: refused 2 UnknownRequest: no request has this number",
                          "shift.tc:7: at 90, before the last move at 100")
        self.all_end([Case("run shift.tc", 1, None, ""), Case("run --verbose shift.tc", 1, None, wanted)])
        loop = lines_of(*[line.replace("shift.tc:6", "shift.tc:5").replace("shift.tc:7", "shift.tc:6").replace("shift", "lines")
                          for line in wanted.splitlines() if "bad.csv" not in line])
        self.assertEqual("tcdesk: new.db is a new desk\n" + loop, run(self.folder, ["loop", "new.db", "lines.tc", "--verbose"]).err)

    def test_meanings(self) -> None:
        """Of a refusal that has several causes the one is told that the line has."""
        wanted = [f"causes.tc:{at}: refused {what}" for at, what in CAUSES]
        self.all_end([Case("run --verbose causes.tc", 1, None, lines_of(*wanted))])

    def test_checks(self) -> None:
        """What `check` tells is the fault that the file has, and the whole of what was found."""
        self.all_end(CHECKS)

    def test_lines_that_go_back(self) -> None:
        """A line is told that lies before the latest move, and not before the last one alone."""
        self.all_end([Case("run --verbose back.tc", 0, None, lines_of("back.tc:2: at 100, before the last move at 200", "back.tc:3: at 150, before the last move at 200"))])

    def test_loop_loads(self) -> None:
        """A loop loads no file: of a line that would nothing else is told, but where the line is none."""
        wanted = lines_of("tcdesk: new.db is a new desk", "loads.tc:1: refused 1 BadText: a loop loads no stack", "loads.tc:2: refused 1 BadText: a loop loads no procedure",
                          'loads.tc:3: refused 1 BadText: word 1: not a moment, whole Unix seconds from 0 to 4102444799, in plain digits: "1O0"')
        self.all_end([Case("loop new.db loads.tc --verbose", 1, None, wanted)])

    def test_terminal(self) -> None:
        """On a terminal the program says that it waits, and tells which line was refused."""
        waits = "tcdesk: waits for the lines of a script; Ctrl-D at the begin of a line ends it, and tcdesk --help tells the commands\n"
        typed = b"100 ann fly\n"
        typed_to: list[list[str]] = [[], ["run", "-"], ["run", "--echo", "-"]]
        for words in typed_to:
            shown = on_terminal(self.folder, words, typed)
            self.assertIn(waits, shown)
            self.assertIn('-:1: refused 1 BadText: word 3: not an act, a question or a load: "fly"\n', shown)
            self.assertEqual("--echo" in words, "> 100 ann fly\n" in shown)

    def test_usage(self) -> None:
        """The lines of use are true: no command has to be named."""
        self.assertIn("\nUsage: tcdesk [COMMAND]\n", run(self.folder, ["--help"]).out)
        self.assertIn("\nUsage: tcdesk run [OPTIONS] <SCRIPT>\n", run(self.folder, ["run", "--help"]).out)

    def test_examples(self) -> None:
        """The rehearsals of the manual have no line that is none, but for those that are meant to be refused."""
        names = sorted(it for it in os.listdir(f"{TOP}/examples") if it.endswith(".tc"))
        told = {it: run(TOP, ["check", "script", f"examples/{it}"]) for it in names}
        self.assertEqual({}, {name: ended.out for name, ended in told.items() if ended.out != "ok\n"})
