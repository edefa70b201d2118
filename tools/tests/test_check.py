"""Texts of stacks and of procedures, checked by `tcdesk check`.

All that the program prints is compared with what model/check.py tells, a reading of the rules that asks the program nothing: of texts that were written by hand
(check_texts.py, tools/cases/checks/), beside each of which stands how its first line has to begin, written by hand too; and of random texts by
their numbers (check_random.py). Its status has to be 0 or 1, standard error empty, and the file as before. A
share of the texts comes by the standard input too, and of a share the load is tried, by a script: it has to be refused where the check finds a
fault, as the rule says, and else not. Then the words of the command line, files that give no text, and outputs that take none. Where all are
run, each line has to be told of some random texts.

Lines of scripts, written by hand in tools/cases/checks/scripts.txt, and lines of tools/cases with a word changed, are told by model/script_check.py as it was written, and as model/lines.py reads them: a
line is told exactly where that reading refuses it.

Not known to the reading, and not tried, is what may stand in brackets behind an instant (RFC 9557), but for the name of a time zone.
"""
import os
import re
import shutil
import signal
import subprocess
import tempfile
from collections import Counter
from concurrent.futures import ProcessPoolExecutor
from functools import partial
from random import Random
from subprocess import PIPE
from typing import NamedTuple, Union

from generate.check_random import random_text
from generate.check_texts import NO_STACK, ROW, STACK, Text, all_texts, bytes_of, listed
from model.check import OPEN_QUOTE, Told, told_of
from model.desk import Desk
from model.facts import Refusal
from model.lines import is_answered, read_line
from model.refused import Refused
from model.script_check import fault_of, script_told
from tests.asked import ASKED
from tests.runs import Tried

TEXTS, LEAST, LONGEST = 6000, 20, 300
WORDS = ["-", "0", "1", "11", "4", "256", "yes", "no", "ok", "---c", "aspc", "ann", "desk", "done", "places", "setvr", "vs", "1;2", "100;100", "-5", "", "x"]
LOAD_EACH, INPUT_EACH = 3, 7
# All lines that may be told, N being the number of a row; each has to be met by random texts.
LINES = """\
stack ok
stack file: more than 65536 bytes
stack line 201: more than 200 lines
stack header: not line,apid,service,subtype,target,time,ack,critical,after,outcome
stack line 1: missing
stack line N: not 10 fields
stack line N, field line: not the number of the line
stack line N, field apid: not 0 to 2047 in plain digits
stack line N, field service: not 1 to 255 in plain digits
stack line N, field subtype: not 1 to 255 in plain digits
stack line N, field subtype: not 1, 2, 3, 4, 5, 7, 15 or 17, which service 11 has
stack line N, field target: not 1 to 8 earlier lines, parted by ;
stack line N, field target: not an earlier line
stack line N, field target: not empty
stack line N, field time: not as many instants as targets, parted by ;
stack line N, field time: not instants of whole seconds from 1970 to 2099 with an offset, such as 2031-05-04T10:00:00Z, parted by ;
stack line N, field time: not seconds, -4102444799 to 4102444799
stack line N, field time: not empty
stack line N, field ack: not aspc, with - for each report that is not wanted
stack line N, field ack: not aspc, with - for each report that is not wanted; service 11 wants c
stack line N, field critical: neither yes nor no
stack line N, field after: neither empty nor an earlier line
stack line N, field outcome: not an outcome, such as ok or halt/2/17, where a code is 16 to 255
stack line N, field outcome: not ok, which service 11 wants
stack line N, field target: a line of service 11, one whose ack has no a, or one that is named twice
stack line N, field target: a line of service 11
stack line N, field time: second 60 is read as 59
stack and more
procedure ok
procedure file: more than 65536 bytes
procedure step 101: more than 100 steps
procedure header: not step,text,second,request
procedure step 1: missing
procedure step N: not 4 fields
procedure step N, field step: not the number of the step
procedure step N, field text: not 1 to 80 printable characters of ASCII
procedure step N, field second: neither yes nor no
procedure step N, field request: neither empty nor a number
procedure step N, field request: no request has number 0
procedure and more
""".splitlines()


class Found(NamedTuple):
    """What became of a text: which lines are told of it, without the numbers of rows; how it came and was loaded; and what differs."""
    lines: list[str]
    is_loaded: bool
    is_input: bool
    faults: list[str]


# ---- a text

def run(words: list[str], folder: str, given: bytes = b"") -> tuple[Union[int, str], bytes, bytes]:
    """The status of a run in a folder, what it printed, and its errors."""
    with subprocess.Popen(words, cwd=folder, stdin=PIPE, stdout=PIPE, stderr=PIPE, start_new_session=True) as ran:
        try:
            out, err = ran.communicate(given, timeout=LONGEST)
        except subprocess.TimeoutExpired:
            os.killpg(ran.pid, signal.SIGKILL)
            return "none in time", b"", b""
    return ran.returncode, out, err


def differs(what: str, wanted: object, got: object) -> list[str]:
    """A line of what was wanted and what was got; none where they are the same."""
    return [] if wanted == got else [f"{what}: wanted {wanted!r:.300}, and got {got!r:.300}"]


def load_of(text: Text) -> tuple[int, str]:
    """With what the load of a text is refused for its text, 0 where it is not; and the answer to it, on a desk where nothing was entered."""
    answer = Desk().loads("ann", 0, text.kind, "s1", text.data)[0]
    refusal = int(answer.split(" ")[1]) if answer.startswith("refused ") else 0
    return 0 if (text.kind, refusal) == ("procedure", Refusal.UNKNOWN_REQUEST) else refusal, answer


def check_by(program: str, folder: str, text: Text, told: Told, path: str, given: bytes = b"") -> list[str]:
    """How the check of a text, by its file or by the standard input, differs from what is told."""
    answer = (int(not told.is_ok), f"{told.text()}\n".encode(), b"")
    return differs(f"check {text.kind} {path}", answer, run([program, "check", text.kind, path], folder, given))


def front_of(line: str) -> str:
    """A line without the line of the file, and without what is told of a quote that stays open."""
    return re.sub(r" \(line [0-9]+ of the file\)", "", line).removesuffix(OPEN_QUOTE)


def written_by(text: Text, told: Told) -> list[str]:
    """How the first line that is told differs from the one that was written: what was found may stand behind it."""
    first = front_of(told.lines[0])
    return [] if not text.wanted or first == text.wanted or first.startswith(f"{text.wanted}: ") else differs("the reading", text.wanted, first)


def left_by(folder: str, text: Text) -> list[str]:
    """How the folder of a text differs from what it was."""
    with open(f"{folder}/text.csv", "rb") as file:
        return differs("the folder after the checks", (["text.csv"], text.data), (os.listdir(folder), file.read()))


def load_by(program: str, folder: str, text: Text) -> list[str]:
    """How the load of a text differs from what the reading of loads answers."""
    answer = load_of(text)[1]
    status, out, err = run([program, "run", "-"], folder, f"0 ann {text.kind} s1 text.csv\n".encode())
    return differs("load", (int(answer.startswith("refused")), answer, b""), (status, out.decode("latin-1").split("\n")[0], err))


def try_text(program: str, work: str, job: tuple[int, Union[Text, int]]) -> Found:
    """Writes a text, one by hand or the random one of a number, to a folder of its own, and has it checked and perhaps loaded."""
    at, given = job
    is_hand = isinstance(given, Text)
    text = given if isinstance(given, Text) else numbered(given)
    told = told_of(text.kind, text.data)
    faults = written_by(text, told) + differs("the refusal by two readings", told.refusal, load_of(text)[0])
    is_loaded, is_input = is_hand or at % LOAD_EACH == 0, at % INPUT_EACH == 0
    folder = tempfile.mkdtemp(dir=work)
    try:
        with open(f"{folder}/text.csv", "wb") as file:
            file.write(text.data)
        faults += check_by(program, folder, text, told, "text.csv")
        if is_input:
            faults += check_by(program, folder, text, told, "-", text.data)
        faults += left_by(folder, text)
        if is_loaded:
            faults += load_by(program, folder, text)
    finally:
        shutil.rmtree(folder)
    return Found([template(text.kind, it) for it in told.lines], is_loaded, is_input, [f"{text.kind} {text.name}: {it}" for it in faults])


def numbered(number: int) -> Text:
    """The random text of a number."""
    kind, data = random_text(number)
    return Text(kind, f"number {number}, {data!r:.600}", data, "")


def template(kind: str, line: str) -> str:
    """Which of all lines a line is."""
    numbered = f"{kind} " + re.sub(r"^(line|step) [0-9]+(?=,|: not)", r"\1 N", front_of(line))
    fronts = [it for it in LINES if numbered == it or numbered.startswith(f"{it}: ")]
    return max(fronts, key=len, default=numbered)


def try_all(program: str, work: str, jobs: list[Union[Text, int]]) -> list[Found]:
    """What became of all texts, four at a time."""
    with ProcessPoolExecutor(4) as pool:
        return list(pool.map(partial(try_text, program, work), enumerate(jobs), chunksize=32))


# ---- words, files and outputs

USAGE = re.compile(rb"(?s).+")
OUTPUT = b"tcdesk: cannot use output\n"
# Each case: words of a shell, in which "$0" is the program, and the status, the output and the errors that are wanted. The files are good.csv, which
# is a stack, bad.csv, which is none, and folder.
CASES: list[tuple[str, int, Union[bytes, re.Pattern[bytes]], Union[bytes, re.Pattern[bytes]]]] = [
    ('"$0" check', 2, b"", USAGE),
    ('"$0" check stack', 2, b"", re.compile(rb"(?s).*FILE")),
    ('"$0" check procedure', 2, b"", re.compile(rb"(?s).*FILE")),
    ('"$0" check shift good.csv', 2, b"", re.compile(rb"(?s).*shift")),
    ('"$0" check stacks good.csv', 2, b"", re.compile(rb"(?s).*stacks")),
    ('"$0" check Stack good.csv', 2, b"", re.compile(rb"(?s).*Stack")),
    ('"$0" check good.csv', 2, b"", USAGE),
    ('"$0" check good.csv stack', 2, b"", USAGE),
    ('"$0" check "" good.csv', 2, b"", USAGE),
    ('"$0" check stack good.csv more.csv', 2, b"", re.compile(rb"(?s).*more\.csv")),
    ('"$0" check --w 20 stack good.csv', 2, b"", re.compile(rb"(?s).*--w")),
    ('"$0" check --db desk.db stack good.csv', 2, b"", re.compile(rb"(?s).*--db")),
    ('"$0" check --help', 0, re.compile(rb"(?s).+"), b""),
    ('"$0" check stack good.csv', 0, b"ok\n", b""),
    ('"$0" check stack ./good.csv', 0, b"ok\n", b""),
    ('"$0" check stack folder/../good.csv', 0, b"ok\n", b""),
    ('"$0" check stack "$PWD/good.csv"', 0, b"ok\n", b""),
    ('"$0" check stack good.csv <bad.csv', 0, b"ok\n", b""),
    ('cp good.csv "a b.csv"; "$0" check stack "a b.csv"', 0, b"ok\n", b""),
    ('cp good.csv ./-; "$0" check stack ./- <bad.csv', 0, b"ok\n", b""),
    ('ln -s good.csv link.csv; "$0" check stack link.csv', 0, b"ok\n", b""),
    ('"$0" check stack - <good.csv', 0, b"ok\n", b""),
    ('"$0" check stack bad.csv', 1, b'line 2, field apid: not 0 to 2047 in plain digits: "x"\n', b""),
    ('"$0" check stack - <bad.csv', 1, b'line 2, field apid: not 0 to 2047 in plain digits: "x"\n', b""),
    ('"$0" check procedure good.csv', 1, b'header: not step,text,second,request: column 1 is not step: "line"\n', b""),
    ('{ cat good.csv; echo "2,5,8,1,\\",,---c,no,,ok"; } >open.csv; "$0" check stack open.csv', 1, b"line 2: not 10 fields: 5, and a quote stays open to the end of the file\n", b""),
    ('"$0" check stack /dev/null', 1, NO_STACK.encode() + b": the file is empty\n", b""),
    ('"$0" check stack - </dev/null', 1, NO_STACK.encode() + b": the file is empty\n", b""),
    ('{ head -c 70 bad.csv; sleep 0.3; tail -c +71 bad.csv; } | "$0" check stack -', 1, b'line 2, field apid: not 0 to 2047 in plain digits: "x"\n', b""),
    ('ulimit -v 2000000; "$0" check stack /dev/zero', 1, b"file: more than 65536 bytes: the file is UTF-16, and not UTF-8\n", b""),
    ('ulimit -v 2000000; yes | "$0" check stack -', 1, b"file: more than 65536 bytes\n", b""),
    ('"$0" check stack missing.csv', 2, b"", b"tcdesk: cannot use missing.csv\ntcdesk: because there is no such file\n"),
    ('"$0" check procedure missing/steps.csv', 2, b"", b"tcdesk: cannot use missing/steps.csv\ntcdesk: because there is no such file\n"),
    ('"$0" check stack good.csv/', 2, b"", b"tcdesk: cannot use good.csv/\ntcdesk: because there is no such folder\n"),
    ('"$0" check stack folder', 2, b"", b"tcdesk: cannot use folder\ntcdesk: because it is a folder\n"),
    ('"$0" check stack - <folder', 2, b"", b"tcdesk: cannot use -\n"),
    ('"$0" check stack good.csv >/dev/full', 2, b"", OUTPUT),
    ('"$0" check stack bad.csv >/dev/full', 2, b"", OUTPUT),
    ('"$0" check stack - >/dev/full <good.csv', 2, b"", OUTPUT),
    ('"$0" check stack good.csv >&-', 2, b"", OUTPUT),
    ('"$0" check stack bad.csv >&-', 2, b"", OUTPUT),
    ('"$0" check stack missing.csv >/dev/full', 2, b"", b"tcdesk: cannot use missing.csv\ntcdesk: because there is no such file\n"),
    ('"$0" check stack missing.csv >&-', 2, b"", b"tcdesk: cannot use missing.csv\ntcdesk: because there is no such file\n"),
    ('mkfifo gone; exec 7<>gone 8>gone 7>&-; "$0" check stack good.csv >&8; echo "status $?" >&2', 0, b"", OUTPUT + b"status 2\n"),
    ('"$0" check stack good.csv 2>&-', 0, b"ok\n", b""),
    ('"$0" check stack missing.csv 2>&-', 2, b"", b""),
]


def is_like(wanted: Union[bytes, re.Pattern[bytes]], got: bytes) -> bool:
    """Whether some bytes are these, or are matched."""
    return wanted == got if isinstance(wanted, bytes) else bool(wanted.match(got))


def try_words(program: str, work: str) -> list[str]:
    """A line for each case of words that differs."""
    faults = []
    for shell, status, out, err in CASES:
        folder = tempfile.mkdtemp(dir=work)
        for name, rows in (("good.csv", ROW), ("bad.csv", ROW + b"2,x,8,1,,,---c,no,,ok\n")):
            with open(f"{folder}/{name}", "wb") as file:
                file.write(STACK + rows)
        os.mkdir(f"{folder}/folder")
        got = run(["bash", "-c", shell, program], folder)
        if got[0] != status or not is_like(out, got[1]) or not is_like(err, got[2]):
            faults.append(f"{shell}: wanted {status}, {out!r}, {err!r}, and got {got[0]}, {got[1]!r:.300}, {got[2]!r:.300}")
    return faults


def lacks(written: list[Found], others: list[Found], least: int) -> list[str]:
    """Which lines no text has that is written by hand, or hardly any other; and which are told and are none of all lines."""
    by_hand, told = Counter(line for it in written for line in it.lines), Counter(line for it in others for line in it.lines)
    hardly = [f"told of {by_hand[it]} texts by hand, and of {told[it]} others: {it}" for it in LINES if not by_hand[it] or told[it] < least]
    return hardly + [f"no line that may be told: {it}" for it in sorted((by_hand.keys() | told.keys()) - set(LINES))]


# What stands where a header should: each has to be met by texts that are written by hand.
OTHER_HEADERS = [
    "the file is UTF-16, and not UTF-8", "the file is a workbook, and no text", "the file is empty", "semicolons stand where commas should",
    "TABs stand where commas should", "column 1 is not ", "column 10 is missing: outcome", "column 11 is one too many: ", "column 4 is missing: request",
]


# ---- scripts

def changed(dice: Random, line: str) -> str:
    """A line with something changed: a word that is another's, left out or doubled, or a byte."""
    words, at = line.split(" "), dice.randrange(len(line.split(" ")))
    how = dice.randrange(5)
    if how == 0:
        words[at] = dice.choice(WORDS)
    elif how == 1:
        del words[at]
    elif how == 2:
        words.insert(at, words[at])
    elif how == 3:
        words[at] = words[at][:-1] + dice.choice(WORDS)[:1]
    return " ".join(words) if how < 4 else line.replace(" ", dice.choice(("  ", "\t", " ")), 1) + dice.choice(("", " ", "\r"))


def reads(line: str) -> bool:
    """Whether a line is one, by the reading of whole lines."""
    try:
        read_line(line)
    except Refused:
        return False
    return True


def written_lines() -> list[tuple[str, str]]:
    """Lines of scripts that are written by hand, each behind how what is told of it has to begin."""
    return [(wanted, bytes_of(line).decode("latin-1")) for wanted, line in listed("scripts")]


def line_differs(wanted: str, line: str) -> list[str]:
    """How what is told of a line differs from what was written."""
    told = script_told(line.encode("latin-1") + b"\n").lines[0]
    front = "ok" if wanted == "ok" else f"line 1, {wanted}"
    return [] if told == front or told.startswith(f"{front}: ") else differs(f"script {line!r}", front, told)


# The files that the written lines load, beside which a stack that is none, and none at all.
FILES = {"examples/stack.csv": STACK + ROW, "bad.csv": STACK + ROW + b"2,x,8,1,,,---c,no,,ok\n"}
LOADS = b"0 ann stack a examples/stack.csv\n1 ann stack b bad.csv\n2 ann procedure c bad.csv\n3 ann stack d missing.csv\n"


# Lines that go back in time: each that is no question lies before one above it.
BACK = b"200 ann tick\n100 ann tick\n# 50 ann tick\n150 ann places\n150 ann tick\n200 ann tick\n1000 ann tick\n999 ann tick\n999 ann urgent 1\n"


def script_texts() -> list[bytes]:
    """Scripts to be checked by the program: each written line by itself, and all of them, with LF and with CRLF."""
    lines = [line.encode("latin-1") for _, line in written_lines()]
    return [*lines, BACK, b"\n".join(lines), b"\r\n".join(lines) + b"\r", b"", b"\n\n# none\n", b"0 ann " + b"x" * 201, LOADS]


def try_scripts(program: str, work: str) -> list[str]:
    """A line for each script of which the program tells something else."""
    os.mkdir(f"{work}/examples")
    for name, data in FILES.items():
        with open(f"{work}/{name}", "wb") as file:
            file.write(data)
    faults = []
    for text in script_texts():
        told = script_told(text, FILES)
        faults += differs(f"check script, {text!r:.200}", (int(not told.is_ok), f"{told.text()}\n".encode(), b""), run([program, "check", "script", "-"], work, text))
    return faults


class Check(Tried):
    """The command `check`."""

    def test_texts(self) -> None:
        """Each text, those by hand and the random ones, is told as it is judged, and loaded where it is good; with a seed or a number, those random
        ones alone."""
        written, first = all_texts() if ASKED.is_whole else [], ASKED.seed_or(1)
        with tempfile.TemporaryDirectory(prefix="check-") as work:
            found = try_all(ASKED.program, work, [*written, *range(first, first + ASKED.count_or(TEXTS))])
        faults = [fault for it in found for fault in it.faults]
        lacking = lacks(found[:len(written)], found[len(written):], LEAST) if ASKED.is_whole else []
        print(f"check cases: {len(found)} texts, {len(written)} written, {sum(it.lines[0].endswith(' ok') for it in found)} ok,"
              f" {sum(it.is_loaded for it in found)} loads, {sum(it.is_input for it in found)} by standard input,"
              f" {sum(bool(it.faults) for it in found)} differ")
        self.no_faults(faults + lacking)

    def test_headers(self) -> None:
        """Each thing that may stand where a header should is told of a text that is written by hand."""
        told = [line for it in all_texts() for line in told_of(it.kind, it.data).lines]
        self.no_faults([f"told of no text by hand: {it}" for it in OTHER_HEADERS if not any(f": {it}" in line for line in told)])

    def test_lines(self) -> None:
        """Each line of a script is told as it was written, and exactly those that the reading of whole lines refuses."""
        dice, written = Random(1), written_lines()
        lines = [line for _, line in written]
        tried = lines + [changed(dice, line) for line in lines for _ in range(100)]
        answered = [it for it in tried if is_answered(it) and "\n" not in it]
        self.no_faults([fault for it in written for fault in line_differs(*it)]
                       + [f"told otherwise than read: {it!r}" for it in answered if bool(fault_of(it)) == reads(it)])

    def test_lines_that_go_back(self) -> None:
        """Of a script with which nothing is wrong each line is told that lies before one above it in time."""
        self.assertEqual(["ok", "line 2: at 100, before a line at 200", "line 5: at 150, before a line at 200", "line 8: at 999, before a line at 1000"], script_told(BACK).lines)

    def test_scripts(self) -> None:
        """Scripts, and the files that they load, are told as they are read."""
        with tempfile.TemporaryDirectory(prefix="check-") as work:
            self.no_faults(try_scripts(ASKED.program, work))

    def test_words(self) -> None:
        """Words, files and outputs of the command."""
        with tempfile.TemporaryDirectory(prefix="check-") as work:
            faults = try_words(ASKED.program, work)
        print(f"check cases: {len(CASES)} cases of words, {len(faults)} differ")
        self.no_faults(faults)
