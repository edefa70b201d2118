"""Texts of stacks and of procedures, written by hand, and the line that `tcdesk check` has to print of each, written by hand too.

Whole texts stand here. Texts of rows alone, under the header, stand in tools/cases/checks/, in lists that are parted by empty lines. What stands
first in a list is wanted of each text below it; each line is a text, whose rows are parted by `|`, and `\\xff` is a byte. The lines of
instants.txt are the time of an insert on line 2, and those of repository.txt name texts of the repository.
"""
import os
import re
from typing import NamedTuple

from model.facts import LONGEST_TEXT, MARK, MOST_ROWS, MOST_STEPS, PROCEDURE_HEADER, STACK_HEADER

STACK, STEPS = f"{STACK_HEADER}\n".encode(), f"{PROCEDURE_HEADER}\n".encode()
ROW, STEP = b"1,5,8,1,,,---c,no,,ok\n", b"1,check power,no,\n"
NO_STACK, NO_STEPS = f"header: not {STACK_HEADER}", f"header: not {PROCEDURE_HEADER}"

# Whole texts of stacks: with another beginning or end, and as spreadsheets write them.
WHOLE_STACKS = [
    ("ok", MARK + STACK + ROW),
    ("ok", STACK + ROW[:-1]),
    ("ok", (STACK + ROW + b"2,5,8,2,,,---c,no,1,ok\n").replace(b"\n", b"\r\n")),
    ("ok", (STACK + ROW).replace(b"\n", b"\r")),
    ("ok", MARK + (STACK + ROW).replace(b"\n", b"\r\n")[:-2]),
    ("ok", b"\n\r\n\r" + STACK + b"\n\n" + ROW + b"\r\r\n"),
    ("ok", b'"line","apid","service","subtype","target","time","ack","critical","after","outcome"\n"1","5","8","1","","","---c","no","","ok"\n'),
    ("ok", STACK + b'1,5,8,1,"",,---c,no,,"ok"'),
    ("ok", STACK + b'1,5,8,1,,,---c,no,,"ok'),
    ("ok", STACK + b'1,5,8,1,,,---c,no,,"o"k\n'),
    ("ok", MARK + b"\n" + STACK + ROW),
    (NO_STACK, b""),
    (NO_STACK, MARK),
    (NO_STACK, b"\n"),
    (NO_STACK, b"\r\n\r\n"),
    (NO_STACK, b'""'),
    (NO_STACK, b"\0"),
    (NO_STACK, b"\xff"),
    (NO_STACK, MARK + MARK + STACK + ROW),
    (NO_STACK, MARK[:2] + STACK + ROW),
    (NO_STACK, b"\n" + MARK + STACK + ROW),
    (NO_STACK, b" " + STACK + ROW),
    (NO_STACK, b"\xff\xfe" + (STACK + ROW).decode().encode("utf-16-le")),
    (NO_STACK, (STACK + ROW).decode().encode("utf-16-be")),
    (NO_STACK, (STACK + ROW).replace(b",", b";")),
    (NO_STACK, (STACK + ROW).replace(b",", b"\t")),
    (NO_STACK, b"sep=,\n" + STACK + ROW),
    (NO_STACK, b"# a stack\n" + STACK + ROW),
    (NO_STACK, STACK.upper() + ROW),
    (NO_STACK, STACK.replace(b"line", b"Line") + ROW),
    (NO_STACK, STACK.replace(b",", b", ") + ROW),
    (NO_STACK, STACK[:-1] + b",\n" + ROW),
    (NO_STACK, (STACK + ROW).replace(b"\n", b",,\n")),
    (NO_STACK, b"line,apid,service,subtype,time,target,ack,critical,after,outcome\n" + ROW),
    (NO_STACK, b"line,apid,service,subtype,target,time,ack,critical,after\n" + ROW),
    (NO_STACK, b"line\n" + ROW),
    (NO_STACK, ROW),
    (NO_STACK, ROW + STACK),
    (NO_STACK, STEPS + STEP),
    (NO_STACK, b'"' + STACK + ROW),
    (NO_STACK, STACK[:-1]+ b"\0\n" + ROW),
    (NO_STACK, b"x\n"),
    (NO_STACK, b"PK\3\4\x14\0\x06\0\b\0[Content_Types].xml"),
    (NO_STACK, STACK[:-1] + b" \n1,5\n"),
    ("line 1: missing", STACK),
    ("line 1: missing", STACK[:-1]),
    ("line 1: missing", MARK + STACK),
    ("line 1: missing", STACK + b"\r\n\r\n\n"),
    ("line 1: not 10 fields", STACK + b","),
    ("line 1: not 10 fields", STACK + b'"'),
    ("line 1: not 10 fields", STACK + ROW[:-1] + b",,\n2,5,8,1,,,---c,no,,ok,,\n"),
    ("line 1, field line: not the number of the line", STACK + MARK + ROW),
    ("line 1, field line: not the number of the line", STACK + STACK + ROW),
    ("line 1, field outcome: not an outcome, such as ok or halt/2/17, where a code is 16 to 255", STACK + ROW[:-1] + b"\0\n"),
    ("line 1, field outcome: not an outcome, such as ok or halt/2/17, where a code is 16 to 255", STACK + b'1,5,8,1,,,---c,no,,"ok\n2,5,8,2,,,---c,no,,ok\n'),
    ("line 2, field apid: not 0 to 2047 in plain digits", STACK + ROW + b"\n\n2,x,8,1,,,---c,no,,ok\n"),
    ("line 2, field line: not the number of the line", STACK + ROW + b"\x1a,,,,,,,,,\n"),
]
WHOLE_PROCEDURES = [
    ("ok", MARK + (STEPS + STEP).replace(b"\n", b"\r\n")),
    ("ok", STEPS + STEP[:-1]),
    ("ok", (STEPS + STEP).replace(b"\n", b"\r")),
    ("ok", b'"step","text","second","request"\n"1","check power","no",""\n'),
    ("ok", b"\n\n" + STEPS + b"\n" + STEP + b"\n\n"),
    (NO_STEPS, b""),
    (NO_STEPS, MARK),
    (NO_STEPS, MARK + MARK + STEPS + STEP),
    (NO_STEPS, STEP),
    (NO_STEPS, STACK + ROW),
    (NO_STEPS, STACK),
    (NO_STEPS, b"step,text,second\n1,check power,no\n"),
    (NO_STEPS, b"step,text,second,request,\n1,check power,no,,\n"),
    (NO_STEPS, b"step,second,text,request\n1,no,check power,\n"),
    (NO_STEPS, b"Step,Text,Second,Request\n" + STEP),
    (NO_STEPS, (STEPS + STEP).replace(b",", b";")),
    (NO_STEPS, (STEPS + STEP).decode().encode("utf-16")),
    ("step 1: missing", STEPS),
    ("step 1: missing", STEPS[:-1]),
    ("step 1: missing", MARK + STEPS + b"\n\r\n"),
    ("step 1, field text: not 1 to 80 printable characters of ASCII", STEPS + b'1,"check\r\npower",no,\n'),
    ("step 1, field step: not the number of the step", STEPS + STEPS + STEP),
]


def counted(row: bytes, count: int) -> bytes:
    """So many rows, each with its number."""
    return b"".join(row % it for it in range(1, count + 1))


def filled(text: bytes, size: int) -> bytes:
    """A text of so many bytes: empty lines stand behind it."""
    return text + b"\n" * (size - len(text))


LONG_FILE = f"file: more than {LONGEST_TEXT} bytes"
LONG_STACK, LONG_STEPS = f"line {MOST_ROWS + 1}: more than {MOST_ROWS} lines", f"step {MOST_STEPS + 1}: more than {MOST_STEPS} steps"
ANY_ROW, ANY_STEP = b"%d,5,8,1,,,---c,no,,ok\n", b"%d,check it,no,\n"

# Texts at the limits of bytes and of rows: what is too long is told before all else, and the bytes before the rows.
LIMIT_STACKS = [
    ("ok", STACK + counted(ANY_ROW, 199)),
    ("ok", STACK + counted(ANY_ROW, 200)),
    (LONG_STACK, STACK + counted(ANY_ROW, 201)),
    (LONG_STACK, STACK + counted(ANY_ROW, 202)),
    (LONG_STACK, STACK + counted(ANY_ROW, 1000)),
    (LONG_STACK, STACK + counted(ANY_ROW, 200) + b"x\n"),
    (LONG_STACK, STACK + counted(ANY_ROW, 200) + b",,,,,,,,,"),
    (LONG_STACK, STACK + counted(b"x%d\n", 201)),
    (LONG_STACK, b"x\n" + counted(ANY_ROW, 201)),
    (LONG_STACK, b"x\n" * 202),
    (NO_STACK, b"x\n" * 201),
    (NO_STACK, counted(ANY_ROW, 201)),
    (LONG_STACK, counted(ANY_ROW, 202)),
    ("ok", STACK + counted(ANY_ROW, 200) + b"\n\r\n\n"),
    ("ok", (STACK + counted(ANY_ROW, 200)).replace(b"\n", b"\n\n")),
    ("ok", MARK + STACK + counted(ANY_ROW, 200)[:-1]),
    ("ok", filled(STACK + ROW, 65535)),
    ("ok", filled(STACK + ROW, 65536)),
    (LONG_FILE, filled(STACK + ROW, 65537)),
    (LONG_FILE, filled(STACK + ROW, 65538)),
    (LONG_FILE, filled(STACK + ROW, 131072)),
    (LONG_FILE, filled(STACK + ROW, 4194304)),
    ("ok", filled(MARK + STACK + ROW, 65536)),
    (LONG_FILE, filled(MARK + STACK + ROW, 65537)),
    (LONG_FILE, filled(MARK + STACK + ROW, 65539)),
    (LONG_FILE, filled(STACK + counted(ANY_ROW, 201), 65537)),
    (LONG_STACK, filled(STACK + counted(ANY_ROW, 201), 65536)),
    (LONG_FILE, b"x" * 65537),
    (NO_STACK, b"x" * 65536),
    (LONG_FILE, b"\n" * 65537),
    (NO_STACK, b"\n" * 65536),
    (LONG_FILE, b"\0" * 100000),
    (LONG_STACK, b"x\n" * 32768),
    (LONG_FILE, b"x\n" * 32769),
    ("line 1: not 10 fields", STACK + b"," * (65536 - len(STACK))),
    ("line 1, field apid: not 0 to 2047 in plain digits", STACK + b"1," + b"5" * 65400 + b",8,1,,,---c,no,,ok\n"),
    ("line 1, field apid: not 0 to 2047 in plain digits", STACK + counted(b"%d,x,8,1,,,---c,no,,ok\n", 20)),
    ("line 1, field apid: not 0 to 2047 in plain digits", STACK + counted(b"%d,x,8,1,,,---c,no,,ok\n", 21)),
    ("line 200, field after: neither empty nor an earlier line", STACK + counted(ANY_ROW, 199) + b"200,5,8,1,,,---c,no,200,ok\n"),
    ("ok", STACK + counted(ANY_ROW, 199) + b"200,5,8,1,,,---c,no,199,ok\n"),
    ("line 200, field target: a line of service 11, one whose ack has no a, or one that is named twice",
     STACK + counted(ANY_ROW, 199) + b"200,5,11,4,199,2031-05-04T10:00:00Z,---c,no,,ok\n"),
]
LIMIT_PROCEDURES = [
    ("ok", STEPS + counted(ANY_STEP, 100)),
    (LONG_STEPS, STEPS + counted(ANY_STEP, 101)),
    (LONG_STEPS, STEPS + counted(ANY_STEP, 201)),
    (LONG_STEPS, b"x\n" + counted(ANY_STEP, 101)),
    (LONG_STEPS, b"x\n" * 102),
    (NO_STEPS, b"x\n" * 101),
    (LONG_STEPS, STACK + counted(ANY_ROW, 101)),
    ("ok", MARK + (STEPS + counted(ANY_STEP, 100)).replace(b"\n", b"\r\n\r\n")),
    ("ok", filled(STEPS + STEP, 65536)),
    (LONG_FILE, filled(STEPS + STEP, 65537)),
    (LONG_FILE, filled(MARK + STEPS + counted(ANY_STEP, 101), 65537)),
    ("step 1, field second: neither yes nor no", STEPS + counted(b"%d,check it,,\n", 20)),
    ("step 1, field second: neither yes nor no", STEPS + counted(b"%d,check it,,\n", 21)),
    ("step 100, field second: neither yes nor no", STEPS + counted(ANY_STEP, 99) + b"100,check it,,\n"),
    ("step 1, field text: not 1 to 80 printable characters of ASCII", STEPS + b"1," + b"~" * 65000 + b",no,\n"),
]

# ---- all of them

TOP = os.path.dirname(os.path.dirname(os.path.dirname(os.path.realpath(__file__))))
INSERT = ROW.replace(b"---c", b"a--c") + b"2,5,11,4,1,"
# A list of rows: its file, what it is of, and what stands before and behind each text of it.
LISTS = [("stacks", "stack", STACK, b"\n"), ("instants", "stack", STACK + INSERT, b",---c,no,,ok\n"), ("procedures", "procedure", STEPS, b"\n")]
WHOLE = [("stack", WHOLE_STACKS + LIMIT_STACKS), ("procedure", WHOLE_PROCEDURES + LIMIT_PROCEDURES)]


class Text(NamedTuple):
    """A text: what it is of, where it stands, its bytes, and the line that is wanted, none where no hand wrote it."""
    kind: str
    name: str
    data: bytes
    wanted: str


def listed(name: str) -> list[tuple[str, str]]:
    """The lines of a file of lists, each behind what is wanted of it."""
    with open(f"{TOP}/tools/cases/checks/{name}.txt", encoding="ascii") as file:
        lists = [it.split("\n") for it in file.read().rstrip("\n").split("\n\n")]
    return [(wanted, line) for wanted, *lines in lists for line in lines]


def bytes_of(line: str) -> bytes:
    """The bytes that a line of a list stands for."""
    return re.sub(r"\\x([0-9a-f]{2})", lambda it: chr(int(it[1], 16)), line.replace("|", "\n")).encode("latin-1")


def written_rows() -> list[Text]:
    """The texts of the lists of rows."""
    return [Text(kind, f"{name}.txt: {line}", front + bytes_of(line) + end, wanted)
            for name, kind, front, end in LISTS for wanted, line in listed(name)]


def written_whole() -> list[Text]:
    """The texts that stand here."""
    return [Text(kind, f"whole {kind} {at}: {data[:90]!r}", data, wanted) for kind, texts in WHOLE for at, (wanted, data) in enumerate(texts, 1)]


def in_repository() -> list[Text]:
    """The texts of the repository, each of which has to be listed."""
    texts = []
    for wanted, line in listed("repository"):
        kind, path = line.split(" ")
        with open(f"{TOP}/{path}", "rb") as file:
            texts.append(Text(kind, path, file.read(), wanted))
    there = {f"{folder}/{it}" for folder in ("examples", "tools/cases/data") for it in os.listdir(f"{TOP}/{folder}") if it.endswith(".csv")}
    forgotten = sorted(there - {it.name for it in texts})
    if forgotten:
        raise AssertionError(f"tools/cases/checks/repository.txt does not list {' '.join(forgotten)}")
    return texts


def all_texts() -> list[Text]:
    """All texts that are written by hand."""
    return written_rows() + written_whole() + in_repository()
