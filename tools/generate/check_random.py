"""Random texts of stacks and of procedures, good ones and damaged ones. No field has a bracket: what an instant may have behind it in brackets the
model does not know.
"""
from random import Random
from typing import Sequence

from generate.texts import BAD_FIELDS, Records, damaged, joined, row_text, some_bytes, some_count, some_instant
from model.facts import LAST_MOMENT, LONGEST_TEXT, MARK, MOST_ROWS, MOST_STEPS
from model.texts import PROCEDURE_COLUMNS, STACK_COLUMNS

NUMBERS = ("0 1 2 3 01 00 +1 -1 -0 10 11 12 16 17 18 199 200 201 255 256 2047 2048 65536 4294967295 4294967296 4294967297 18446744073709551617"
           " x").split()
INSTANT = "2031-05-04T10:00:00Z"
# What may stand in a column in place of what stands there: at the limits, and a little past them.
WORDS = {
    "line": NUMBERS, "apid": NUMBERS, "service": NUMBERS + ["8", "11", "11", "011", "11.0"], "subtype": NUMBERS + "4 5 6 7 8 14 15 16 017".split(),
    "target": NUMBERS + ["", "", "-", "1;2", "1;1", "1;", ";1", "1;;2", "1; 2", "1;02", "1;2;3;4;5;6;7;8;9"], "after": NUMBERS + ["", "-"],
    "request": NUMBERS + ["", "-"], "step": NUMBERS,
    "time": ["", "", "0", "-1", "60", "-0", "+60", "060", ";", "60;60", INSTANT, f"{INSTANT};{INSTANT}", f"{INSTANT};"]
            + [f"{sign}{LAST_MOMENT + it}" for sign in ("", "-") for it in (0, 1)],
    "ack": "aspc a--- ---c ---- asp- --- aspcc cpsa ASPC x".split() + [""], "critical": "yes no Yes NO y n true yesno".split() + [""],
    "second": "yes no Yes NO y n true yesno".split() + [""],
    "outcome": "ok ok/1 ok/9 ok/0 ok/10 ok/01 refuse/16 refuse/255 refuse/15 refuse/256 nostart/16 nostart halt/2/17 halt/0/17 halt/9/255 halt/1"
               " halt/1/2/17 fail/17 fail/015 OK no ok/ /ok".split() + [""],
    "text": ["", " ", "~" * 80, "~" * 81, "a\tb", "a\x7f", "\x1f", "caf\xc3\xa9", "\xff", "a\nb", 'say "go"', "on, slowly"],
}
CLOCKS = ["10:00:00", "00:00:00", "23:59:59", "23:59:60", "23:59:61", "24:00:00", "10:60:00", "1000", "100000", "10", "10:00", "10:0000", "1:00:00"]
LEAPS = ["2031-05-04T23:59:60Z", "2031-05-04T10:00:60Z", "2028-02-29T23:59:60.0+02:00"]
FRACTIONS = [""] * 6 + [".0", ",000", ".000000000", ".0000000000", ".5", ".", ".000000001"]
ZONES = ["Z"] * 6 + ["z", "", "+00:00", "-00:00", "+02:00", "-0330", "+02", "+25:59", "-25:59:59", "+26:00", "+02:60", "+2:00", "+02:00:00.5"]
DAYS = ["2031-05-04", "2028-02-29", "2031-02-29", "2000-02-29", "2100-02-28", "1970-01-01", "1969-12-31", "1970-01-02", "2099-12-31", "2099-12-30",
        "2100-01-01", "2031-04-31", "2031-12-31", "2031-13-01", "2031-00-01", "2031-01-00", "20310504", "2031-0504", "+002031-05-04", "31-05-04"]


def spelled_instant(dice: Random) -> str:
    """An instant of some spelling, good or not: each part of it is mostly good."""
    parts = [(DAYS, 0.4), ("TTTTt _", 0.5), (CLOCKS, 0.4), (FRACTIONS, 0.6), (ZONES, 0.6)]
    return "".join(dice.choice(words) if dice.random() < odd else words[0] for words, odd in parts)


def near(dice: Random, word: str) -> str:
    """A word with one character more, less, or another."""
    at, kind = dice.randrange(len(word) + 1), dice.randrange(3)
    sign = dice.choice("0123456789 -+/.:,;\"TZacnosy\t\0\r\n\xff~")
    return word[:at] + sign * (kind != 2) + word[at + (kind > 0):]


# ---- good texts

def command(dice: Random, plain: Sequence[int]) -> list[str]:
    """Service, subtype, target and time of a row, where these earlier lines may be named."""
    kinds = [(it, "1 4 5 11 255".split()) for it in ("8", "8", "8", "1", "255")] + [("11", "1 2 3 17".split()), ("11", ["15"])]
    service, subtypes = dice.choice(kinds + [("11", [it]) for it in ("4", "4", "5", "7")] * bool(plain))
    subtype = dice.choice(subtypes)
    if service != "11":
        return [service, subtype, "", ""]
    if subtype == "4":
        lines = dice.sample(plain, min(len(plain), some_count(dice)))
        return ["11", subtype, joined(map(str, lines)), joined(some_instant(dice, dice.choice([0, 1935655200, LAST_MOMENT])) for _ in lines)]
    line = str(dice.choice(plain)) if subtype in ("5", "7") else ""
    offset = str(dice.choice([-LAST_MOMENT, -60, 0, 60, LAST_MOMENT]))
    return ["11", subtype, line, offset if subtype in ("7", "15") else ""]


def good_stack(dice: Random) -> Records:
    """The records of a stack, mostly a short one."""
    records: Records = [STACK_COLUMNS]
    plain: list[int] = []
    for line in range(1, dice.choice([1, 2, 2, 3, 4, 5, 8, 20]) + 1):
        words = command(dice, plain)
        is_plain = words[0] != "11"
        ack = dice.choice(["a---", "a--c", "aspc", "a-p-"]) if is_plain else dice.choice(["---c", "a--c"])
        outcome = dice.choice(["ok", "ok/3", "halt/2/17", "refuse/16"]) if is_plain else "ok"
        after = str(dice.randrange(1, line)) if line > 1 and dice.random() < 0.4 else ""
        records.append([str(line), str(dice.choice([0, 5, 2047])), *words, ack, dice.choice(["yes", "no"]), after, outcome])
        if is_plain:
            plain.append(line)
    return records


def good_procedure(dice: Random) -> Records:
    """The records of a procedure."""
    texts = ["check it", "~" * 80, " ", "on, slowly", 'say "go"']
    return [PROCEDURE_COLUMNS] + [[str(step), dice.choice(texts), dice.choice(["yes", "no"]), dice.choice(["", "", "0", "1", "4294967295"])]
                            for step in range(1, dice.choice([1, 2, 3, 5, 9]) + 1)]


# ---- damaged ones

def with_field(records: Records, row: int, at: int, word: str) -> Records:
    """These records with another word in a field."""
    fields = records[row][:at] + [word] + records[row][at + 1:]
    return records[:row] + [fields] + records[row + 1:]


def other_field(dice: Random, records: Records) -> Records:
    """A field is another word: of its column, of any, or a little beside itself."""
    row = dice.randrange(1, len(records))
    at = dice.randrange(len(records[row]))
    column = records[0][at]
    words = dice.choice([WORDS[column]] * 5 + [BAD_FIELDS, [it[at] for it in records], [near(dice, records[row][at])] * 2])
    return with_field(records, row, at, dice.choice(words))


def rows_with(records: Records, *subtypes: str) -> list[int]:
    """The rows of a stack that command the schedule so."""
    return [it for it, fields in enumerate(records) if fields[2] == "11" and fields[3] in subtypes]


def other_target(dice: Random, records: Records) -> Records:
    """A row of the schedule names another line, which it may not name perhaps, or what a row names asks for no report."""
    commands = rows_with(records, "4", "5", "7")
    if not commands:
        return other_field(dice, records)
    row = dice.choice(commands)
    lines = records[row][4].split(";")
    at = dice.randrange(len(lines))
    if dice.random() < 0.2 and lines[at].isdecimal():
        return with_field(records, min(int(lines[at]), len(records) - 1), 6, "--pc")
    others = [it for it in rows_with(records, *"1 2 3 4 5 7 15 17".split()) if it < row]
    lines[at] = str(dice.choice([*others * 2, row - 1, row, row + 1, *lines]))
    return with_field(records, row, 4, joined(lines))


def other_instant(dice: Random, records: Records) -> Records:
    """An insert has another time, or one more or less; a second 60, say, which is one of no moment of its own."""
    inserts = rows_with(records, "4")
    if not inserts:
        return other_field(dice, records)
    row, kind = dice.choice(inserts), dice.randrange(8)
    times = records[row][5].split(";")
    at = dice.randrange(len(times))
    others: list[list[str]] = [[times[at]] * 2, [], [dice.choice(LEAPS)]]
    times[at:at + 1] = others[kind] if kind < 3 else [spelled_instant(dice)]
    return with_field(records, row, 5, joined(times))


def other_shape(dice: Random, records: Records) -> Records:
    """A row with another number of fields, one too many or too few, or another header."""
    row = dice.randrange(len(records)) if dice.random() < 0.7 else 0
    fields, at = list(records[row]), dice.randrange(len(records[row]))
    kind = dice.randrange(4)
    changed = [fields[:at] + fields[at + 1:], fields + [""], fields[:at] + [near(dice, fields[at])] + fields[at + 1:], fields[::-1]][kind]
    return records[:row] + [changed] + records[row + 1:] if changed else records


def other_rows(dice: Random, records: Records) -> Records:
    """No row, one less, or more than there may be; or two change places."""
    kind, most = dice.randrange(5), MOST_ROWS if records[0] == STACK_COLUMNS else MOST_STEPS
    if kind == 0:
        return records[:1]
    if kind == 1:
        return records + records[1:2] * (most + dice.choice([-1, 0, 1]) - len(records))
    if kind == 2:
        return records + records[-1:] * (most + 2 - len(records))
    at = dice.randrange(1, len(records))
    return records[:at] + records[at + 1:] if kind == 3 else records[:at] + records[at:][::-1]


DAMAGES = [other_field] * 10 + [other_target] * 3 + [other_instant] * 3 + [other_shape, other_rows, other_rows, damaged]


def other_bytes(dice: Random, data: bytes) -> bytes:
    """The bytes with one more, less, or another; or with so many behind them that they are about too many."""
    kind, at = dice.randrange(5), dice.randrange(len(data) + 1)
    piece = dice.choice([b"\xff", b"\0", b",", b'"', b"\n", b"\r", b" ", b";", b"1", b"-", MARK])
    if kind == 0:
        return data + dice.choice([b"\n", b"\r", b"x", b" "]) * (LONGEST_TEXT + dice.choice([-1, 0, 1, 1, 2]) - len(data))
    return data[:at] + piece * (kind != 1) + data[at + (kind < 3):]


def random_text(seed: int) -> tuple[str, bytes]:
    """The kind of the random text of a seed, and its bytes."""
    dice = Random(seed)
    kind = dice.choice(["stack", "stack", "stack", "procedure"])
    records = good_stack(dice) if kind == "stack" else good_procedure(dice)
    header = records[0]
    for _ in range(dice.choice([0, 1, 1, 1, 1, 1, 1, 2, 3])):
        if len(records) > 1 and records[0] == header and all(len(it) == len(header) for it in records):
            records = dice.choice(DAMAGES)(dice, records)
    data = some_bytes(dice, [row_text(it, dice) for it in records])
    return kind, other_bytes(dice, data) if dice.random() < 0.15 else data
