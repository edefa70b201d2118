"""What `tcdesk check` has to tell of a text: a reading of the rules of stacks and of procedures, in the order in which they are told, which asks
the program nothing. Records, fields and instants are read as loads read them (texts.py, which judges whole loads and tells no fault).
"""
import re
from typing import Any, Callable, NamedTuple, Optional, Sequence

from model.facts import (ACKS, LAST_APID, LAST_KIND, LAST_MOMENT, LONGEST_STEP, LONGEST_TEXT, MOST_INSERTED, MOST_ROWS, MOST_STEPS, SCHEDULE, TAKES_OFFSET,
                         TAKES_TARGET, Refusal, Subtype)
from model.lines import Reader, ack, between, is_read, is_yes, listed, number, offset, one_of, outcome
from model.refused import need
from model.texts import PROCEDURE_COLUMNS, STACK_COLUMNS, earlier, instant, placed_records, step_text, unmarked

TextRow = dict[str, Any]
Rule = Callable[[TextRow], tuple[Reader, str]]


class Told(NamedTuple):
    """What is told of a text, in lines; whether nothing is wrong; and with what its load is refused for its text, 0 where it is not."""
    lines: list[str]
    is_ok: bool
    refusal: int

    def text(self) -> str:
        """The lines as they are printed."""
        return "\n".join(self.lines)


class Kind(NamedTuple):
    """A kind of text: its header, how many rows it may have, what a row and rows are called, and the rule of each column, in order."""
    header: list[str]
    most: int
    row: str
    rows: str
    rules: tuple[Rule, ...]


# ---- what a field may be: each rule gives what reads the field of a row, and why the row is wrong where it does not

empty = one_of("")
NO_INSTANTS = "not instants of whole seconds from 1970 to 2099 with an offset, such as 2031-05-04T10:00:00Z, parted by ;"


def maybe(read: Reader) -> Reader:
    """What reads a word that may be empty."""
    return lambda word: word and read(word)


def is_scheduling(row: TextRow) -> bool:
    """Whether a row has a command of the schedule."""
    return str(row["service"]) == str(SCHEDULE)


def commands(row: TextRow, *subtypes: Subtype) -> bool:
    """Whether a row has one of these commands, byte for byte."""
    return is_scheduling(row) and row["subtype"] in [str(int(it)) for it in subtypes]


def own_number(what: str) -> Rule:
    """The rule of a column that counts the rows."""
    return lambda row: (one_of(str(row["number"])), f"not the number of the {what}")


def within(least: int, most: int) -> Rule:
    """The rule of a column that has a number between these two."""
    return lambda row: (between(least, most), f"not {least} to {most} in plain digits")


def subtype(row: TextRow) -> tuple[Reader, str]:
    """The subtypes that the service has."""
    if not is_scheduling(row):
        return within(1, LAST_KIND)(row)
    *first, last = (str(int(it)) for it in Subtype)
    return one_of(*first, last), f"not {', '.join(first)} or {last}, which service {SCHEDULE} has"


def target(row: TextRow) -> tuple[Reader, str]:
    """Earlier lines of an insert, an earlier line where another command names one."""
    read = earlier(row["number"])
    if commands(row, Subtype.INSERT):
        return listed(read, MOST_INSERTED), f"not 1 to {MOST_INSERTED} earlier lines, parted by ;"
    return (read, "not an earlier line") if commands(row, *TAKES_TARGET) else (empty, "not empty")


def instants(count: int) -> Reader:
    """What reads so many instants, parted by semicolons."""
    return lambda word: need(len(listed(instant, count)(word)) == count)


def time(row: TextRow) -> tuple[Reader, str]:
    """As many instants as an insert names lines, an offset, or nothing."""
    if commands(row, Subtype.INSERT):
        wanted = str(row["target"]).count(";")
        return instants(wanted + 1), NO_INSTANTS if str(row["time"]).count(";") == wanted else "not as many instants as targets, parted by ;"
    return (offset, f"not seconds, -{LAST_MOMENT} to {LAST_MOMENT}") if commands(row, *TAKES_OFFSET) else (empty, "not empty")


def completing_ack(word: str) -> str:
    """The reports that a command of the schedule asks for: its completion is one."""
    need(ack(word)[3] == "c")
    return word


def asked(row: TextRow) -> tuple[Reader, str]:
    """The reports that are asked for."""
    why = f"not {ACKS}, with - for each report that is not wanted"
    return (completing_ack, f"{why}; service {SCHEDULE} wants c") if is_scheduling(row) else (ack, why)


def behaves(row: TextRow) -> tuple[Reader, str]:
    """How the spacecraft will behave: a command of the schedule completes."""
    if is_scheduling(row):
        return one_of("ok"), f"not ok, which service {SCHEDULE} wants"
    return outcome, "not an outcome, such as ok or halt/2/17, where a code is 16 to 255"


def yes_or_no(_row: TextRow) -> tuple[Reader, str]:
    """Yes or no."""
    return is_yes, "neither yes nor no"


STACK = Kind(STACK_COLUMNS, MOST_ROWS, "line", "lines", (
    own_number("line"), within(0, LAST_APID), within(1, LAST_KIND), subtype, target, time, asked, yes_or_no,
    lambda row: (maybe(earlier(row["number"])), "neither empty nor an earlier line"), behaves))
PROCEDURE = Kind(PROCEDURE_COLUMNS, MOST_STEPS, "step", "steps", (
    own_number("step"), lambda row: (step_text, f"not 1 to {LONGEST_STEP} printable characters of ASCII"), yes_or_no,
    lambda row: (maybe(number), "neither empty nor a number")))
KINDS = {"stack": STACK, "procedure": PROCEDURE}


# ---- what was found

MOST_LINES, MOST_SHOWN = 20, 256
OPEN_QUOTE = ", and a quote stays open to the end of the file"
# The front of a workbook, which is an archive, and those of a text of another encoding.
WORKBOOK, UTF_16 = b"PK\3\4", (b"\xff\xfe", b"\xfe\xff")
OTHER_FILES = ("the file is UTF-16, and not UTF-8", "the file is a workbook, and no text")


def limited(lines: list[str]) -> list[str]:
    """The first of some lines, and that there are more."""
    return lines[:MOST_LINES] + ["and more"] * (len(lines) > MOST_LINES)


def quoted(word: str) -> str:
    """The first bytes of a value, between quotes."""
    shown = "".join(it if " " <= it <= "~" and it not in '"\\' else f"\\x{ord(it):02x}" for it in word[:MOST_SHOWN])
    return f'"{shown}"' + ".." * (len(word) > MOST_SHOWN)


def is_utf_16(data: bytes) -> bool:
    """Whether bytes are a text of UTF-16, by their mark or by every second of the first four."""
    return data[:2] in UTF_16 or data[0:4:2] == b"\0\0" or data[1:4:2] == b"\0\0"


def other_file(data: bytes) -> str:
    """What bytes are that are no text; nothing where they may be one."""
    return OTHER_FILES[0] if is_utf_16(data) else OTHER_FILES[1] if data.startswith(WORKBOOK) else ""


def other_column(header: Sequence[str], fields: Sequence[str]) -> str:
    """The first column of a record that is not that of a header."""
    for at, (column, field) in enumerate(zip(header, fields), 1):
        if column != field:
            return f"column {at} is not {column}: {quoted(field)}"
    at = min(len(header), len(fields))
    return f"column {at + 1} is missing: {header[at]}" if at < len(header) else f"column {at + 1} is one too many: {quoted(fields[at])}"


def no_header(kind: Kind, data: bytes, records: Sequence[list[str]]) -> str:
    """What stands where the header should."""
    if other_file(data) or not records:
        return other_file(data) or "the file is empty"
    first = records[0]
    for separator, name in ((";", "semicolons"), ("\t", "TABs")):
        if len(first) == 1 and separator in first[0]:
            return f"{name} stand where commas should"
    return other_column(kind.header, first)


# ---- what is wrong with a text

# Why a row may not name a line, where it is an insert and where it is not.
WHY_NO_ACTIVITY = f"a line of service {SCHEDULE}, one whose ack has no a, or one that is named twice"
WHY_NO_TARGET = f"a line of service {SCHEDULE}"


class Sheet(NamedTuple):
    """A text as its kind reads it: its bytes, its records, and the line of the file at which each begins."""
    kind: Kind
    data: bytes
    records: list[list[str]]
    lines: list[int]

    def place(self, row: int) -> str:
        """A row by its number, and the line of the file where that is not the one behind as many lines."""
        line = self.lines[row]
        return f"{self.kind.row} {row}" + f" (line {line} of the file)" * (line != row + 1)

    def open_quote(self, row: int) -> str:
        """What is told of a quote that stays open, behind a fault of this row: nothing where none does, or where it is no quote of the row."""
        return OPEN_QUOTE * (row == len(self.records) - 1 and ends_quoted(self.data))


def ends_quoted(data: bytes) -> bool:
    """Whether a quote of a text stays open to its end: fields that end, and then one that begins with a quote and does not."""
    return re.fullmatch(r'(?:(?:"(?:[^"]|"")*+"[^,\r\n]*|[^",\r\n][^,\r\n]*)?[,\r\n])*+"(?:[^"]|"")*+', unmarked(data).decode("latin-1")) is not None


def sheet_of(kind: Kind, data: bytes) -> Sheet:
    """A text, read."""
    text = unmarked(data).decode("latin-1")
    placed = placed_records(text)
    return Sheet(kind, data, [record for _, record in placed], [text.count("\n", 0, begin) + 1 for begin, _ in placed])


def too_much(sheet: Sheet, row: int, what: str) -> Told:
    """What is told of a text that is too long: where it is no text, that too."""
    return Told([": ".join(filter(None, (what, other_file(sheet.data)))) + sheet.open_quote(row)], False, Refusal.TOO_LONG)


def why_no_table(sheet: Sheet) -> Optional[Told]:
    """What is wrong with a text as a whole, and with what it is refused; nothing where it is a table."""
    kind, records = sheet.kind, sheet.records
    if len(sheet.data) > LONGEST_TEXT:
        return too_much(sheet, 0, f"file: more than {LONGEST_TEXT} bytes")
    if len(records) - 1 > kind.most:
        return too_much(sheet, kind.most + 1, f"{sheet.place(kind.most + 1)}: more than {kind.most} {kind.rows}")
    if records[:1] != [kind.header]:
        return Told([f"header: not {','.join(kind.header)}: {no_header(kind, sheet.data, records)}{sheet.open_quote(0)}"], False, Refusal.BAD_TEXT)
    return Told([f"{kind.row} 1: missing: nothing but a header"], False, Refusal.BAD_TEXT) if len(records) == 1 else None


def why_no_row(kind: Kind, at: int, fields: Sequence[str]) -> str:
    """What is wrong with a row by itself, behind its place, and what was found; nothing where nothing is."""
    if len(fields) != len(kind.header):
        return f": not {len(kind.header)} fields: {len(fields)}"
    row: TextRow = {"number": at, **dict(zip(kind.header, fields))}
    for column, rule in zip(kind.header, kind.rules):
        read, why = rule(row)
        if not is_read(read, str(row[column])):
            return f", field {column}: {why}: {quoted(str(row[column]))}"
    return ""


def why_barred(rows: Sequence[list[str]], fields: list[str]) -> str:
    """Why the command of a row may not name what it names, or one twice; nothing where it may."""
    row = dict(zip(STACK_COLUMNS, fields))
    lines, is_insert = list(filter(None, row["target"].split(";"))), commands(row, Subtype.INSERT)
    named = [dict(zip(STACK_COLUMNS, rows[int(it) - 1])) for it in lines]
    if any(is_scheduling(it) or is_insert and it["ack"][0] == "-" for it in named) or len(set(lines)) < len(lines):
        return f", field target: {WHY_NO_ACTIVITY if is_insert else WHY_NO_TARGET}: {quoted(row['target'])}"
    return ""


def writes_60(instant: str) -> bool:
    """Whether second 60 is written in an instant, with colons or without."""
    time = re.split("[Tt ]", instant, maxsplit=1)[1:]
    return bool(time and re.match("..:...60|..[^:].60", time[0], re.DOTALL))


def note_of(kind: Kind, fields: Sequence[str]) -> str:
    """What is told of a row that keeps all rules, behind its place; nothing of most."""
    if kind is PROCEDURE:
        return f", field request: no request has number 0: {quoted(fields[3])}" if fields[3] == "0" else ""
    return f", field time: second 60 is read as 59: {quoted(fields[5])}" if any(map(writes_60, fields[5].split(";"))) else ""


def placed(sheet: Sheet, told: Callable[[int, list[str]], str], behind: Callable[[Sheet, int], str] = lambda _sheet, _row: "") -> list[str]:
    """What is told of each row, behind its place, and what stands behind that."""
    found = ((at, told(at, fields)) for at, fields in enumerate(sheet.records[1:], 1))
    return [sheet.place(at) + why + behind(sheet, at) for at, why in found if why]


def told_of(name: str, data: bytes) -> Told:
    """What is told of the bytes of a text of this kind."""
    kind = KINDS[name]
    sheet = sheet_of(kind, data)
    whole = why_no_table(sheet)
    if whole:
        return whole
    broken = placed(sheet, lambda at, fields: why_no_row(kind, at, fields), Sheet.open_quote)
    if broken:
        return Told(limited(broken), False, Refusal.BAD_TEXT)
    barred = placed(sheet, lambda at, fields: why_barred(sheet.records[1:], fields), Sheet.open_quote) if kind is STACK else []
    if barred:
        return Told(limited(barred), False, Refusal.BAD_ACTIVITY)
    notes = placed(sheet, lambda at, fields: note_of(kind, fields))
    is_ok = kind is STACK or not notes
    return Told(["ok"] * is_ok + limited(notes), is_ok, 0)
