"""The texts of stacks and of procedures, as their grammar has them: records of comma-separated values, instants, rows and steps. What is none raises
`Refused`. It is written from the requirements, and asks the program nothing.
"""
import re
from datetime import date
from typing import Callable, NamedTuple, Optional, Sequence

from model.facts import LAST_MOMENT, LONGEST_STEP, LONGEST_TEXT, MARK, MOST_ROWS, MOST_STEPS, PROCEDURE_HEADER, STACK_HEADER, Refusal
from model.lines import between, check_targets, form, is_yes, number
from model.refused import Refused, need
from model.request import Form

STACK_COLUMNS, PROCEDURE_COLUMNS = STACK_HEADER.split(","), PROCEDURE_HEADER.split(",")
ENDS, PLAIN = re.compile("[\r\n]+"), re.compile("[^,\r\n]*")


class Row(NamedTuple):
    """A row of a stack: what is entered, its targets by their lines, and the line that has to be completed before, or 0."""
    form: Form
    after: int


class Step(NamedTuple):
    """A step of a procedure; `request` is none where it releases none."""
    text: str
    is_countersigned: bool
    request: Optional[int]


# ---- records

def matched(pattern: re.Pattern[str], text: str, at: int) -> str:
    """What a pattern that fits anything matches here."""
    found = pattern.match(text, at)
    assert found, pattern
    return found.group()


def field_at(text: str, at: int) -> tuple[str, int]:
    """The field that begins here, and where it ends: a quoted one has its quotes doubled."""
    made, is_quoted = [], text[at:at + 1] == '"'
    while is_quoted and at < len(text):
        end = text.find('"', at + 1)
        made.append(text[at + 1:] if end < 0 else text[at + 1:end])
        at = len(text) if end < 0 else end + 1
        is_quoted = text[at:at + 1] == '"'
        made.append('"' if is_quoted else "")
    rest = matched(PLAIN, text, at)
    return "".join(made) + rest, at + len(rest)


def placed_records(text: str) -> list[tuple[int, list[str]]]:
    """The records of a text of comma-separated values, each with the place where it begins: empty lines are none."""
    records, at = [], 0
    while at < len(text):
        if text[at] in "\r\n":
            at += len(matched(ENDS, text, at))
            continue
        begin = at
        value, at = field_at(text, at)
        record = [value]
        while text[at:at + 1] == ",":
            value, at = field_at(text, at + 1)
            record.append(value)
        records.append((begin, record))
    return records


def records_of(text: str) -> list[list[str]]:
    """The records of a text."""
    return [record for _, record in placed_records(text)]


def unmarked(data: bytes) -> bytes:
    """A text without the mark that may stand at its very front."""
    return data.removeprefix(MARK)


def table_of(data: bytes, header: Sequence[str], most: int) -> list[list[str]]:
    """The records behind the header of a text, each with as many fields."""
    need(len(data) <= LONGEST_TEXT, Refusal.TOO_LONG)
    records = records_of(unmarked(data).decode("latin-1"))
    need(len(records) <= most + 1, Refusal.TOO_LONG)
    try:
        data.decode("utf-8")
    except UnicodeDecodeError:
        raise Refused(Refusal.BAD_TEXT) from None
    need(len(records) > 1 and records[0] == header and all(len(it) == len(header) for it in records))
    return records[1:]


# ---- instants

CLOCK = r"([0-9]{2})(?:(:?)([0-9]{2})(?:\%d([0-9]{2})(?:[.,]([0-9]{1,9}))?)?)?"
PART = "[A-Za-z._][A-Za-z0-9._+-]*"  # of the name of a time zone
INSTANT = re.compile(rf"([0-9]{{4}}|[+-]00[0-9]{{4}})(-?)([0-9]{{2}})\2([0-9]{{2}})[Tt ]{CLOCK % 6}(?:[Zz]|([+-]){CLOCK % 12})(?:\[!?{PART}(?:/{PART})*\])?")


def clock(parts: Sequence[Optional[str]], last_hour: int, last_second: int) -> tuple[int, int]:
    """The seconds of hours, minutes and seconds, of which the last two may be wanting, and the fraction behind them in nanoseconds."""
    hour, _, minute, at, fraction = (it or "0" for it in parts)
    need(int(hour) <= last_hour and int(minute) <= 59 and int(at) <= last_second)
    return int(hour) * 3600 + int(minute) * 60 + min(59, int(at)), int(fraction.ljust(9, "0"))


def instant(word: str) -> int:
    """A moment as an instant with its offset, of whole seconds: in the extended and in the basic form, second 60 being 59. The name of a time zone may stand in
    brackets behind it (RFC 9557), which tells nothing more; what else may stand there is not known here, and refused.
    """
    found = INSTANT.fullmatch(word)
    if not found:
        raise Refused(Refusal.BAD_TEXT)
    parts = found.groups()
    try:
        days = date(int(parts[0]), int(parts[2]), int(parts[3])).toordinal() - date(1970, 1, 1).toordinal()
    except ValueError:
        raise Refused(Refusal.BAD_TEXT) from None
    shown, fraction = clock(parts[4:9], 23, 60)
    ahead, part = clock(parts[10:], 25, 59)
    ahead += part >= 500_000_000
    need(fraction == 0 and ahead < 26 * 3600)
    return number(str(days * 86400 + shown - (-ahead if parts[9] == "-" else ahead)), 0, LAST_MOMENT)


# ---- stacks and procedures

def earlier(line: int) -> Callable[[str], int]:
    """What reads a line before this one."""
    return between(1, line - 1)


def read_stack(data: bytes) -> list[Row]:
    """The rows of the stack that a text spells."""
    rows = []
    for line, fields in enumerate(table_of(data, STACK_COLUMNS, MOST_ROWS), 1):
        at, apid, service, subtype, target, time, asked, critical, after, behaves = fields
        need(at == str(line))
        made = form([apid, asked, critical, service, subtype, target, time, behaves], "", instant, earlier(line))
        rows.append(Row(made, earlier(line)(after) if after else 0))
    for row in rows:
        check_targets(row.form, [rows[it - 1].form for it in row.form.targets])
    return rows


def step_text(word: str) -> str:
    """What is done at a step."""
    need(0 < len(word) <= LONGEST_STEP and all(" " <= it <= "~" for it in word))
    return word


def read_procedure(data: bytes) -> list[Step]:
    """The steps of the procedure that a text spells."""
    steps = []
    for at, (step, text, countersigned, request) in enumerate(table_of(data, PROCEDURE_COLUMNS, MOST_STEPS), 1):
        need(step == str(at))
        steps.append(Step(step_text(text), is_yes(countersigned), number(request) if request else None))
    return steps
