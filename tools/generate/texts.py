"""Texts of stacks and of procedures, in their many spellings: how records become bytes, and how they are damaged."""
import re
from datetime import datetime, timedelta, timezone
from random import Random
from typing import Iterable, Optional, Sequence

from model.facts import MARK, PROCEDURE_HEADER, STACK_HEADER

Records = list[list[str]]

BAD_FIELDS = ["", "-", "0", "01", "256", "2048", "-0", "+1", " 1", "yes ", "Yes", "aspc", "a--", "ok/0", "ok/10", "refuse/15", "halt/1",
              "2031-05-04", "2031-05-04T10:00:00", "2031-05-04T10:00:00.5Z", "2031-13-04T10:00:00Z", "2100-01-01T00:00:00Z",
              "1969-12-31T23:59:59Z", "4102444800", "4294967296", "201", "\xff", "\xc3\xa9", "1,2", 'a"b', "~" * 81, "desk"]


def row_text(fields: Sequence[str], dice: Optional[Random] = None) -> str:
    """A record; now and then some fields are quoted that need not be."""
    return ",".join('"' + it.replace('"', '""') + '"' if re.search('[,"]', it) or dice and dice.random() < 0.02 else it for it in fields)


def some_bytes(dice: Random, records: Sequence[str]) -> bytes:
    """The bytes of a text of these records, in one of its spellings."""
    end = dice.choice(["\n"] * 6 + ["\r\n", "\r", "\n\n"])
    text = end.join(records) + (end if dice.random() < 0.9 else "")
    return (MARK if dice.random() < 0.1 else b"") + text.encode("latin-1")


def some_count(dice: Random) -> int:
    """How many activities an insert names: one as often as several."""
    return dice.choice([1, 1, 1, 1, 2, 2, 3, 8])


def joined(words: Iterable[str]) -> str:
    """A list as it is spelled: its words, parted by semicolons."""
    return ";".join(words)


def no_list(dice: Random, words: Sequence[str]) -> list[str]:
    """The words of a list with one more, less, or another, by which it is none, or another, mostly of another length."""
    at = dice.randrange(len(words))
    word, other = words[at], dice.choice(["", " ", "-", "00", "x", f" {words[at]}"])
    others: list[list[str]] = [[], [word] * 2, [word] * 9, ["", word], [other]]
    return [*words[:at], *dice.choice(others), *words[at + 1:]]


def some_instant(dice: Random, seconds: int) -> str:
    """A moment as an instant, in one of its spellings."""
    hours = dice.choice([0] * 6 + [1, -3, 5])
    it = datetime(1970, 1, 1, tzinfo=timezone.utc) + timedelta(seconds=seconds, hours=hours)
    zone = dice.choice(["Z", "+00:00"]) if hours == 0 else f"{'+' if hours > 0 else '-'}0{abs(hours)}:00"
    return it.strftime("%Y-%m-%dT%H:%M:%S") + dice.choice([""] * 5 + [".0", ".000000000"]) + zone


def damaged(dice: Random, records: Records) -> Records:
    """These records with a fault, most of which make the text none."""
    kind, at = dice.randrange(8), dice.randrange(len(records))
    fields = list(records[at])
    if kind < 4:
        fields[dice.randrange(len(fields))] = dice.choice(BAD_FIELDS)
    elif kind == 4:
        fields = fields[:-1] if dice.random() < 0.5 else fields + [""]
    elif kind == 5:
        return records[:1] if dice.random() < 0.5 else []
    elif kind == 6 and len(records) > 2:
        return records[:at] + records[at + 1:]
    else:
        return records + records[-1:] * dice.choice([1, 198, 201])
    return records[:at] + [fields] + records[at + 1:]


def stack_text(*apids: int) -> bytes:
    """The text of a stack of plain requests, of these application processes."""
    rows = [f"{line},{apid},8,1,,,----,no,,ok" for line, apid in enumerate(apids, 1)]
    return "".join(f"{it}\n" for it in [STACK_HEADER] + rows).encode()


def procedure_text(*requests: object) -> bytes:
    """The text of a procedure of steps that name these requests; one that is empty names none."""
    rows = [f"{step},do it,no,{request}" for step, request in enumerate(requests, 1)]
    return "".join(f"{it}\n" for it in [PROCEDURE_HEADER] + rows).encode()
