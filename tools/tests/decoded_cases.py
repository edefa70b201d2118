"""The cases of tools/cases/decoded.txt: texts of octets, and the lines that say what they mean, as they were written by hand."""
import pathlib
import re
from typing import NamedTuple

CASES = pathlib.Path(__file__).parents[1] / "cases" / "decoded.txt"
LEFT_OUT = ".."  # stands for any lines


class Case(NamedTuple):
    """A text of a layer, by a profile, and its lines."""
    title: str
    profile: str
    layer: str
    text: str
    lines: list[str]


def cases() -> list[Case]:
    """Reads all cases."""
    found = []
    for part in re.split(r"^(?=\[\d+\] )", CASES.read_text(encoding="ascii"), flags=re.M)[1:]:
        title, profile, layer, text, *lines = part.rstrip("\n").split("\n")
        settings, name, octets = (it.partition(":")[2].removeprefix(" ") for it in (profile, layer, text))
        found.append(Case(title, settings, name, octets, [it.removeprefix("  ") for it in lines]))
    return found


def are_as_written(lines: list[str], written: list[str]) -> bool:
    """Returns whether lines are those of a case."""
    pattern = "".join("(?:.*\n)*" if it == LEFT_OUT else re.escape(it) + "\n" for it in written)
    return re.fullmatch(pattern, "".join(f"{it}\n" for it in lines)) is not None
