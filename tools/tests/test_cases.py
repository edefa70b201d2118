"""The plain desk answers the scripts of tools/cases, and desks that are opened again, as persons wrote it; the program is asked nothing (tests `program` and
`changed` run them)."""
import os
from typing import Iterator, NamedTuple, Optional

from model.desk import answers
from model.lines import script_lines
from tests.made_files import OLD_DAY, two_days
from tests.plain_runs import CASES, Plain, case_files
from tests.runs import Tried



class Case(NamedTuple):
    """A script with its options, and what it prints with which status."""
    name: str
    script: str
    options: tuple[str, ...]
    printed: str
    status: int


def text_of(path: str, default: Optional[str] = None) -> str:
    """The text of a file; the default where there is none."""
    if default is not None and not os.path.exists(path):
        return default
    with open(path, encoding="latin-1", newline="") as file:
        return file.read()


def all_cases() -> Iterator[Case]:
    """All scripts, in order of name."""
    for name in sorted(it[:-3] for it in os.listdir(CASES) if it.endswith(".tc")):
        path = f"{CASES}/{name}"
        options = tuple(text_of(f"{path}.args", "").split())
        yield Case(name, text_of(f"{path}.tc"), options, text_of(f"{path}.stdout"), int(text_of(f"{path}.status", "0")))


class Cases(Tried):
    """The written cases, and the plain desk."""

    def test_cases(self) -> None:
        """Each line and the status of each."""
        files = case_files()
        faults: list[str] = []
        count = 0
        for case in all_cases():
            lines, status = answers(case.script, files, case.options)
            is_right = ("".join(f"{it}\n" for it in lines), status) == (case.printed, case.status)
            faults, count = faults + ([] if is_right else [f"the plain desk answers {case.name} otherwise"]), count + 1
        print(f"cases: {count} written scripts, {len(faults)} that the plain desk answers otherwise")
        self.no_faults(faults)

    def test_days(self) -> None:
        """Each desk that is left and opened again: all that is printed of its second day."""
        faults = []
        for it in two_days():
            left = Plain(script_lines(it.first), {}, is_kept=True)
            day = Plain(script_lines(it.second), {}, left=left.states[-1], moment=OLD_DAY)
            faults += [f"the first day of {it.name} is refused"] * left.status + [f"{it.name}: {day.whole!r:.900}"] * (day.whole != it.printed)
        print(f"cases: {len(two_days())} desks of two days")
        self.assertTrue(two_days())
        self.no_faults(faults)
