"""A desk that is kept in a file, and the plain desk beside it, for desks that have much: day by day each printed line is compared, and all tables
of the file. Of a table that differs the first row that does is told, so that one of a million rows is looked at as fast as one of ten.
"""
from itertools import zip_longest
from typing import Any, Iterable, Iterator, Optional, Sequence

from generate.limit_days import Line
from model.desk import Desk
from model.facts import WINDOW
from model.rows import ROWS, Tables
from tests.http_peer import Fault, run
from tests.plain_runs import kept_tables
from tests.runs import write_files


def first_unlike(found: Sequence[Any], wanted: Sequence[Any]) -> Optional[str]:
    """The first row in which a table is not as it is wanted, by its place; none where there is none."""
    if found == wanted:
        return None
    at = next((at for at, (one, other) in enumerate(zip(found, wanted)) if one != other), min(len(found), len(wanted)))
    return f"row {at + 1} is {found[at:at + 1]!r:.300}, and not {wanted[at:at + 1]!r:.300}, of {len(found)} and {len(wanted)}"


def why_unlike(path: str, wanted: Tables) -> str:
    """In what the tables that a file alone holds are not these; nothing where they are."""
    found = kept_tables(path, "mode=ro&immutable=1")
    if found is None:
        return "there is no table"
    told = {name: first_unlike(getattr(found, name), getattr(wanted, name)) for name in ROWS}
    return "; ".join(f"{name}: {why}" for name, why in told.items() if why)


class Beside:
    """A desk in a folder of its own, whose scripts load these files; what is wrong of it is told in `faults`."""

    def __init__(self, program: str, folder: str, files: dict[str, bytes], left: Optional[Tables] = None, seconds: float = 900) -> None:
        """There is no file yet, or one that holds these tables. Each script has so many seconds."""
        self.program, self.folder, self.files, self.left, self.seconds = program, folder, files, left, seconds
        self.faults: list[str] = []
        write_files(folder, files)

    @property
    def path(self) -> str:
        """The file that keeps the desk."""
        return f"{self.folder}/desk.db"

    def opened(self, moment: int, window: int) -> Desk:
        """The plain desk, as it is opened at this moment."""
        return Desk.opened(self.left, moment, window, files=self.files) if self.left else Desk(window, files=self.files)

    def day(self, name: str, lines: Iterable[Line], moment: int = 0, window: int = WINDOW) -> Desk:
        """A day of these lines: each is answered as the plain desk answers it, and the file then has its tables. Gives the plain desk behind it."""
        lines, desk = list(lines), self.opened(moment, window)
        wanted = [("the opening", it.line()) for it in desk.opening]
        for line in lines:
            answer = desk.line(line.text)
            if not answer[0].startswith(line.first):
                self.faults.append(f"{name}: {line.text}: the plain desk answers {answer[0]!r}, and a person {line.first!r}")
            wanted += [(line.text, it) for it in answer]
        wanted.append(("the end", desk.places()))
        self.compare(name, wanted, (it.text for it in lines), "--at", str(moment), "--w", str(window))
        self.left = desk.tables()
        self.looks(name)
        return desk

    def compare(self, name: str, wanted: list[tuple[str, str]], lines: Iterable[str], *words: str) -> None:
        """Runs these lines: what is printed is what is wanted, each with the line that is answered so."""
        try:
            printed: Iterator[str] = iter(run(self.program, self.folder, lines, "--db", "desk.db", *words, seconds=self.seconds).splitlines())
        except Fault as why:
            self.faults.append(f"{name}: {why!s:.600}")
            return
        for right, got in zip_longest(wanted, printed):
            if right is None or got != right[1]:
                line, answer = right or ("behind the end", None)
                self.faults.append(f"{name}: {line:.100}: {got!r:.200}, and not {answer!r:.200}")
                return

    def looks(self, name: str) -> None:
        """Looks whether the file has the tables of the plain desk."""
        if not self.faults:
            why = why_unlike(self.path, self.left) if self.left else ""
            self.faults += [f"{name}: its tables: {why}"] if why else []
