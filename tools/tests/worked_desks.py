"""Files of desks that are worked for a day, reported and opened again, each beside the plain desk."""
import os
import tempfile
from typing import Any

from model.kept import connect, read_tables
from model.rows import Tables, move_line, places_line
from tests.asked import ASKED
from tests.changes import left_beside
from tests.made_files import OLD_DAY, Older, make_older
from tests.plain_runs import unlike
from tests.report_cases import ALL, Cases, changed, difference, digests
from tests.report_printer import moves_in, report_of
from tests.runs import Tried, bytes_of, run_kept, write_files

# When each is opened again.
AGAIN = 9000
# What the tests leave beside a desk's file.
OWN_FILES = {"day.tc", "served.out", "served.err"}


def stored(path: str) -> tuple[list[Any], dict[str, list[Any]]]:
    """What SQLite finds in a file alone: what its tables and indexes were made by, in order; and all rows, with the numbers under which they stand."""
    connection = connect(path, "immutable=1")
    try:
        listed = connection.execute("SELECT rowid, type, name, tbl_name, sql FROM sqlite_schema ORDER BY rowid").fetchall()
        names = [name for _, kind, name, *_ in listed if kind == "table"]
        return listed, {name: connection.execute(f"SELECT rowid, * FROM {name} ORDER BY rowid").fetchall() for name in names}
    finally:
        connection.close()


class Worked(Tried):
    """Files of desks, each in a folder of its own, and what of them is not as it should be."""

    looks_at = ""

    def setUp(self) -> None:
        """A folder to work in, and no fault yet."""
        folder = tempfile.TemporaryDirectory(prefix="worked-")
        self.addCleanup(folder.cleanup)
        self.cases, self.faults = Cases(ASKED.program, folder.name), list[str]()

    def tell(self, name: object, *faults: str) -> None:
        """Notes what of a case is not as it should be."""
        self.faults += [f"{name}: {it}" for it in faults if it]

    def settle(self, what: str) -> None:
        """Tells what was found."""
        print(f"{self.looks_at}: {what}, {len(self.faults)} faults")
        self.no_faults(self.faults)

    def made(self, older: Older) -> tuple[str, Tables]:
        """A folder with one of the files of an earlier version, and its tables."""
        folder = self.cases.folder()
        make_older(f"{folder}/desk.db", older)
        return folder, read_tables(f"{folder}/desk.db")

    def day(self, lines: str, printed: str, folder: str) -> list[str]:
        """The day of a desk, by these lines: what of that is not as it has to be printed. A run in which a line is refused ends with 1."""
        write_files(folder, {"day.tc": lines.encode()})
        ran = self.cases.call(folder, ["run", "--db", "desk.db", "--at", str(OLD_DAY), "day.tc"])
        status = int("\nrefused " in f"\n{printed}")
        return [difference(printed, ran.out), "" if (ran.status, ran.err) == (status, "") else f"status {ran.status}, {ran.err!r}"]

    def newest(self, folder: str, wanted: Tables) -> list[str]:
        """In what the file of a desk has other tables than these, or is not alone."""
        beside = {*left_beside(folder)} - OWN_FILES
        return [unlike(read_tables(f"{folder}/desk.db"), wanted), f"beside it stay {beside}" if beside else ""]

    def again(self, folder: str, tables: Tables) -> list[str]:
        """In what another opening, of these tables, is not one that moves nothing and changes no byte."""
        before = bytes_of(f"{folder}/desk.db")
        ran = run_kept(ASKED.program, folder, "desk.db", AGAIN, "/dev/null")
        is_right = (ran.status, ran.lines, ran.errors) == (0, [places_line(tables)], "")
        return ["" if is_right else f"opened again: {ran}", "" if bytes_of(f"{folder}/desk.db") == before else "opened again the file is another"]

    def reported(self, folder: str, tables: Tables) -> list[str]:
        """What of the reports of a desk with these tables is not as it should be: of all its moves, of some, and of none."""
        moves, last = moves_in("\n".join(move_line(it) for it in tables.move)), tables.move[-1].moment
        faults = []
        for begin, end in (ALL, (1, last), (last, last)):
            before = digests(folder)
            ran = self.cases.call(folder, ["report", "desk.db", str(begin), str(end)])
            is_right = (ran.status, ran.err) == (0, "") and before.keys() == set(os.listdir(folder))
            faults += [difference(report_of(moves, "closed", begin, end), ran.out), changed(before, folder), "" if is_right else f"{ran.status}, {ran.err!r}"]
        return faults
