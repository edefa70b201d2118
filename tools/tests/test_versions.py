"""Files of desks of each earlier version of the schema: those of tools/cases/schema-N, which programs wrote that knew no later one.

Each is opened and worked for a day, and prints what is written there, byte for byte. Then it is of the newest version: its tables are made by the
statements of a new desk, in their order, and all rows, with the numbers under which they stand, are those of the same desk that was of the newest version
before. So it is where the opening moves nothing, and where no line comes behind it. Another opening changes no byte of the file. A report changes none of a file
of an earlier version either, and is that of the same desk of the newest. A call whose reply was kept is answered as it was then, also where the server itself brings
the file to the newest version. Inserts of several activities, which no earlier version could keep, are entered and released at each of them, and at the
same desks of the newest version, whose inserts have one activity each.
"""
import os

from model.calls import Calls
from model.desk import Desk
from model.facts import SCHEMA_VERSION
from model.http import Acts, Loads, answer_to, reply_response
from model.kept import read_tables
from model.rows import Tables, move_line
from model.sound import why_unsound
from model.tables import opened_moves, opened_tables
from tests.asked import ASKED
from tests.changes import why_not_opened
from tests.http_cases import Patient
from tests.http_peer import Server
from tests.made_files import OLD_DAY, OLDER, Older, as_version, make_file
from tests.plain_runs import Plain, text_of
from tests.report_cases import difference
from tests.runs import Ended, run_kept, write_files
from tests.test_calls import Exchange, exchanges
from tests.worked_desks import AGAIN, Worked, stored


def list_day(behind: int) -> list[str]:
    """Lines that enter requests behind so many, and inserts of some of them, which are released: one is carried out, one waits as the desk is closed."""
    first, plain = behind + 1, [f"{OLD_DAY} ann enter 2040 a--c no 8 1 - - ok"] * 4
    lines = [*plain, *(f"{OLD_DAY} ann enter 2041 ---c no 11 4 {it} ok" for it in (f"{first + 1};{first} 600;700", f"{first + 3};{first + 2} 600;700"))]
    lines += [f"{OLD_DAY} bob approve {it}" for it in range(first, first + 6)]
    lines += [f"{OLD_DAY} ann {it}" for it in ("initiate none", f"release {first + 4}", "up", "work", "down", "set k 1", f"release {first + 5}")]
    return lines + [f"{OLD_DAY} ann request {it}" for it in range(first, first + 6)]


def by_plain(tables: Tables, told: list[Exchange]) -> list[bytes]:
    """What the plain desk over these tables answers to each of these requests."""
    calls, responses = Calls(Desk.opened(tables, AGAIN)), []
    for it in told:
        asked = answer_to(it.request)
        assert isinstance(asked, (Acts, Loads)), it.request
        responses.append(reply_response(calls.reply(asked)))
    return responses


class Versions(Patient, Worked):
    """Files of earlier versions."""

    looks_at = "versions"

    def is_wrong(self) -> bool:
        """Whether a fault was found."""
        return bool(self.faults)

    def made(self, older: Older) -> tuple[str, Tables]:
        """A folder with one of the files, and its tables, which a desk could have written."""
        folder, tables = super().made(older)
        self.assertEqual((older.version, None), (tables.version, why_unsound(tables)), older)
        return folder, tables

    def twin(self, tables: Tables) -> str:
        """A folder with the same desk in a file of the newest version."""
        folder = self.cases.folder()
        make_file(f"{folder}/desk.db", as_version(tables, SCHEMA_VERSION))
        return folder

    def newest(self, folder: str, wanted: Tables) -> list[str]:
        """In what the file of a desk is not of the newest version, as a new desk's is, or has other tables than these."""
        new = self.cases.folder()
        self.cases.run(new, [], "--db", "desk.db")
        listed, rows = stored(f"{folder}/desk.db")
        return [*super().newest(folder, wanted),
                "" if listed == stored(f"{new}/desk.db")[0] else f"its schema is {listed}",
                "" if rows.get("meta") == [(1, "schema", SCHEMA_VERSION)] else f"meta has {rows.get('meta')}"]

    def test_days(self) -> None:
        """Each is worked for a day, beside the same desk of the newest version, and then opened again."""
        for older in OLDER:
            folder, tables = self.made(older)
            twin, plain = self.twin(tables), Plain(older.lines.splitlines(), {}, left=tables, moment=OLD_DAY, is_kept=True)
            self.tell(f"{older}, the plain desk", difference(older.printed, plain.whole))
            self.tell(older, *self.day(older.lines, older.printed, folder), *self.newest(folder, plain.states[-1]))
            self.tell(f"{older}, in the newest", *self.day(older.lines, older.printed, twin))
            self.tell(older, "" if stored(f"{folder}/desk.db") == stored(f"{twin}/desk.db") else "its rows are not those of the same desk of the newest version")
            self.tell(older, *self.again(folder, plain.states[-1]))
        self.settle(f"{len(OLDER)} days")

    def test_lists(self) -> None:
        """At each, and at the same desk of the newest version, inserts of several are entered and released; then it is opened again."""
        for older in OLDER:
            folder, tables = self.made(older)
            lines = list_day(len(tables.request))
            plain = Plain(lines, {}, left=tables, moment=OLD_DAY, is_kept=True)
            right = Ended(plain.status, plain.whole, "")
            self.assertTrue(plain.states[-1].cargo, older)
            for name, where in ((f"{older}", folder), (f"{older}, in the newest", self.twin(tables))):
                write_files(where, {"day.tc": text_of(lines).encode()})
                ran = self.cases.call(where, ["run", "--db", "desk.db", "--at", str(OLD_DAY), "day.tc"])
                self.tell(f"{name}, with lists", difference(plain.whole, ran.out), "" if ran == right else f"it ends with {ran.status}, {ran.err!r}")
                self.tell(f"{name}, with lists", *self.newest(where, plain.states[-1]))
                os.remove(f"{where}/day.tc")
                opened = run_kept(ASKED.program, where, "desk.db", AGAIN, "/dev/null")
                self.tell(f"{name}, with lists, opened again", why_not_opened(opened, where, AGAIN, plain.states[-1]))
        self.settle(f"{len(OLDER)} days of lists")

    def test_openings(self) -> None:
        """Each is opened, and nothing comes behind that: of each version one at least has nothing to be moved, and one has."""
        moved: dict[int, list[int]] = {}
        for older in OLDER:
            folder, tables = self.made(older)
            moved.setdefault(older.version, []).append(len(opened_moves(tables, OLD_DAY)))
            ran = run_kept(ASKED.program, folder, "desk.db", OLD_DAY, "/dev/null")
            self.tell(older, why_not_opened(ran, folder, OLD_DAY, tables))
            opened = opened_tables(tables, OLD_DAY)
            self.tell(older, *self.newest(folder, opened), *self.again(folder, opened))
        self.assertTrue(all(min(counts) == 0 < max(counts) for counts in moved.values()), moved)
        self.settle(f"{len(OLDER)} openings")

    def test_logs(self) -> None:
        """Each where its program was killed, with all rows in the log beside it: it is reported, and then opened."""
        for older in OLDER:
            tables, folder = self.made(older)[1], self.cases.folder()
            make_file(f"{folder}/desk.db", tables, is_left_open=True)
            self.tell(f"{older}, in the log", *self.reported(folder, tables))
            ran = run_kept(ASKED.program, folder, "desk.db", OLD_DAY, "/dev/null")
            self.tell(f"{older}, in the log", why_not_opened(ran, folder, OLD_DAY, tables), *self.newest(folder, opened_tables(tables, OLD_DAY)))
        self.settle(f"{len(OLDER)} logs")

    def test_reports(self) -> None:
        """Each is reported, also when it was opened since; no file of its folder is changed by that."""
        for older in OLDER:
            folder, tables = self.made(older)
            for name, where in ((f"{older}", folder), (f"{older}, in the newest", self.twin(tables))):
                self.tell(name, *self.reported(where, tables))
            run_kept(ASKED.program, folder, "desk.db", OLD_DAY, "/dev/null")
            self.tell(f"{older}, opened", *self.reported(folder, opened_tables(tables, OLD_DAY)))
        self.settle(f"{len(OLDER)} reports")

    def test_replies(self) -> None:
        """Each call of which a reply is kept is sent again, to a server that brings the file to the newest version, to one behind a day, and to the next one: it is
        answered as it was, byte for byte, and nothing is done."""
        count = 0
        for older in OLDER:
            tables = self.made(older)[1]
            self.assertEqual(bool(tables.reply), os.path.exists(f"{older.path}.http"), older)
            if not tables.reply:
                continue
            told = exchanges(f"{older.path}.http")
            self.assertEqual(len(tables.reply), len(told), older)
            self.tell(f"{older}, the plain desk", "" if by_plain(tables, told) == [it.response for it in told] else "it answers otherwise")
            for name, is_worked in ((f"{older}, served", False), (f"{older}, served behind a day", True)):
                folder, _ = self.made(older)
                self.tell(name, *(self.day(older.lines, older.printed, folder) if is_worked else []))
                self.tell(name, *self.sent_again(folder, told), *self.sent_again(folder, told))
                count += 2 * len(told)
        self.assertGreater(count, 0)
        self.settle(f"{count} calls sent again")

    def sent_again(self, folder: str, told: list[Exchange]) -> list[str]:
        """What is wrong where these calls are sent to a server of the desk in a folder."""
        tables = read_tables(f"{folder}/desk.db")
        opened, printed = opened_tables(tables, AGAIN), text_of(map(move_line, opened_moves(tables, AGAIN)))
        with Server(ASKED.program, folder, "desk.db", len(told), ["--at", str(AGAIN)]) as server:
            got = [(it, server.exchange(it.request)) for it in told]
            ended, right = server.end(), Ended(0, printed, server.says)
        faults = [f"{it.request!r:.300} is answered {response!r:.300}" for it, response in got if response != it.response]
        return [*faults, "" if ended == right else f"its end: {ended}", *self.newest(folder, opened)]
