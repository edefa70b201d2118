"""The page of the board as the program makes it, beside that of the plain desk, byte for byte: served to a GET, of desks that are posted act by act, at many
moments of their day; and printed of files, with all that such a command has to refuse.
"""
import os
import random
from typing import Iterator, Sequence

from generate.days import day_script
from generate.http_words import Case, act, get, load
from model.desk import Desk
from model.rows import Tables, empty_tables
from model.wall import board_page
from tests.asked import ASKED
from tests.http_cases import Patient, Served
from tests.http_peer import Server
from tests.report_cases import Reported, change, digests
from tests.runs import write_files
from tests.wall_desks import LONG, Noted, busy, crowded, empty, full, in_doubt, quiet, stacked, trouble

# How many lines of a desk one script has: it may have 1,048,576 bytes.
AT_ONCE = 20_000
SEED, DAYS, EVERY = 20261128, 6, 12
SHOWN = Case("the board", get("/board"), 0)


def scenes() -> list[tuple[str, Noted]]:
    """Desks that are written by hand."""
    return [("empty", empty()), ("quiet", quiet()), ("busy", busy()), ("long names", busy(LONG)), ("in doubt", in_doubt()), ("trouble", trouble()),
            ("a stack", stacked(60)), ("crowded", crowded())]


def posted(desk: Noted, line: str) -> bytes:
    """A post of the same act, or load, as this line of a script."""
    moment, by, text = line.split(" ", 2)
    kind, *words = text.split(" ")
    if kind in ("stack", "procedure"):
        return load(kind, words[0], desk.files[words[1]].decode("ascii"), by, int(moment))
    return act(text, by, int(moment))


def day_of(desk: Noted) -> Iterator[Case]:
    """The posts of a desk's lines, with its board now and then, and in the end."""
    for at, line in enumerate(desk.lines):
        yield Case(line, posted(desk, line), 0)
        if at % EVERY == 0:
            yield SHOWN
    yield SHOWN


class Pages(Served):
    """Boards that are served."""

    def test_scenes(self) -> None:
        """Desks that are written by hand, from their first act on."""
        for name, desk in scenes():
            self.cases.play(name, day_of(desk), looks=False)

    def test_many(self) -> None:
        """More open requests, and more that waits, than the board shows."""
        desk = Noted()
        for at in range(250):
            desk.line(f"{at} ann enter {at % 7} a--c no 8 1 - - ok")
        for at in range(1, 41):
            desk.line(f"{300 + at} bob approve {at}")
        self.cases.play("many", day_of(desk), looks=False)

    def test_moves(self) -> None:
        """A request with more moves than its bar shows."""
        desk = Noted()
        desk.line("1 ann initiate none")
        for at, text in enumerate(["enter 5 a--c no 8 1 - - ok", "approve 1", "enter 6 a--c no 8 1 - - ok", "approve 2"]):
            desk.line(f"{2 + at} {'bob' if text.startswith('approve') else 'ann'} {text}")
        for at in range(9):
            desk.line(f"{20 + 40 * at} ann release 1")
            desk.line(f"{21 + 40 * at} ann release 2")
            desk.line(f"{30 + 40 * at} ann terminate")
            desk.line(f"{31 + 40 * at} ann initiate none")
        self.cases.play("many moves", (it._replace(want=None) for it in day_of(desk)), looks=False)


class Files(Patient, Reported):
    """Boards of files that nobody has open."""

    def is_wrong(self) -> bool:
        """Whether a case has failed."""
        return self.cases.failed > 0

    def asks(self, name: str, folder: str, desk: Desk, file: str = "desk.db") -> None:
        """The command prints the page of this desk, and leaves the files of the folder."""
        before = digests(folder)
        ran = self.cases.call(folder, ["board", file])
        wanted = board_page(desk, True).decode("ascii")
        self.cases.tell(name, "" if (ran.status, ran.err) == (0, "") else f"status {ran.status}: {ran.err}", "" if ran.out == wanted else "another page",
                        "" if digests(folder) == before else "a file was changed")

    def refuses(self, name: str, folder: str, words: Sequence[str], err: str) -> None:
        """The command prints nothing but this on the standard error, ends with 2, and leaves the files of the folder."""
        before = digests(folder)
        ran = self.cases.call(folder, ["board", *words])
        self.cases.tell(name, "" if ran.status == 2 and ran.out == "" and err in ran.err else f"{ran}", "" if digests(folder) == before else "a file was changed")

    def made_of(self, desk: Noted) -> str:
        """A folder with this desk in a file."""
        folder = self.cases.folder()
        write_files(folder, desk.files)
        for at in range(0, max(1, len(desk.lines)), AT_ONCE):
            lines = desk.lines[at:at + AT_ONCE]
            ran = self.cases.run(folder, lines, "--db", "desk.db", *(["--at", lines[0].split(" ")[0]] if at else []))
            self.cases.tell("a desk is made", "" if ran.status == 0 and not ran.err else f"status {ran.status}: {ran.err}")
        return folder

    def test_scenes(self) -> None:
        """Desks that are written by hand: what is on its way stands there still."""
        for name, desk in scenes():
            self.asks(name, self.made_of(desk), desk)

    def test_days(self) -> None:
        """Random days, one behind the other."""
        for seed in range(ASKED.seed_or(SEED), ASKED.seed_or(SEED) + ASKED.count_or(DAYS)):
            folder, tables, moment = self.cases.folder(), empty_tables(), 0
            for day in range(2):
                tables, moment = self.day(f"random {seed}, day {day}", folder, seed * 2 + day, tables, moment)

    def day(self, name: str, folder: str, seed: int, tables: Tables, moment: int) -> tuple[Tables, int]:
        """Another day of a desk, and its board; the rows then, and the moment."""
        script = day_script(random.Random(seed), tables, moment, seed, 300)
        write_files(folder, script.files)
        self.cases.run(folder, script.lines, "--db", "desk.db", "--at", str(moment))
        self.asks(name, folder, script.desk)
        return script.desk.tables(), script.moment

    def test_held(self) -> None:
        """A file that another program has open."""
        folder = self.made_of(quiet())
        with Server(ASKED.program, folder, "desk.db", 2) as server:
            server.exchange(get("/places"))
            ran = self.cases.call(folder, ["board", "desk.db"])
            self.cases.tell("a file that is served", "" if ran[:2] == (2, "") and ran.err.startswith("tcdesk: cannot use desk.db\n") else f"{ran}")
            server.exchange(get("/places"))
            server.end()

    def test_full(self) -> None:
        """A desk that is full."""
        desk = full()
        self.asks("full", self.made_of(desk), desk)

    def test_refused(self) -> None:
        """Files that are none, that no desk could have written, or that another program has; and words that are none."""
        desk = quiet()
        folder = self.made_of(desk)
        cannot = "tcdesk: cannot use "
        self.refuses("no file", folder, ["missing.db"], f"{cannot}missing.db\n")
        self.refuses("a folder", folder, ["."], f"{cannot}.\n")
        wrong: list[list[str]] = [[], ["desk.db", "more"], ["desk.db", "--at", "1"]]
        for words in wrong:
            self.refuses("words", folder, words, "Usage")
        for name, statement in (("a place", "UPDATE request SET place = 3 WHERE num = 1"), ("a tally", "UPDATE tally SET amount = amount + 1 WHERE place = 1"),
                                ("a row that does not read", "UPDATE move SET cause = 99 WHERE seq = 1"), ("a move that is gone", "DELETE FROM move WHERE seq = 2")):
            copy = self.cases.copy(folder)
            change(copy, statement)
            self.refuses(name, copy, ["desk.db"], f"{cannot}desk.db\n")
        with open(f"{folder}/text.db", "w", encoding="ascii") as file:
            file.write("no desk\n")
        self.refuses("a text", folder, ["text.db"], f"{cannot}text.db\n")
        os.remove(f"{folder}/text.db")
