"""Shift reports, asked for in scripts and by the command, beside those of a plain printer.

Asked are a worked example, which is written out, shifts at the borders of what a moment may be, instants, random shifts of a random
history, and shifts of more moves than the program reads at a time; desks whose program was killed, and some that another program has.
"""
import os
import random
import re
import subprocess
from contextlib import closing
from pathlib import Path
from typing import Optional, Sequence

from generate.days import day_script
from model.kept import connect, tables_of
from model.rows import Tables, empty_tables, move_line
from tests.asked import TOOLS
from tests.report_cases import (ALL, ENTRY, LAST, LINK, REPORTS, WORKED, Cases, Reported, Shift, change, changed, difference, digests, questions,
                                unless, unlike)
from tests.report_printer import TIMES, Moved, moves_in, places_of, report_of
from tests.runs import write_files, write_lines

SEED = 20311127
LONG = "op00000000000016"
# A desk in memory, and one in a file: the options of its run.
WHERE: tuple[tuple[str, tuple[str, ...]], ...] = (("in memory", ()), ("in a file", ("--db", "desk.db")))
# How many moves a shift has whose last page of 1,000 is just not full, is full, or is of one move.
PAGES = [count + more for count in (1000, 2000, 3000, 4000) for more in (-1, 0, 1)]
ANSWERS = """\
ok request 1 5/0
move 1 100 ann 1 - Entered enter
ok request 2 5/1
move 2 110 bob 2 - Entered enter
ok
move 3 120 ann 1 Entered Withdrawn withdraw
"""
STAND = "places 2: 1 0 0 0 0 0 0 0 0 0 0 0 1 0 0\n"
KEPT = f"""\
SHIFT REPORT
from 1970-01-01 00:01:40
to   1970-01-01 00:02:00
premise kept
{STAND}moves 2
       1 1970-01-01 00:01:40 ann                   1 -         Entered   enter
       2 1970-01-01 00:01:50 bob                   2 -         Entered   enter
END
"""
REPORT = KEPT.replace("kept", "closed")
BORDERS = [
    (0, "1970-01-01 00:00:00", "a"), (951782399, "2000-02-28 23:59:59", "ann"), (951782400, "2000-02-29 00:00:00", LONG),
    (1709164800, "2024-02-29 00:00:00", "bob"), (LAST - 1, "2099-12-31 23:59:58", "eve"), (LAST, "2099-12-31 23:59:59", "zz9"),
    (100, "1970-01-01 00:01:40", "late")]


class Worked(Reported):
    """Worked reports, borders and words."""

    def test_worked(self) -> None:
        """The worked example, early shifts after later moves, and a desk of no moves."""
        cases = self.cases
        folder, words, early = cases.folder(), ["desk.db", "100", "120"], [(0, 105), (100, 120), ALL]
        for name, more in WHERE:
            ran = cases.run(folder, WORKED + ["130 ann report 100 120"], *more)
            cases.tell(f"the worked example, {name}", *unlike(ran, ANSWERS + KEPT + STAND, "", 0))
        cases.ask("the worked example", folder, words, REPORT)
        cases.closed("an early shift", folder, moves_in(ANSWERS), *early)
        os.symlink("desk.db", f"{folder}/link.db")
        cases.ask("by a link to the file", folder, ["link.db", "100", "120"], REPORT)
        os.remove(f"{folder}/link.db")
        ran = cases.run(folder, ["510 ann approve 2", f"520 cid {ENTRY}"] + questions(*early), "--db", "desk.db", "--at", "500")
        moves = cases.asked("an early shift after later moves", ran, early, moves_in(ANSWERS))
        cases.closed("an early shift after later moves", folder, moves, *early)
        cases.ask("the worked example after later moves", folder, words, REPORT.replace("2: 1 0", "3: 1 1"))
        cases.closed("a desk of no moves", *cases.made([]), ALL)

    def test_borders(self) -> None:
        """Moments, shifts and names at their borders, and questions that are spelled otherwise."""
        cases = self.cases
        shifts = [ALL, (0, 0), (0, 1), (1, LAST), (951782399, 951782400), (951782400, 951782401), (951782399, 951782399), (LAST, LAST),
                  (951782400, 951782399), (951782401, 1709164800), (1709164800, 1709164801), (LAST - 1, LAST), (LAST, 0),
                  (100, 951782399), (99, 100), (100, 101), (0, 100)]
        folder, moves = cases.both("borders", [f"{moment} {person} {ENTRY}" for moment, _, person in BORDERS], shifts)
        cases.tell("moments and their times", unless([(it.moment, TIMES[it.moment], it.person) for it in moves] == BORDERS, "they are others"))
        bad = ["report", "report 1", "report 1 2 3", "report -1 2", "report 1 -2", "report 1 4102444800", "report 01 2", "report 1  2",
               "report 1 2 ", "report 1970-01-01T00:01:40Z 120", "report 1 now", "Report 1 2", "reports 1 2"]
        ran = cases.run(folder, ["0 desk report 1 2"] + [f"0 ann {it}" for it in bad])
        want = "refused 1 BadText\n" * (1 + len(bad)) + f"{places_of([])}\n"
        cases.tell("questions that are spelled otherwise", *unlike(ran, want, "", 1))

    def test_words_of_the_command(self) -> None:
        """Instants in place of numbers, and words of the command that are none."""
        cases = self.cases
        folder, moves = cases.made(WORKED)
        for begin in ("100", "1970-01-01T00:01:40Z", "1970-01-01T01:01:40+01:00", "1969-12-31T23:01:40-01:00"):
            for end in ("120", "1970-01-01T00:02:00Z", "1970-01-01T02:02:00+02:00"):
                cases.ask("instants", folder, ["desk.db", begin, end], REPORT)
        cases.ask("the last instant", folder, ["desk.db", "100", "2099-12-31T23:59:59Z"], report_of(moves, "closed", 100, LAST))
        for word in ("tomorrow", "-1", "4102444800", "1970-01-01T00:01:40.5Z", "1970-01-01", "1970-01-01T00:01:40", "2100-01-01T00:00:00Z",
                     "1969-12-31T23:59:59Z", "100s", "0x64", ""):
            for words in (["desk.db", word, "120"], ["desk.db", "100", word], ["missing.db", word, "120"]):
                cases.ask("a word that is none", folder, words, "", None, 2)
        for text in ("", "desk.db", "desk.db 100", "desk.db 100 120 140", "desk.db 100 120 --colour"):
            cases.ask("words", folder, text.split(), "", None, 2)


def lines_of(dice: random.Random, folder: str) -> list[str]:
    """Some 400 random lines by several persons, at moments spread over years, a few of them earlier than those before. None asks for a
    history."""
    script, moment, lines = day_script(dice, empty_tables(), 0, 1, 400), 700_000_000, []
    write_files(folder, script.files)
    for line in script.lines:
        rest = re.sub(r"\bz\b", LONG, line.split(" ", 1)[1])
        moment += dice.choice([0, 0, 1, 59, 86399, 86400, 30 * 86400, 90 * 86400])
        if " history " not in rest:
            lines.append(f"{moment - dice.choice([0] * 9 + [500 * 86400])} {rest}")
    return lines


def some_shifts(dice: random.Random, moves: Sequence[Moved], count: int) -> list[Shift]:
    """All, one that is turned, and so many random shifts, most of which begin or end at a move."""
    moments = [it.moment for it in moves]
    bounds = [dice.choice([it, it, it + 1, dice.randrange(min(moments), max(moments))]) for it in dice.choices(moments, k=2 * count)]
    return [ALL, (max(moments), min(moments))] + [(min(it), max(it)) for it in zip(bounds[::2], bounds[1::2])]


def outputs(cases: Cases, folder: str) -> None:
    """Outputs that take nothing: closed, full, or with nobody who reads. There the signal of the system may have ended the program."""
    reader, writer = os.pipe()
    os.close(reader)
    with open("/dev/full", "wb") as full, open(writer, "wb") as unread:
        for name, out, first in (("closed", None, lambda: os.close(1)), ("full", full, None), ("not read", unread, None)):
            before = digests(folder)
            ran = cases.call(folder, ["report", "desk.db", "0", str(LAST)], out, first)
            faults = [] if out is unread and ran.status == -13 else unlike(ran, "", "tcdesk: cannot use output\n", 2)
            cases.tell(f"an output that is {name}", *faults, changed(before, folder))


class Histories(Reported):
    """Reports of histories."""

    def test_histories(self) -> None:
        """A random history: reports amid it and at its end, by both ways, and after the next day."""
        cases = self.cases
        dice, folder = random.Random(SEED), cases.folder()
        lines = lines_of(dice, folder)
        plain = cases.run(folder, lines)
        moves = moves_in(plain.out)
        kinds = [len({getattr(it, name) for it in moves}) for name in ("cause", "after", "person")]
        cases.tell("the random history has enough in it", unless(len(moves) > 80 and min(kinds) > 4, f"{len(moves)} moves, {kinds}"))
        shifts, at = some_shifts(dice, moves, 20), len(lines) // 3
        one, two = shifts[:4], shifts[4:8]
        script = lines[:at] + questions(*one) + lines[at:2 * at] + questions(*two) + lines[2 * at:] + questions(*shifts)
        for name, more in WHERE:
            ran = cases.run(folder, script, *more)
            moves = cases.asked(f"a random history, {name}", ran, one + two + shifts)
            stood, rest = ("".join(line for line in REPORTS.sub("", it.out).splitlines(True) if not line.startswith(LINK)) for it in (plain, ran))
            cases.tell(f"a random history, {name}: all but its questions", difference(stood, rest))
        cases.closed("a random history", folder, moves, *shifts)
        later = [f"{1_600_000_000 + at} eve {it}" for at, it in enumerate([ENTRY, "withdraw 1", "withdraw 2", "close 3", "close 4"])]
        shifts = shifts[:6] + [(1_500_000_000, 1_500_000_001), (1_500_000_000, LAST)]
        ran = cases.run(folder, questions(ALL) + later + questions(*shifts), "--db", "desk.db", "--at", "1500000000")
        moves = cases.asked("the next day", ran, [ALL] + shifts, moves)
        cases.closed("the next day", folder, moves, *shifts)

    def test_bad_start(self) -> None:
        """What a report says of the link."""
        cases = self.cases
        script = Path(__file__).resolve().parent.parent / "cases/bad-start.tc"
        lines = [f"5 ann {ENTRY}"] + questions(ALL) + script.read_text("ascii").splitlines() + questions(ALL, (5, 5))
        folder = cases.folder()
        for name, more in WHERE:
            ran = cases.run(folder, lines, *more)
            moves = cases.asked(f"a bad start, {name}", ran, [ALL, ALL, (5, 5)])
            told = [it.split("\n")[3] for it in REPORTS.findall(ran.out)]
            cases.tell(f"a bad start, {name}", unless(told == ["premise kept", "premise broken", "premise broken"], str(told)))
        cases.closed("a bad start", folder, moves, ALL)
        cases.asked("a bad start, the next day", cases.run(folder, questions(ALL), "--db", "desk.db", "--at", "9"), [ALL], moves)

    def test_pages(self) -> None:
        """Shifts of more moves than are read at a time, up to its fifth page, outputs that take nothing, and a row that does not read behind many."""
        cases = self.cases
        base, many = 10**9, 4600
        lines = [f"{base + number * 7919 % many} ann {ENTRY}" for number in range(1, many + 1)]
        shifts = [(base, base + it) for it in PAGES + [many]] + [(base + 1600, base + many), (base + many, LAST)]
        folder, moves = cases.both("pages", lines, shifts)
        sizes = [sum(begin <= it.moment < end for it in moves) for begin, end in shifts]
        cases.tell("pages: how many moves", unless(sizes == PAGES + [many, 3000, 0], f"{sizes}"))
        for it in (folder, cases.copy(folder), cases.copy(cases.made(WORKED)[0])):
            outputs(cases, it)
        change(folder, "UPDATE move SET to_place = 99 WHERE seq = 4500")
        cases.unusable("a row behind many that does not read", folder)


# ---- files

def hold(cases: Cases, folder: str, lines: list[str]) -> tuple[subprocess.Popen[bytes], list[Moved]]:
    """Begins a run on the desk of a folder that waits for its reader, and so has the file. Gives it, and its moves: all lines are answered."""
    write_lines(f"{folder}/held.tc", lines + ["2000 zed places"] * 6000)
    words, out, piece = [cases.program, "run", "--db", "desk.db", "--at", "500", "held.tc"], b"", b"-"
    held = subprocess.Popen(words, cwd=folder, stdin=subprocess.DEVNULL, stdout=subprocess.PIPE, stderr=subprocess.DEVNULL, bufsize=0)
    assert held.stdout
    while piece and b"\nplaces " not in out:
        piece = held.stdout.read(4096)
        out += piece
    return held, moves_in(out.decode("latin-1"))


def left(cases: Cases, name: str, folder: str, moves: Optional[Sequence[Moved]] = None) -> None:
    """Asks of a desk that was not closed, which has these moves, or those that SQLite finds; it is opened then as if nobody had asked."""
    def found(where: str) -> Tables:
        with closing(connect(f"{cases.copy(where, '-wal')}/desk.db")) as it:
            return tables_of(it)
    twin, stood = cases.copy(folder, "-wal"), moves_in("\n".join(move_line(it) for it in found(folder).move))
    cases.tell(f"{name}: what SQLite finds", unless(moves in (None, stood), f"{len(stood)} moves, and not {len(moves or [])}"))
    cases.closed(name, folder, moves or stood, ALL, (500, 501), (1000, 1020), (1020, 1020))
    again = ["9001 ann history 1 0", f"9002 ann {ENTRY}", "9003 ann places"]
    ours, other = (cases.run(it, again, "--db", "desk.db", "--at", "9000") for it in (folder, twin))
    cases.tell(f"{name}: opened then", unless(other.status < 2, f"status {other.status}"), *unlike(ours, other.out, "", other.status),
               unless(found(folder) == found(twin), "its tables are others"))


class Left(Reported):
    """Desks that a program has, or left."""

    def test_killed(self) -> None:
        """Desks that a program has, and those whose program was killed: one of an earlier day, and one that it made."""
        cases = self.cases
        acts = [f"{1000 + it} ann {ENTRY}" for it in range(40)] + [
            "1040 x withdraw 2", "1041 bob approve 3", "1042 ann initiate none", "1043 ann release 3"]
        first = [f"{it} ann {ENTRY}" for it in range(10)] + ["50 bob approve 1", "60 ann initiate none", "70 ann release 1"]
        for name, lines, many in (("an earlier day", first, 58), ("no earlier day", None, 44)):
            folder, moves = cases.made(lines) if lines else (cases.folder(), [])
            held, more = hold(cases, folder, acts)
            moves += more
            cases.tell(f"{name}: what was answered", unless(len(moves) == many, f"{len(moves)} moves, and not {many}"))
            cases.unusable(f"{name}, a file that another program has", folder)
            copy = cases.copy(folder, "-wal")
            held.kill()
            held.communicate()
            size = os.path.getsize(f"{folder}/desk.db-wal")
            cases.tell(f"{name}: it is killed", unless(held.returncode == -9 and size > 4096, f"{held.returncode}, a log of {size} bytes"))
            cut, alone = cases.copy(folder, "-wal"), cases.copy(folder)
            os.truncate(f"{cut}/desk.db-wal", size - 10)
            left(cases, f"{name}, a copy of files that a program has", copy, moves)
            left(cases, f"{name}, a program that was killed", folder, moves)
            left(cases, f"{name}, a log that is cut short", cut)
            left(cases, f"{name}, the file without its log", alone)
        folder, moves = cases.made(first)
        held, more = hold(cases, folder, acts)
        cases.unusable("a file that another program has, which goes on", folder)
        held.communicate()
        cases.tell("the program that had it", unless(held.returncode == 0, f"status {held.returncode}"))
        cases.closed("the file once it was closed", folder, moves + more, ALL)
