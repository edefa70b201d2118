"""Desks that are opened again and again, and what each opening makes of them.

Ten desks, each of five days: a day is a script of random lines, run on the desk's file at a later moment than the one before.
After each day the file's tables are compared with those before it: the history goes on behind the rows that stood, first by
the rows of the opening, as the definitions tell them, then by the moves that the lines printed; places and tallies
are what the history leaves; and a desk could have written it all. Beside it each day is run on a second file, with questions
behind it for each request, whose answers are those of the tables.
"""
import os
import random
import re
import tempfile
from concurrent.futures import ThreadPoolExecutor
from dataclasses import dataclass
from functools import partial
from itertools import zip_longest
from typing import Sequence

from generate.days import Day, day_script
from model.facts import MOST_SHOWN, place_word
from model.kept import read_tables
from model.request import ack_text, list_text, takes_time
from model.rows import ROWS, Cargo, Request, Tables, carried_by, empty_tables, move_line, places_by, places_line, tallies_by
from model.sound import why_unsound
from model.tables import opened_moves
from tests.asked import ASKED
from tests.runs import Ran, Tried, run_kept, write_files, write_lines

SEED = 20311126
DESKS, DAYS = 10, 5
SPAN = 1000


@dataclass
class Told:
    """Faults that were found, and how many lines were answered and refused."""
    faults: list[str]
    days: int = 0
    answered: int = 0
    refused: int = 0


def moves_in(lines: list[str]) -> list[str]:
    """The lines of moves that acts printed: not those that answer a question."""
    moves, skip = [], 0
    for line in lines:
        asked = re.match("(?:history [0-9]+:|moves) ([0-9]+)", line)
        if skip:
            skip -= 1
        elif asked:
            skip = int(asked[1])
        elif line.startswith("move "):
            moves.append(line)
    return moves


def faults_of(before: Tables, after: Tables, ran: Ran, moment: int) -> list[str]:
    """How the tables after a day differ from what the tables before it and its lines want."""
    opened = opened_moves(before, moment)
    stood = before.move + opened
    printed = [move_line(it) for it in after.move[len(before.move):]]
    places = places_by(after.move)
    wants = {
        "status": ran.status in (0, 1) and not ran.errors,
        "the rows that stood": after.move[:len(before.move)] == before.move,
        "the rows of the opening": after.move[:len(stood)] == stood,
        "what the opening printed": ran.lines[:len(opened)] == [move_line(it) for it in opened],
        "no other row by the desk": all(it.person != "desk" for it in after.move[len(stood):]),
        "the moves that were printed": moves_in(ran.lines) == printed,
        "the places of requests": all(places.get(r.num) == r.place for r in after.request),
        "the tallies": after.tally == tallies_by(after.move),
        "the places at the end": ran.lines[-1:] == [places_line(after)],
        "the requests that stood": [r._replace(place=0) for r in after.request][:len(before.request)]
                                   == [r._replace(place=0) for r in before.request],
    }
    for name in ("request_approval", "stack", "stack_approval", "procedure", "step", "execution", "record", "reply", "cargo"):
        stood = getattr(before, name)
        wants[f"the rows of {name} that stood"] = getattr(after, name)[:len(stood)] == stood
    why = why_unsound(after)
    return [name for name, holds in wants.items() if not holds] + ([f"unsound: {why}"] if why else [])


def faults_by(script: Day, ran: Ran, after: Tables) -> list[str]:
    """How a day differs from the plain desk's: each line that it printed, its status, and all tables that it left."""
    pairs = enumerate(zip_longest(script.answers(), ran.lines), 1)
    faults: list[str] = next(([f"printed line {at} is {got!r}, and not {want!r}"] for at, (want, got) in pairs if got != want), [])
    wanted = script.desk.tables()
    return faults + [f"status {ran.status}"] * (ran.status != script.status()) + [
        f"the table {name} is not the plain desk's" for name in ROWS if getattr(wanted, name) != getattr(after, name)]


def request_line(r: Request, cargo: Sequence[Cargo]) -> str:
    """A request as the program tells it, with these activities behind its first."""
    targets = [r.target, *(it.target for it in cargo)] if r.target else []
    times = [r.at_time, *(it.at_time for it in cargo)] if takes_time(r.service, r.subtype) else []
    return (f"request {r.num} {r.apid}/{r.cnt} {r.service}/{r.subtype} {ack_text(r.ack)} {'yes' if r.critical else 'no'}"
            f" {list_text(targets)} {list_text(times)} {r.outcome} {r.author} {place_word(r.place)}")


def answers_of(tables: Tables) -> list[str]:
    """What questions for each request, and its history, have to answer."""
    lines, carried = list[str](), carried_by(tables.cargo)
    for r in tables.request:
        rows = [move_line(it) for it in tables.move if it.request == r.num][:MOST_SHOWN]
        lines += [request_line(r, carried[r.num]), f"history {r.num}: {len(rows)}"] + rows
    return lines + [places_line(tables)]


def asked_faults(first: Tables, second: Tables, plain: Ran, asked: Ran) -> list[str]:
    """How the day with questions behind it differs from the one without."""
    wants = {
        "the tables of the second file": first == second,
        "the answers to its questions": asked.lines[len(plain.lines) - 1:] == answers_of(first),
        "what it printed before them": asked.lines[:len(plain.lines) - 1] == plain.lines[:-1],
    }
    return [name for name, holds in wants.items() if not holds]


def run_day(program: str, folder: str, day: int, before: Tables, dice: random.Random, told: Told) -> Tables:
    """One day on both files: what is left, and what of it is wrong."""
    moment = day * SPAN + dice.randrange(100)
    script = day_script(dice, before, moment, day)
    lines = script.lines
    write_files(folder, script.files)
    write_lines(f"{folder}/day{day}.tc", lines)
    plain = run_kept(program, folder, "first.db", moment, f"day{day}.tc")
    after = read_tables(f"{folder}/first.db")
    questions = [f"{moment} ann {act} {r.num}{end}" for r in after.request for act, end in (("request", ""), ("history", " 0"))]
    write_lines(f"{folder}/asked{day}.tc", lines + questions)
    asked = run_kept(program, folder, "second.db", moment, f"asked{day}.tc")
    second = read_tables(f"{folder}/second.db")
    told.days += 1
    told.refused += sum(line.startswith("refused") for line in plain.lines)
    told.answered += len(lines) - sum(line.startswith("refused") for line in plain.lines)
    faults = faults_by(script, plain, after) + faults_of(before, after, plain, moment) + asked_faults(after, second, plain, asked)
    told.faults += [f"day {day}: {it}" for it in faults]
    return after


def run_desk(program: str, work: str, number: int) -> Told:
    """All days of one desk."""
    folder, dice, told = f"{work}/{number}", random.Random(number), Told([])
    os.mkdir(folder)
    tables = empty_tables()
    for day in range(1, DAYS + 1):
        tables = run_day(program, folder, day, tables, dice, told)
        if told.faults:
            break
    told.faults = [f"desk {number}, {it}" for it in told.faults]
    return told


class ManyDays(Tried):
    """Days at desks."""

    def test_days(self) -> None:
        """All days of some desks, four desks at a time; each desk has a seed."""
        first, count = ASKED.seed_or(SEED + 1), ASKED.count_or(DESKS)
        with tempfile.TemporaryDirectory(prefix="days-") as work, ThreadPoolExecutor(4) as pool:
            told = list(pool.map(partial(run_desk, ASKED.program, work), range(first, first + count)))
        faults, days = [fault for it in told for fault in it.faults], sum(it.days for it in told)
        print(f"many days: {days} days, {sum(it.answered for it in told)} lines answered, {sum(it.refused for it in told)} refused,"
              f" {len(faults)} faults")
        self.no_faults(faults)
        self.assertEqual(count * DAYS, days, "days")
