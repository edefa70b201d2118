"""One value of a desk's file is changed: what no desk could have written is refused.

Desks are made by scripts, so that every table has several rows and a request stands at every place. Then each column of each
table, as the schema has them, is changed in several rows to several values, and rows are deleted, doubled and moved behind
the others. What has to happen is told from the definitions: what no desk could have written is refused and left byte for byte; all
else is opened, and has the rows of the opening then. Some changes are skipped, since the schema itself refuses them.
"""
import os
import random
import shutil
import tempfile
from concurrent.futures import ProcessPoolExecutor
from dataclasses import dataclass
from functools import partial
from typing import Optional, Union

from model.facts import LAST_APID, LAST_MOMENT, MOST_STACKS
from model.kept import read_tables
from model.rows import ROWS, Cargo, Tables
from model.sound import is_name, is_outcome, why_unsound
from tests.asked import ASKED
from tests.changes import Change, change_file, why_not_opened, why_not_refused
from tests.made_files import bound, mark_of
from tests.full_desks import Desk, lacks, make_desks
from tests.runs import Tried, bytes_of, run_kept

SEED = 20311125
LEAST_JUDGED = 1000
DAMAGED = "it tells what no desk could have written"
ROWS_A_COLUMN = 3
VALUES_A_ROW = 3
CARGO = 6  # rows of what requests name besides, one a change


@dataclass
class Found:
    """What became of a change: skipped, refused or taken; and where the program thinks otherwise, how."""
    kind: str
    fault: str = ""


# ---- new values

def other_numbers(value: int, column: list[int], dice: random.Random) -> list[int]:
    """Numbers in place of a number: near it, at the borders, and others of its column."""
    near = [value + 1, value - 1, -value, 0, 1, max(column) + 1, dice.randrange(17)]
    far = [2**31, 2**32 - 1, 2**32, 2**63 - 1, -2**63, LAST_MOMENT, LAST_MOMENT + 1, 255, 256, 65535, 65536]
    return near + near + far + [dice.choice(column) for _ in range(6)] + [dice.randrange(1, 30) for _ in range(3)]


def other_texts(value: str, column: list[str], names: list[str], dice: random.Random) -> list[str]:
    """Texts in place of a text: others of its column and of the file, and those that are no names."""
    bad = ["", "desk", "zed", "z" * 16, "z" * 17, "z" * 81, value + "x", value[:-1], value.upper(), value + "\0", " " + value,
           "\xff", "\xc3\xa9", "7"]
    outcomes = "ok ok/1 ok/0 ok/10 ok/01 fail/16 fail/15 fail/256 refuse/255 halt/9/255 halt/1 nostart/16".split()
    special = outcomes * 2 if is_outcome(value) else ["a text", "~" * 80, "a\tb"]
    return bad + special + [dice.choice(column) for _ in range(4)] + [dice.choice(names) for _ in range(6)]


def new_values(desk: Desk, name: str, at: int, row: int, dice: random.Random) -> list[Optional[Union[int, str]]]:
    """Some values that may stand in place of one, each other than it."""
    rows = getattr(desk.tables, name)
    value, column = rows[row][at], [it[at] for it in rows]
    if isinstance(value, int):
        made = other_numbers(value, column, dice) + ["a text"]
    else:
        made = other_texts(value, column, names_in(desk.tables), dice) + [7]
    made = [it for it in dict.fromkeys(dice.sample(made, len(made))) if it != value]
    return made[:VALUES_A_ROW] + ([None] if dice.random() < 0.1 else [])


def names_in(tables: Tables) -> list[str]:
    """All names that stand in the tables, of persons, stacks and procedures."""
    rows = [row for name in ROWS for row in getattr(tables, name)]
    return sorted({it for row in rows for it in row if is_name(it)})


# ---- changes

def set_value(desk: Desk, name: str, column: str, row: int, value: Optional[Union[int, str]]) -> Change:
    """One value of one row, changed. Rows are counted from 0, in order."""
    where = f"rowid = (SELECT rowid FROM {name} ORDER BY rowid LIMIT 1 OFFSET {row})"
    sql = f"UPDATE {name} SET {column} = {mark_of(value)} WHERE {where}"
    return Change(f"{name}.{column} of row {row + 1} is {value!r:.40}", [(sql, [bound(value)])])


def without_row(desk: Desk, name: str, row: int) -> Change:
    """One row less."""
    where = f"rowid = (SELECT rowid FROM {name} ORDER BY rowid LIMIT 1 OFFSET {row})"
    return Change(f"{name} without row {row + 1}", [(f"DELETE FROM {name} WHERE {where}", [])])


def with_copy(desk: Desk, name: str, row: int, at: int, value: Union[int, str]) -> Change:
    """One row more, which is one of the others but for a value."""
    values = list(getattr(desk.tables, name)[row])
    values[at] = value
    marks = ", ".join(mark_of(it) for it in values)
    text = f"{name} with row {row + 1} again, its {desk.columns[name][at]} {value!r:.40}"
    return Change(text, [(f"INSERT INTO {name} VALUES ({marks})", [bound(it) for it in values])])


def some_rows(desk: Desk, name: str, dice: random.Random) -> list[int]:
    """Some rows of a table, in order."""
    count = len(getattr(desk.tables, name))
    return sorted(dice.sample(range(count), min(count, ROWS_A_COLUMN)))


def changes_of(desk: Desk, dice: random.Random) -> list[Change]:
    """The changes of one desk: of each column of each table, and of rows."""
    changes = []
    for name, columns in desk.columns.items():
        for at, column in enumerate(columns):
            for row in some_rows(desk, name, dice):
                changes += [set_value(desk, name, column, row, it) for it in new_values(desk, name, at, row, dice)]
        for row in some_rows(desk, name, dice):
            changes.append(without_row(desk, name, row))
            for at in range(min(2, len(columns))):
                values = [getattr(desk.tables, name)[row][at]] + new_values(desk, name, at, row, dice)[:2]
                changes += [with_copy(desk, name, row, at, it) for it in values]
            changes += [set_value(desk, name, "rowid", row, it) for it in (10**6, -1)]
    for name in ("request", "move", "execution"):
        changes += [with_copy(desk, name, 0, 0, it) for it in (0, -1, -2**63, 2**63 - 1)]
    return changes + [with_cargo(desk, dice) for _ in range(CARGO if "cargo" in desk.columns else 0)]


def with_cargo(desk: Desk, dice: random.Random) -> Change:
    """A row of what a request, which may be no insert, names behind its first activity."""
    number, target = (dice.choice(desk.tables.request).num for _ in range(2))
    row = Cargo(number, dice.randrange(1, 10), target, dice.choice((0, 600, LAST_MOMENT)))
    return Change(f"cargo with {row}", [("INSERT INTO cargo VALUES (?, ?, ?, ?)", [*row])])


def with_stacks(desk: Desk, most: int) -> Change:
    """So many stacks: those that stand, and as many of one row each as lack, whose requests were entered and nothing more."""
    tables, author, apid = desk.tables, desk.tables.stack[0].author, LAST_APID
    count = sum(it.apid == apid for it in tables.request)
    statements: list[tuple[str, list[Union[int, str]]]] = []
    lack = most - len(tables.stack)
    for n in range(lack):
        num, seq, name = len(tables.request) + n + 1, len(tables.move) + n + 1, f"more{n}"
        statements += [
            ("INSERT INTO request VALUES (?, ?, ?, 0, 0, 8, 1, 0, 0, 'ok', ?, ?, 1, 0, 1)", [num, apid, count + n, author, name]),
            ("INSERT INTO move VALUES (?, ?, 0, 1, 1, ?, 0)", [seq, num, author]),
            ("INSERT INTO stack VALUES (?, ?, 0)", [name, author]),
        ]
    statements.append(("UPDATE tally SET amount = amount + ? WHERE place = 1", [lack]))
    return Change(f"{most} stacks", statements)


# ---- what becomes of a change

def judge(program: str, work: str, job: tuple[Desk, Change]) -> Found:
    """Makes a change on a copy of a desk, and opens it."""
    (desk, change), folder = job, tempfile.mkdtemp(dir=work)
    try:
        shutil.copy(desk.path, f"{folder}/desk.db")
        if not change_file(f"{folder}/desk.db", change):
            return Found("skipped")
        tables, before = read_tables(f"{folder}/desk.db"), bytes_of(f"{folder}/desk.db")
        why = why_unsound(tables)
        ran = run_kept(program, folder, "desk.db", desk.moment, "/dev/null")
        if why:
            fault = why_not_refused(ran, folder, before, tables) or ("" if ran.why == DAMAGED else f"told because {ran.why!r}")
            return Found("refused", fault and f"should be refused ({why}): {fault}")
        fault = why_not_opened(ran, folder, desk.moment, tables)
        return Found("taken", fault and f"should be taken: {fault}")
    finally:
        shutil.rmtree(folder)


def judge_all(program: str, work: str, jobs: list[tuple[Desk, Change]]) -> list[Found]:
    """What became of each change of a desk, four at a time."""
    with ProcessPoolExecutor(4) as pool:
        return list(pool.map(partial(judge, program, work), jobs, chunksize=8))


class Broken(Tried):
    """Files of which a value or a row is another."""

    def test_changes(self) -> None:
        """Each change is refused, or opened, as the definitions tell; with a number, so many of them."""
        with tempfile.TemporaryDirectory(prefix="broken-") as work:
            desks = make_desks(ASKED.program, work)
            self.assertFalse(lacks(desks), "the desks are not as they should be")
            dice = random.Random(ASKED.seed_or(SEED))
            jobs = [(desk, change) for desk in desks for change in changes_of(desk, dice)]
            jobs += [(desks[0], with_stacks(desks[0], most)) for most in (MOST_STACKS, MOST_STACKS + 1)]
            jobs = jobs if ASKED.count is None else dice.sample(jobs, min(len(jobs), ASKED.count))
            found = judge_all(ASKED.program, work, jobs)
        counts = {kind: sum(it.kind == kind for it in found) for kind in ("refused", "taken", "skipped")}
        faults = [f"{os.path.basename(desk.path)}: {change.text}: {it.fault}" for (desk, change), it in zip(jobs, found) if it.fault]
        print(f"broken cases: {', '.join(f'{count} {kind}' for kind, count in counts.items())}, {len(faults)} disagreed")
        self.no_faults(faults)
        if ASKED.count is None:
            self.assertGreaterEqual(counts["refused"] + counts["taken"], LEAST_JUDGED, "too few were judged")
