"""Holds the readings against what is written in tools/cases and against what the program did: the first answer that differs is told.

Everything is imported where it is used, so that a process which has a changed module imports that one, and nothing before.
"""
import os
import tempfile
from collections import Counter
from collections.abc import Iterator
from itertools import chain, zip_longest

from planted.recorded import Opening, Recorded, Rows, Script, Served

# Scripts that fill a desk, which take seconds: they are for the file of the limits and the one of the book; and one in which names come again, for these and for
# the spacecraft.
FULL = ("book identities run out", "book a desk that stacks fill")
AGAIN = "insert-name-there"
ORDERED = ("request", "move", "tally", "execution")
OF_SERVED = ("model/calls.py", "model/http.py")  # what a desk alone that is served asks
OF_OCTETS = ("model/octets.py", "model/profiles.py", "model/packets.py", "model/carriers.py")  # the octets of a link, which no desk asks
MOST_VALUES = 40  # on which each law of the octets is tried
OPENED = 500  # when the desks of tools/cases/days are opened again
TOOLS = os.path.dirname(os.path.dirname(os.path.realpath(__file__)))


def files_of_readings(top: str) -> list[str]:
    """The files of the plain desk, below tools/."""
    names = sorted(it for it in os.listdir(f"{top}/model") if it.endswith(".py"))
    return [f"model/{it}" for it in names if os.path.getsize(f"{top}/model/{it}") and it != "__init__.py"]


def text_of(path: str) -> str:
    """A text, each byte of which is one character; nothing where there is no file."""
    if not os.path.exists(path):
        return ""
    with open(path, encoding="latin-1", newline="") as file:
        return file.read()


def first_other(title: str, got: list[str], wanted: list[str]) -> str:
    """The first line that differs."""
    for at, (one, two) in enumerate(zip_longest(got, wanted), 1):
        if one != two:
            return f"{title}, line {at}: {one!r:.150}, and not {two!r:.150}"
    return ""


# ---- what is written

def case_faults(file: str) -> Iterator[str]:
    """The written scripts: what a desk answers to each, and its status; where this file is changed."""
    from model.desk import answers
    folder = f"{TOOLS}/cases"
    files = {it: text_of(f"{folder}/data/{it}").encode("latin-1") for it in sorted(os.listdir(f"{folder}/data"))}
    names = sorted(it.removesuffix(".tc") for it in os.listdir(folder) if it.endswith(".tc"))
    for name in names if file in ("", "model/facts.py", "model/book.py", "model/board.py") else [it for it in names if it != AGAIN]:
        case = f"{folder}/{name}"
        told, status = answers(text_of(f"{case}.tc"), files, tuple(text_of(f"{case}.args").split()))
        wanted = [*text_of(f"{case}.stdout").split("\n")[:-1], text_of(f"{case}.status").strip() or "0"]
        yield first_other(f"the case {name}", [*told, str(status)], wanted)


def day_faults() -> Iterator[str]:
    """The written desks that are opened again: what is printed of their second day."""
    from model.desk import Desk
    from model.lines import script_lines
    folder = f"{TOOLS}/cases/days"
    for name in sorted(it.removesuffix(".day1") for it in os.listdir(folder) if it.endswith(".day1")):
        desk = Desk()
        for line in script_lines(text_of(f"{folder}/{name}.day1")):
            desk.line(line)
        desk = Desk.opened(desk.tables(), OPENED)
        told = [move.line() for move in desk.opening] + [it for line in script_lines(text_of(f"{folder}/{name}.day2")) for it in desk.line(line)]
        yield first_other(f"the days {name}", [*told, desk.places()], text_of(f"{folder}/{name}.day2.stdout").split("\n")[:-1])


def text_faults(recorded: Recorded) -> Iterator[str]:
    """Texts of stacks and of procedures: what `check` tells, and with what their load is refused."""
    from model.check import told_of
    for it in recorded.texts:
        told = told_of(it.kind, it.data)
        if told.text() != it.told:
            yield f"check {it.kind} {it.data!r:.80}: {told.text()!r}, and not {it.told!r}"
        if told.refusal and it.told.split("\n")[0] == "ok":
            yield f"check {it.kind} {it.data!r:.80}: its load is refused with {told.refusal}"


# ---- what the program did

def rows_by(tables: object) -> Rows:
    """The rows of tables, as a file has them."""
    return {name: [tuple(row) for row in rows] for name, rows in vars(tables).items() if name != "version"}


def script_fault(script: Script) -> str:
    """A script: what is answered to each line, the status, and the tables."""
    from model.desk import desk_by
    desk = desk_by([word for name, value in script.options.items() for word in (f"--{name}", str(value))], script.files)
    at = 0
    for line in script.lines:
        told = desk.line(line.removesuffix("\r"))
        if script.printed[at:at + len(told)] != told:
            return first_other(f"{script.title}, {line!r:.100}", told, script.printed[at:at + len(told)])
        at += len(told)
    fault = first_other(script.title, [desk.places(), str(desk.status())], [*script.printed[at:], str(script.status)])
    return fault or (table_fault(script.title, rows_by(desk.tables()), script.tables) if script.tables else "")


def table_fault(title: str, got: Rows, wanted: Rows) -> str:
    """The first table that differs. A table that has no number as its key may have its rows in another order, where they were moved by hand."""
    for name in wanted:
        one, two = got.get(name, []), wanted[name]
        if one != two and (name in ORDERED or Counter(one) != Counter(two)):
            return f"{title}, the table {name}: {[it for it in one if it not in two][:1]}, and not {[it for it in two if it not in one][:1]}"
    return ""


def opening_fault(it: Opening) -> str:
    """A file that is opened: whether a desk could have written it, and what the opening makes of it."""
    from model.desk import Desk
    from model.facts import TABLES
    from model.rows import ROWS, Tables
    from model.sound import why_unsound
    version = max(version for version, names in TABLES.items() if {*names} <= {*it.before})
    tables = Tables(*([make(*row) for row in it.before.get(name, [])] for name, make in ROWS.items()), version=version)
    why = why_unsound(tables)
    if it.printed is None or it.after is None:
        return "" if why else f"{it.title}: the file is taken for sound"
    if why:
        return f"{it.title}: {why}"
    desk = Desk.opened(tables, it.moment, files=it.files)
    told = [move.line() for move in desk.opening] + [told for line in it.lines for told in desk.line(line)]
    fault = first_other(it.title, [*told, desk.places()], it.printed)
    return fault or table_fault(it.title, rows_by(desk.tables()), it.after)


def file_faults(recorded: Recorded) -> Iterator[str]:
    """Files as they are read, and the statements that made them."""
    from model.facts import COLUMNS, SCHEMA_VERSION, SCHEMAS, TABLES
    from model.kept import columns_of, connect, read_tables, statements_of
    for at, it in enumerate(recorded.files):
        version = next((number for number, made in SCHEMAS.items() if len(made) == len(it.schema)), SCHEMA_VERSION)
        yield first_other(f"the statements of file {at}", SCHEMAS[version], it.schema)
        with tempfile.NamedTemporaryFile(suffix=".db") as file:
            file.write(it.data)
            file.flush()
            tables = read_tables(file.name)
            yield table_fault(f"file {at}", rows_by(tables), it.rows) or ("" if tables.version == version else f"the version of file {at}")
            connection = connect(file.name, "immutable=1")
            try:
                columns, statements = columns_of(connection), statements_of(connection)
            finally:
                connection.close()
            yield "" if columns == {name: [*COLUMNS[name]] for name in TABLES[version]} and statements == it.schema else f"the columns of file {at}"
        classes = {name: {tuple(type(value) for value in row) for row in rows} for name, rows in it.rows.items()}
        yield "".join(f"the classes of {name} in file {at}" for name in TABLES[version] if classes[name] - {tuple(COLUMNS[name].values())})


def served_faults(served: Served) -> Iterator[str]:
    """What a peer is answered, and what is left of all."""
    from model.calls import Calls
    from model.desk import Desk
    from model.http import answer_to
    desk = Desk(files=served.files)
    for line in served.before:
        desk.line(line)
    calls = Calls(desk)
    for at, it in enumerate(served.exchanges, 1):
        asked = answer_to(it.raw)
        response = b"" if asked is None else calls.response(asked)
        if response != it.response:
            yield f"{served.title}, {at}, {it.raw!r:.80}: {response!r:.120}, and not {it.response!r:.120}"
    yield table_fault(served.title, rows_by(desk.tables()), served.tables)


# ---- the octets of a link

def octet_faults() -> Iterator[str]:
    """Returns what differs on the worked cases of octets, and on random values."""
    from tests.octet_cases import OF_FILES, case_answers
    from tests.octet_laws import LAWS, law_answers
    answers = chain(*(case_answers(it) for it in OF_FILES), *(law_answers(it, 1, MOST_VALUES + 1) for it in LAWS))
    for it in answers:
        yield "" if it.got == it.wanted else f"{it.title}: {it.got!r:.120}, and not {it.wanted!r:.120}"


# ---- all of it

def differences(file: str, recorded: Recorded) -> Iterator[str]:
    """What differs, and what does not (nothing), where this file is changed; of no file, all."""
    if file in ("", *OF_OCTETS):
        yield from octet_faults()
    if file in OF_OCTETS:
        return
    if file not in ("model/check.py", *OF_SERVED):
        yield from case_faults(file)
        yield from day_faults()
    if file not in OF_SERVED:
        yield from text_faults(recorded)
    if file != "model/check.py":
        for served in recorded.served:
            yield from served_faults(served)
    if file in ("model/check.py", *OF_SERVED):
        return
    yield from file_faults(recorded)
    if file == "model/kept.py":
        return
    for script in recorded.scripts:
        if script.title not in FULL:
            yield script_fault(script)
    for opening in recorded.openings:
        yield opening_fault(opening)
    if file in ("", "model/facts.py", "model/book.py"):
        for script in recorded.scripts:
            if script.title in FULL:
                yield script_fault(script)


def first_difference(file: str, recorded: Recorded) -> str:
    """The first thing that differs; nothing where nothing does."""
    return next((it for it in differences(file, recorded) if it), "")
