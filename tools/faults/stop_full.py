"""A desk that is almost full, stopped at random calls: `tools/run.py --only full-stops`, by hand.

The desk's file has 65,535 requests and 989,000 rows of the history, which Python writes; some requests are on their way. It is opened and worked, and
the program is stopped at a random call on the two files (tools/faults/stop_io.c), in a random one of four ways, 200 times or so many as --count
says. Each time what is left is opened again, and compared with the plain desk as tools/faults/stop_kept.py does.
"""
import random
import tempfile
from collections import Counter

from faults.kept_runs import LEFT, OPENED, Desks, Run, Trial
from faults.stop_kept import WAYS, stop
from model.facts import COLUMNS, MOST_REQUESTS, Cause, Place
from model.kept import connect
from model.rows import ROWS, Approval, Move, Request, Tables, empty_tables, places_by, tallies_by
from tests.asked import ASKED
from tests.runs import Tried, quick_folder

ROWS_LEFT, STOPS = 989_000, 200
# Requests 1 to 4 are on their way as the desk is left: two wait, two were sent.
QUEUED, SENT = (1, 2), (3, 4)
WORK = ("ann set k 3", "ann initiate none", *(f"ann release {number}" for number in range(10, 16)), "ann up", "ann up", "ann clcw", "ann down",
        "ann up", "ann work", "ann down", "ann close 3", "ann procedure warm warm.csv", "ann begin warm", "ann step 1 1 done -", "ann terminate",
        "ann withdraw 65535", "ann close 12")


def full_history(count: int = ROWS_LEFT) -> list[Move]:
    """So many rows, an even number: each request is entered and approved, and then released and given back again and again; the last rows send some."""
    rows: list[Move] = []

    def move(number: int, before: Place, to: Place, cause: Cause) -> None:
        rows.append(Move(len(rows) + 1, number, before, to, cause, "bob" if cause is Cause.APPROVE else "ann", LEFT))

    numbers = range(1, MOST_REQUESTS + 1)
    for number in numbers:
        move(number, Place.NOWHERE, Place.ENTERED, Cause.ENTER)
        move(number, Place.ENTERED, Place.APPROVED, Cause.APPROVE)
    on_their_way = len(QUEUED) + 2 * len(SENT)
    number = 0
    while len(rows) < count - on_their_way:
        number = number % MOST_REQUESTS + 1
        move(number, Place.APPROVED, Place.QUEUED, Cause.RELEASE)
        move(number, Place.QUEUED, Place.APPROVED, Cause.GIVEBACK)
    for number in (*QUEUED, *SENT):
        move(number, Place.APPROVED, Place.QUEUED, Cause.RELEASE)
    for number in SENT:
        move(number, Place.QUEUED, Place.SENT, Cause.TRANSMIT)
    return rows


def full_tables(count: int = ROWS_LEFT) -> Tables:
    """The tables of that desk, with so many rows of the history."""
    tables, moves = empty_tables(), full_history(count)
    places = places_by(moves)
    for number in range(1, MOST_REQUESTS + 1):
        apid, count = (number - 1) % 4 + 1, (number - 1) // 4
        tables.request.append(Request(number, apid, count, 0, 0, 8, 1, 0, 0, "ok", "ann", "", 0, 0, int(places[number])))
        tables.request_approval.append(Approval(number, "bob"))
    tables.move, tables.tally = moves, tallies_by(moves)
    return tables


class FullTrial(Trial):
    """Work on the desk that is almost full."""

    def plain_left(self) -> Tables:
        """The tables of that desk."""
        return full_tables()

    def make_left(self) -> str:
        """The program makes an empty desk, and Python writes all rows."""
        folder = self.empty()
        made = self.desks.run(folder, self.script_of("before", []), LEFT)
        assert made.status == 0, made
        connection = connect(f"{folder}/desk.db", "mode=rw")
        connection.execute("BEGIN")
        for name in ROWS:
            connection.execute(f"DELETE FROM {name}")
            connection.executemany(f"INSERT INTO {name} VALUES ({', '.join('?' * len(COLUMNS[name]))})", getattr(self.states[0], name))
        connection.execute("COMMIT")
        connection.close()
        return folder


class FullStops(Tried):
    """Stops of a desk that is almost full."""

    def test_stops(self) -> None:
        """So many stops, each of which is told as it is made."""
        seed, stops = ASKED.seed_or(1), ASKED.count_or(STOPS)
        dice, counts, bad = random.Random(seed), Counter[str](), list[str]()
        with tempfile.TemporaryDirectory(prefix="full-", dir=quick_folder()) as work:
            trial = FullTrial(Desks(work, ASKED.program), Run("a desk that is almost full", (), WORK, 4))
            calls = trial.desks.calls(trial.copy(), trial.script, OPENED)
            print(f"full stops: seed {seed}, {len(trial.states[0].move)} rows, {calls} calls", flush=True)
            while sum(counts.values()) - counts["nothing to halve"] < stops and len(bad) < 10:
                number, way = dice.randrange(1, calls + 1), dice.choice(list(WAYS))
                verdict = stop(trial, number, way)
                is_known = verdict in ("before", "after", "either", "nothing to halve")
                counts[verdict if is_known else "bad"] += 1
                bad += [] if is_known else [f"call {number}, {way}: {verdict:.900}"]
        print(f"full stops: {', '.join(f'{count} {it}' for it, count in sorted(counts.items()))}")
        self.no_faults(bad)
