#!/usr/bin/env python3
"""Measures what the page of the board costs, and prints a table for docs/BENCH.md: tools/bench/bench_board.py [--program PATH]

Python writes the files of three desks: one at which nothing was done; one of 60,000 requests of which 100 are open; and one of 65,535 requests, all of
them open, with 989,000 rows of the history. Each is served, and asked for its board so often, and for `waiting` and `places` as often; what the program
takes of a processor meanwhile is told by the system (`/proc`), an answer's share of it. Then each file is printed by `board`, and by `report` of an hour in
which nothing was done, which opens it just so.

The status is 1 where a page takes more than 20 milliseconds of a processor.
"""
import argparse
import os
import sys
import tempfile
import time
from contextlib import closing
from typing import Callable

sys.path.insert(0, os.path.dirname(os.path.dirname(os.path.realpath(__file__))))
from bench.spent import spent
from faults.stop_full import full_tables
from generate.http_words import get
from model.facts import COLUMNS, Cause, Place
from model.kept import connect
from model.rows import ROWS, Move, Request, Tables, empty_tables, places_by, tallies_by
from tests.asked import BUILT
from tests.http_peer import Server
from tests.runs import quick_folder, write_lines

MOST, GOOD = 20.0, b"HTTP/1.1 200 OK\r\n"
LONG, OPEN = 60_000, 100
PATHS = ("/board", "/waiting", "/places")


def long_tables() -> Tables:
    """The tables of a desk of many requests, of which a few are open and the others withdrawn."""
    tables = empty_tables()
    moves: list[Move] = []
    for number in range(1, LONG + 1):
        moves.append(Move(len(moves) + 1, number, Place.NOWHERE, Place.ENTERED, Cause.ENTER, "ann", len(moves)))
        if number % (LONG // OPEN):
            moves.append(Move(len(moves) + 1, number, Place.ENTERED, Place.WITHDRAWN, Cause.WITHDRAW, "bob", len(moves)))
    places = places_by(moves)
    for number in range(1, LONG + 1):
        tables.request.append(Request(number, (number - 1) % 8, (number - 1) // 8, 0, 0, 8, 1, 0, 0, "ok", "ann", "", 0, 0, int(places[number])))
    tables.move, tables.tally = moves, tallies_by(moves)
    return tables


DESKS: dict[str, Callable[[], Tables]] = {
    "nothing done": empty_tables,
    f"{LONG:,} requests, {OPEN} of them open": long_tables,
    "65,535 requests, all open, 989,000 moves": full_tables,
}


def make(program: str, folder: str, tables: Tables) -> None:
    """The file of a desk with these rows: the program makes an empty one, and Python writes the rows."""
    for end in ("", "-wal", "-shm"):
        if os.path.exists(f"{folder}/desk.db{end}"):
            os.remove(f"{folder}/desk.db{end}")
    ended = spent(folder, [program, "run", "--db", f"{folder}/desk.db", f"{folder}/empty.tc"])
    if ended.status:
        sys.exit(f"bench_board: no desk was made: {ended.err}")
    with closing(connect(f"{folder}/desk.db", "mode=rw")) as kept:
        kept.execute("BEGIN")
        for name in ROWS:
            kept.execute(f"DELETE FROM {name}")
            kept.executemany(f"INSERT INTO {name} VALUES ({', '.join('?' * len(COLUMNS[name]))})", getattr(tables, name))
        kept.execute("COMMIT")


def on_processor(process: int) -> float:
    """The milliseconds that a program of one thread was on a processor."""
    with open(f"/proc/{process}/schedstat", encoding="ascii") as told:
        return int(told.read().split()[0]) / 1e6


def served(program: str, folder: str, count: int) -> dict[str, tuple[float, int]]:
    """What an answer takes of a processor, in milliseconds, and the bytes of one."""
    took = {}
    with Server(program, folder, "desk.db", None) as server:
        server.exchange(get("/places"))
        for path in PATHS:
            server.exchange(get(path))
            began = on_processor(server.process.pid)
            answers = [server.exchange(get(path)) for _ in range(count)]
            took[path] = (on_processor(server.process.pid) - began) / count, len(answers[0])
            if any(not it.startswith(GOOD) for it in answers):
                sys.exit(f"bench_board: an answer is another: {answers[0][:200]!r}")
    return took


def printed(program: str, folder: str, count: int) -> tuple[float, float]:
    """The least seconds of processors of the commands `board` and `report`, of a file."""
    def least(*words: str) -> float:
        ended = [spent(folder, [program, words[0], f"{folder}/desk.db", *words[1:]]) for _ in range(count)]
        if any(it.status for it in ended):
            sys.exit(f"bench_board: {words}: {ended[0]}")
        return min(it.took.processor for it in ended)
    return least("board"), least("report", "4000000000", "4000003600")


def main() -> int:
    """Measures, and prints a table."""
    parser = argparse.ArgumentParser(description=__doc__, formatter_class=argparse.RawDescriptionHelpFormatter)
    parser.add_argument("--program", default=BUILT, metavar="PATH", help="the program that is measured")
    parser.add_argument("--count", type=int, default=50, metavar="N", help="how often a desk is asked (50)")
    parser.add_argument("--turns", type=int, default=3, metavar="N", help="how often a file is printed (3)")
    parser.add_argument("--folder", default=quick_folder(), metavar="PATH", help="where the files lie")
    asked = parser.parse_args()
    load, program = f"{os.getloadavg()[0]:.1f}", os.path.abspath(asked.program)
    print(f"{time.strftime('%Y-%m-%d', time.gmtime())}, {os.cpu_count()} cores, a load of {load} before it began; {asked.count} answers of each\n")
    print("| A desk | The page, milliseconds of a processor | `waiting` | `places` | The page, KB | `board`, s | `report`, s |\n|---|---|---|---|---|---|---|", flush=True)
    most = 0.0
    for name, tables in DESKS.items():
        with tempfile.TemporaryDirectory(prefix="bench-", dir=asked.folder) as folder:
            write_lines(f"{folder}/empty.tc", [])
            make(program, folder, tables())
            took = served(program, folder, asked.count)
            board, report = printed(program, folder, asked.turns)
        most = max(most, took["/board"][0])
        times = " | ".join(f"{took[path][0]:.1f}" for path in PATHS)
        print(f"| {name} | {times} | {took['/board'][1] / 1000:.0f} | {board:.2f} | {report:.2f} |", flush=True)
    print(f"\nbench board: a page takes at most {most:.1f} ms, wanted {MOST:.0f} at most")
    return int(most > MOST)


if __name__ == "__main__":
    sys.exit(main())
