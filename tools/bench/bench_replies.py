#!/usr/bin/env python3
"""Measures what kept replies cost a desk in a file, and prints two tables for docs/BENCH.md.

A file of a desk with nothing but so many kept replies, of two lines each, as SQLite makes it, is opened by `run --db`, with nothing to do, and by
`report`. What the kit takes of that is seen by a file with one table more, which is no desk's: the program says so once the kit has opened it, and goes no
further. Each is done --turns times, turn by turn, and the least time of processors counts.

Then `serve` is sent 2,000 posts under numbers of which the reply is kept: of the same 1,000 of each file, as one who sends again what he sent last, and over
all numbers. Each is answered by that reply. Its time of processors is told, without that of its opening.

The files lie in memory, where the system has a folder there, so that no disk is waited for; or in --folder. The status is 1 where a post of one of the same
1,000 replies takes the server of the most more than 1.3 times what it takes that of the fewest.
"""
import argparse
import os
import sys
import tempfile
import time
from contextlib import closing
from dataclasses import replace
from glob import glob
from typing import NamedTuple

os.environ.setdefault("PATIENCE", "200")  # the server opens its file before it answers
sys.path.insert(0, os.path.dirname(os.path.dirname(os.path.realpath(__file__))))
from bench.spent import Took, spent
from generate.http_words import entry, get, post
from model.kept import connect
from model.rows import Reply, empty_tables
from tests.asked import BUILT
from tests.http_peer import Server
from tests.made_files import make_file
from tests.runs import bytes_of, quick_folder

MOST = 1.3
CALLS, STRIDE = 2000, 7919  # how many are asked for, and how far apart they stand: a prime, so that they go over all in turn
SAME = 1000  # of how many replies the same are asked for in each file
PERSON, FIRST = "a", "ok request 1 5/0"
BODY = f"{FIRST}\nmove 1 100 a 1 - Entered enter\n"
NOBODYS = "the kit opens it, and nothing is read"
OPENINGS = {
    "`run --db`": ("run", "--db", "{}.db", "/dev/null"),
    "`report`": ("report", "{}.db", "0", "86400"),
    NOBODYS: ("run", "--db", "{}-nobodys.db", "/dev/null"),
}


class Asked(NamedTuple):
    """What a post that comes again takes the server, in milliseconds of processors: one of the same replies, and any that is kept."""
    same: float
    any: float


def number_at(place: int) -> int:
    """The number of the reply at this place, from 0: every second one."""
    return 2 * place + 2


def make_files(folder: str, count: int) -> None:
    """Makes the file of a desk with so many replies, and one with the same rows that is no desk's."""
    replies = [Reply(PERSON, number_at(place), BODY) for place in range(count)]
    for name in (f"{count}.db", f"{count}-nobodys.db"):
        make_file(f"{folder}/{name}", replace(empty_tables(), reply=replies))
    with closing(connect(f"{folder}/{count}-nobodys.db")) as connection:
        connection.execute("CREATE TABLE other (value INTEGER) STRICT")


def opening(program: str, folder: str, name: str, count: int) -> Took:
    """What this opening of the file with so many replies takes."""
    ended = spent(folder, [program, *(it.format(f"{folder}/{count}") for it in OPENINGS[name])])
    if ended.status != (2 if name == NOBODYS else 0):
        sys.exit(f"bench_replies: {name} with {count} replies: {ended}")
    return ended.took


def processors(pid: int) -> float:
    """The milliseconds that a process has had of processors."""
    return sum(int(bytes_of(it).split()[0]) for it in glob(f"/proc/{pid}/task/*/schedstat")) / 1e6


def served(program: str, folder: str, count: int, first: int) -> float:
    """The milliseconds of processors that the server of the file with so many replies takes for each post of one of the first so many."""
    numbers = [number_at(turn * STRIDE % first) for turn in range(CALLS)]
    raws = [post("/acts", entry(act="enter 5 ---- no 8 1 - - ok", by=PERSON, moment=100, number=number)) for number in numbers]
    with Server(program, folder, f"{count}.db", CALLS + 1) as server:
        server.exchange(get("/places"))
        before = processors(server.process.pid)
        answers = [server.exchange(raw) for raw in raws[:-1]]
        took = processors(server.process.pid) - before
        answers.append(server.exchange(raws[-1]))
        ended = server.end()
    bad = [it for it in answers if not it.startswith(b"HTTP/1.1 200 OK\r\n") or FIRST.encode() not in it]
    if ended.status or bad:
        sys.exit(f"bench_replies: the server ends with {ended}, or an answer is another: {bad[:1]}")
    return took / (CALLS - 1)


def asked(program: str, folder: str, count: int) -> Asked:
    """What posts to the file with so many replies take."""
    return Asked(served(program, folder, count, min(count, SAME)), served(program, folder, count, count))


def print_openings(took: dict[tuple[int, str], list[Took]], folder: str) -> None:
    """Prints what the openings took."""
    print("| Kept replies | What | Of a processor, s | Wall s | MB | File MB |\n|---|---|---|---|---|---|")
    for (count, name), turns in took.items():
        best, clock = min(turns), min(it.clock for it in turns)
        print(f"| {count:,} | {name} | {best.processor:.2f} | {clock:.2f} | {best.memory:.0f} | {os.path.getsize(f'{folder}/{count}.db') / 2**20:.1f} |")


def print_questions(took: dict[int, Asked]) -> None:
    """Prints what the posts took."""
    print(f"\n| Kept replies in the file | a post that comes again, of the same {SAME:,}, ms | of any |")
    print("|---|---|---|")
    for count, it in took.items():
        print(f"| {count:,} | {it.same:.3f} | {it.any:.3f} |")


def main() -> int:
    """Measures, and prints the tables."""
    parser = argparse.ArgumentParser(description=__doc__, formatter_class=argparse.RawDescriptionHelpFormatter)
    parser.add_argument("--program", default=BUILT, metavar="PATH", help="the program that is measured")
    parser.add_argument("--counts", type=int, nargs="+", default=[1000, 1000000], metavar="N", help="how many replies are kept, in rising order (1000 1000000)")
    parser.add_argument("--turns", type=int, default=3, metavar="N", help="how often (3)")
    parser.add_argument("--folder", default=quick_folder(), metavar="PATH", help="where the files lie")
    words = parser.parse_args()
    program, load = os.path.abspath(words.program), f"{os.getloadavg()[0]:.1f}"
    took: dict[tuple[int, str], list[Took]] = {(count, name): [] for count in words.counts for name in OPENINGS}
    questions: dict[int, list[Asked]] = {count: [] for count in words.counts}
    with tempfile.TemporaryDirectory(prefix="bench-", dir=words.folder) as folder:
        for count in words.counts:
            make_files(folder, count)
        for _ in range(words.turns):
            for count, name in took:
                took[count, name].append(opening(program, folder, name, count))
            for count in words.counts:
                questions[count].append(asked(program, folder, count))
        print(f"{time.strftime('%Y-%m-%d', time.gmtime())}, {os.cpu_count()} cores, a load of {load} before it began; the least of {words.turns}\n")
        print_openings(took, folder)
    least = {count: Asked(min(it.same for it in them), min(it.any for it in them)) for count, them in questions.items()}
    print_questions(least)
    times = least[words.counts[-1]].same / least[words.counts[0]].same
    print(f"bench replies: the same reply of {words.counts[-1]:,} takes the server {times:.2f} times what it takes of {words.counts[0]:,}, wanted {MOST} at most")
    return int(times > MOST)


if __name__ == "__main__":
    sys.exit(main())
