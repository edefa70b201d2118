#!/usr/bin/env python3
"""Measures what an act costs over HTTP, and prints a table for docs/BENCH.md.

So many requests are entered on a new desk in a file of the folder, which has to lie on a disk (the system's temporary folder where none is
given): by POST /acts, each on a connection of its own and under a number of its own, one after the other, and all of them again under the same numbers; by
`loop` and by `run --db` as a script; and beside these the same rows in the same batches, with the kept replies, by Python's sqlite3 over SQLite's own C
library, through a log with a sync at each commit. What the disk needs for a page and a sync is told too. GET /places is asked as often. Each is measured three
times, turn by turn, and the best time of each is taken. Every answer has to be a good one. The status is 1 where acts over HTTP are fewer a second than 0.45 of
the library's commits: the kit's store waits for the disk twice in a commit, and the library once. That is wanted of a disk that waits for a sync, 1.5
milliseconds a commit or more.
"""
import argparse
import os
import re
import resource
import subprocess
import sys
import tempfile
import time
from collections import defaultdict
from contextlib import closing
from pathlib import Path
from typing import Sequence

try:
    import sqlite3
except ImportError:
    sys.exit("python3 has no module sqlite3 (Debian: libpython3-stdlib)")

sys.path.insert(0, os.path.dirname(os.path.dirname(os.path.realpath(__file__))))
from generate.http_words import entry, get, post
from tests.asked import BUILT, TOP
from tests.http_peer import Fault, Server

TURNS = 3
PAGE = 4096
PROCESSES = 10
WANTED = 0.45
GOOD = b"HTTP/1.1 200 OK\r\n"  # how a good answer begins
Spent = tuple[float, float]  # seconds by the clock, and of processors


def act_of(at: int) -> str:
    """The act that enters the request at this place of the list, from 0."""
    return f"enter {at % PROCESSES} ---- no 8 1 - - ok"


def posts(count: int) -> list[bytes]:
    """The same acts as posts, each under a number of its own."""
    return [post("/acts", entry(act=act_of(at), by="a", moment=0, number=at + 1)) for at in range(count)]


def acts_served(program: str, folder: str, count: int) -> float:
    """Acts by POST /acts."""
    return served(program, folder, posts(count), GOOD)


def repeats_served(program: str, folder: str, count: int) -> float:
    """The same acts again, of a desk that keeps the reply of each."""
    acts_served(program, folder, count)
    return served(program, folder, posts(count), GOOD)


def questions_served(program: str, folder: str, count: int) -> float:
    """Questions by GET /places, of a desk on which acts were made."""
    script(program, folder, count, "run", "--db", "desk.db", "script.tc")
    return served(program, folder, [get("/places")] * count, GOOD)


def served(program: str, folder: str, raws: Sequence[bytes], begins: bytes) -> float:
    """Seconds in which the server answers all of these, one connection each."""
    with Server(program, folder, "desk.db", len(raws) + 1) as server:
        server.exchange(get("/places"))
        began = time.monotonic()
        answers = [server.exchange(it) for it in raws]
        took = time.monotonic() - began
        ended = server.end()
    if ended.status or any(not it.startswith(begins) for it in answers):
        raise Fault(f"an answer is another: {ended}")
    return took


def script(program: str, folder: str, count: int, *words: str) -> float:
    """Seconds in which the program runs a script of so many acts, by these words."""
    with open(f"{folder}/script.tc", "w", encoding="ascii") as file:
        file.write("".join(f"0 a {act_of(at)}\n" for at in range(count)))
    began = time.monotonic()
    ran = subprocess.run([program, *words], cwd=folder, stdin=subprocess.DEVNULL, capture_output=True, timeout=3600, check=False)
    took = time.monotonic() - began
    if ran.returncode or not ran.stdout.splitlines()[-1].startswith(b"places %d: %d 0 " % (count, count)):
        raise Fault(f"{words[0]}: {ran.stdout[-200:]!r} {ran.stderr!r}")
    return took


def texts() -> list[str]:
    """The store's own texts of SQL."""
    found: list[str] = []
    for path in sorted(Path(f"{TOP}/crates/tc_store/src").glob("*.rt")):
        found += re.findall(r'"((?:CREATE|INSERT) [^"]*)"', path.read_text(encoding="utf-8"))
    return found


def own_library(_: str, folder: str, count: int) -> float:
    """The rows of the same acts, and their replies, by SQLite's own library."""
    made = texts()
    begins = ("INSERT INTO request ", "INSERT INTO move ", "INSERT OR REPLACE INTO tally ", "INSERT INTO reply ")
    request, move, tally, reply = (next(it for it in made if it.startswith(begin)) for begin in begins)
    with closing(sqlite3.connect(f"{folder}/bare.db", isolation_level=None)) as db:
        db.execute("PRAGMA journal_mode = WAL")
        db.execute("PRAGMA synchronous = FULL")
        for it in [it for it in made if it.startswith("CREATE")]:
            db.execute(it)
        db.executemany(tally, [(it, 0) for it in range(1, 16)])
        began = time.monotonic()
        for at in range(count):
            db.execute("BEGIN")
            db.execute(request, (at + 1, at % PROCESSES, at // PROCESSES, 0, 0, 8, 1, 0, 0, "ok", "a", "", 0, 0, 1))
            db.execute(move, (at + 1, at + 1, 0, 1, 1, "a", 0))
            db.execute(tally, (1, at + 1))
            told = f"ok request {at + 1} {at % PROCESSES}/{at // PROCESSES}\nmove {at + 1} 0 a {at + 1} - Entered enter\n"
            db.execute(reply, ("a", at + 1, told))
            db.execute("COMMIT")
        return time.monotonic() - began


def pages(_: str, folder: str, count: int) -> float:
    """A page that is written behind the last one, and a sync, so often."""
    with open(f"{folder}/pages", "wb", buffering=0) as file:
        began = time.monotonic()
        for _turn in range(count):
            file.write(bytes(PAGE))
            os.fdatasync(file.fileno())
        return time.monotonic() - began


LIBRARY = "SQLite's own library: the same batches"
MEASURED = {
    "the disk: a page and a sync": pages,
    LIBRARY: own_library,
    "`run --db`, a script": lambda program, folder, count: script(program, folder, count, "run", "--db", "desk.db", "script.tc"),
    "`loop`, a script": lambda program, folder, count: script(program, folder, count, "loop", "desk.db", "script.tc"),
    "POST /acts, a connection each": acts_served,
    "POST /acts again, a kept reply each": repeats_served,
    "GET /places, a connection each": questions_served,
}


def measure(program: str, count: int, within: str) -> dict[str, Spent]:
    """The best seconds of each, and the user and kernel seconds of the programs in that turn."""
    best: dict[str, Spent] = defaultdict(lambda: (float("inf"), 0.0))
    for _ in range(TURNS):
        for name, measured in MEASURED.items():
            with tempfile.TemporaryDirectory(prefix="bench-http-", dir=within) as folder:
                before = resource.getrusage(resource.RUSAGE_CHILDREN)
                try:
                    took = measured(program, folder, count)
                except Fault as fault:
                    print(f"bench_http: {name}: {fault}", file=sys.stderr)
                    continue
                after = resource.getrusage(resource.RUSAGE_CHILDREN)
                used = after.ru_utime + after.ru_stime - before.ru_utime - before.ru_stime
                best[name] = min(best[name], (took, used))
    return best


def main() -> int:
    """Measures all, and prints the table."""
    parser = argparse.ArgumentParser(description=__doc__, formatter_class=argparse.RawDescriptionHelpFormatter)
    parser.add_argument("--program", default=BUILT, metavar="PATH", help="the program that is measured")
    parser.add_argument("--count", type=int, default=2000, metavar="N", help="how many of each (2000)")
    parser.add_argument("--folder", default=tempfile.gettempdir(), metavar="PATH", help="a folder on the disk that is measured")
    asked = parser.parse_args()
    program, count, within = os.path.abspath(asked.program), asked.count, asked.folder
    kind = subprocess.run(["stat", "-f", "-c", "%T", within], capture_output=True, text=True, check=False).stdout.strip()
    load = f"{os.getloadavg()[0]:.1f}"
    best = measure(program, count, within)
    library = best[LIBRARY][0]
    print(f"{time.strftime('%Y-%m-%d', time.gmtime())}, {os.cpu_count()} cores, a load of {load} before it began; {count:,} of each, "
          f"the best of {TURNS}; files on {kind}; SQLite {sqlite3.sqlite_version}")
    print()
    print("| What | A second | Times the library's | Milliseconds each | Of a processor, milliseconds each |")
    print("|---|---|---|---|---|")
    for name in MEASURED:
        took, used = best[name]
        own = f"{used / count * 1000:.2f}" if used > 0.001 else ""
        print(f"| {name} | {count / took:,.0f} | {library / took:.2f} | {took / count * 1000:.2f} | {own} |")
    share = library / best["POST /acts, a connection each"][0]
    print(f"bench http: acts over HTTP are {share:.2f} of the library's, wanted {WANTED}")
    return int(share < WANTED)


if __name__ == "__main__":
    sys.exit(main())
