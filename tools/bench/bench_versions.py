#!/usr/bin/env python3
"""Measures what an opening costs that brings a desk's file to the newest version of the schema: tools/bench/bench_versions.py BEFORE

BEFORE is a program that did not know the newest version. A file of each earlier version, as SQLite makes it, has 65,535 requests and 989,000 rows of the history, four
of the requests on their way. A copy of it is opened by BEFORE, and one by the program; then the last copy, of the newest version by now, is opened once more by the
program. All print the same moves and places, but that the last has nothing to be moved. Each is done --turns times, one after the other, on new copies, and the least
time of processors counts. The files lie in memory where the system has a folder there, so that no disk is waited for; or in --folder. With --from N, which may stand
several times, the file is of that version alone: a program of before may not know them all.

With --replies N a last file is of the newest version, with so many kept replies besides: what an opening pays for judging them.

The status is 1 where a migrating opening takes more than 1.3 times what BEFORE takes of the same file, or where one prints something else.
"""
import argparse
import os
import shutil
import sys
import tempfile
import time
from dataclasses import replace
from typing import Optional, Sequence

sys.path.insert(0, os.path.dirname(os.path.dirname(os.path.realpath(__file__))))
from bench.spent import Took, spent
from faults.stop_full import full_tables
from model.rows import Reply, move_line, places_line
from model.tables import opened_moves, opened_tables
from tests.asked import BUILT
from tests.made_files import EARLIER, as_version, make_file
from tests.plain_runs import text_of
from tests.runs import quick_folder

OPENED, AGAIN = 1000, 9000
MOST = 1.3
BODY = "ok request 1 5/0\nmove 1 100 ann 1 - Entered enter\n"


def run(program: str, folder: str, name: str, moment: int, wanted: str) -> Took:
    """Opens a file, which has to print exactly this."""
    ended = spent(folder, [program, "run", "--db", f"{folder}/{name}", "--at", str(moment), "/dev/null"])
    if ended.status or ended.out != wanted:
        sys.exit(f"bench_versions: {program} on {name}: status {ended.status}, or it prints something else: {ended.out[:200]!r} {ended.err!r}")
    return ended.took


def by_before(version: int) -> str:
    """An opening of a file of this version by the program before, in words."""
    return f"version {version}, by the program before"


def by_program(version: int) -> str:
    """One by the program."""
    return f"version {version}, brought to the newest"


def measure(before: str, program: str, folder: str, turns: int, versions: Sequence[int], replies: Optional[int]) -> dict[str, list[Took]]:
    """What each opening took, in each turn."""
    tables = full_tables()
    opened = opened_tables(tables, OPENED)
    printed, last = text_of([*(move_line(it) for it in opened_moves(tables, OPENED)), places_line(opened)]), text_of([places_line(opened)])
    for version in versions:
        make_file(f"{folder}/version{version}.db", as_version(tables, version))
    if replies is not None:
        make_file(f"{folder}/replies.db", replace(opened, reply=[Reply("ann", number, BODY) for number in range(1, replies + 1)]))
    took: dict[str, list[Took]] = {}
    for _ in range(turns):
        for version in versions:
            for name in ("old", "new"):
                shutil.copy(f"{folder}/version{version}.db", f"{folder}/{name}.db")
            took.setdefault(by_before(version), []).append(run(before, folder, "old.db", OPENED, printed))
            took.setdefault(by_program(version), []).append(run(program, folder, "new.db", OPENED, printed))
        took.setdefault("once more, of the newest", []).append(run(program, folder, "new.db", AGAIN, last))
        if replies is not None:
            took.setdefault(f"of the newest, with {replies:,} replies", []).append(run(program, folder, "replies.db", AGAIN, last))
    return took


def main() -> int:
    """Measures, and prints a table."""
    parser = argparse.ArgumentParser(description=__doc__, formatter_class=argparse.RawDescriptionHelpFormatter)
    parser.add_argument("before", metavar="BEFORE", help="a program that did not know the newest version")
    parser.add_argument("--from", type=int, action="append", choices=EARLIER, dest="versions", metavar="N", help="of this version alone (each earlier one)")
    parser.add_argument("--program", default=BUILT, metavar="PATH", help="the program that is measured")
    parser.add_argument("--turns", type=int, default=5, metavar="N", help="how often (5)")
    parser.add_argument("--replies", type=int, metavar="N", help="with a file that has so many kept replies")
    parser.add_argument("--folder", default=quick_folder(), metavar="PATH", help="where the files lie")
    asked = parser.parse_args()
    load = f"{os.getloadavg()[0]:.1f}"
    with tempfile.TemporaryDirectory(prefix="bench-", dir=asked.folder) as folder:
        versions = asked.versions or EARLIER
        took = measure(os.path.abspath(asked.before), os.path.abspath(asked.program), folder, asked.turns, versions, asked.replies)
    print(f"{time.strftime('%Y-%m-%d', time.gmtime())}, {os.cpu_count()} cores, a load of {load} before it began; the least of {asked.turns}\n")
    print("| Opening a file of 65,535 requests and 989,000 rows | Of a processor, s | Times before | Wall s | MB |\n|---|---|---|---|---|")
    least = {name: min(them) for name, them in took.items()}
    old = least[by_before(versions[0])].processor
    for name, it in least.items():
        old = it.processor if name in map(by_before, versions) else old
        print(f"| {name} | {it.processor:.2f} | {it.processor / old:.2f} | {min(one.clock for one in took[name]):.2f} | {it.memory:.0f} |")
    times = [least[by_program(it)].processor / least[by_before(it)].processor for it in versions]
    told = ", ".join(f"{it:.2f} times from version {version}" for version, it in zip(versions, times))
    print(f"bench versions: a migrating opening takes {told}, wanted {MOST} at most")
    return int(max(times) > MOST)


if __name__ == "__main__":
    sys.exit(main())
