#!/usr/bin/env python3
"""Measures what lists cost: tools/bench/bench_lists.py [--before BEFORE]

Scripts of so many entries go through the program, on a desk in memory and on one in a file: plain requests, inserts of one activity, and inserts of
eight, all of the same eight requests. An insert of eight has seven rows of cargo besides, and its line is longer. Then each file is opened once more,
with nothing to do; and with BEFORE, a program that knew no lists, the plain requests and the inserts of one are entered by that, too.

Each is done --turns times, one after the other, and the least time of processors counts, without that of a script that enters the eight requests alone. The files
lie in memory where the system has a folder there, so that no disk is waited for; or in --folder.

The status is 1 where an insert of eight takes more than 2 times what one of one takes, in memory or in a file, or where entries without lists take more than
1.3 times what BEFORE takes.
"""
import argparse
import os
import sys
import tempfile
import time
from typing import NamedTuple, Sequence

sys.path.insert(0, os.path.dirname(os.path.dirname(os.path.realpath(__file__))))
from bench.spent import Took, spent
from tests.asked import BUILT
from tests.runs import quick_folder, write_lines

MOST_OF_EIGHT, MOST_OF_BEFORE = 2.0, 1.3
NAMED = 8
NOTHING = "nothing more"
# What is entered so often, by what it is called.
ENTRIES = {
    NOTHING: "",
    "plain requests": "0 a enter {} ---- no 8 1 - - ok",
    "inserts of one": "0 a enter {} ---c no 11 4 1 60 ok",
    "inserts of eight": "0 a enter {} ---c no 11 4 1;2;3;4;5;6;7;8 60;60;60;60;60;60;60;60 ok",
}
PLAIN, ONE, EIGHT = list(ENTRIES)[1:]
MEMORY, FILE, OPENED = "a desk in memory", "a desk in a file", "the file, opened again"


class What(NamedTuple):
    """What is measured: by which program, where, and what is entered."""
    program: str
    where: str
    entries: str


def write_scripts(folder: str, count: int) -> None:
    """Writes a script of each kind of entries, of ten application processes in turn, behind the requests that inserts name."""
    named = [f"0 a enter {at} a--- no 8 1 - - ok" for at in range(NAMED)]
    for name, line in ENTRIES.items():
        write_lines(f"{folder}/{name}.tc", named + [line.format(at % 10) for at in range(count) if line])
    write_lines(f"{folder}/empty.tc", [])


def run(folder: str, what: What, count: int) -> Took:
    """Works a script, or opens the file again; the places have to be right."""
    script = f"{folder}/{'empty' if what.where == OPENED else what.entries}.tc"
    if what.where == FILE:
        for end in ("", "-wal", "-shm"):
            if os.path.exists(f"{folder}/desk.db{end}"):
                os.remove(f"{folder}/desk.db{end}")
    ended = spent(folder, [what.program, "run", *([] if what.where == MEMORY else ["--db", f"{folder}/desk.db"]), script])
    entered = NAMED + (0 if what.entries == NOTHING else count)
    wanted = f"places {entered}: {entered} 0 0 0 0 0 0 0 0 0 0 0 0 0 0"
    if ended.status or ended.out.splitlines()[-1:] != [wanted]:
        sys.exit(f"bench_lists: {what}: status {ended.status}, {ended.out[-200:]!r} {ended.err!r}")
    return ended.took


def measure(folder: str, programs: Sequence[str], count: int, turns: int) -> dict[What, list[Took]]:
    """What each took, in each turn. A program that is not the last knows no lists."""
    took: dict[What, list[Took]] = {}
    for _ in range(turns):
        for program in programs:
            for entries in ENTRIES:
                for where in (MEMORY, FILE, OPENED) if entries != EIGHT or program == programs[-1] else ():
                    what = What(program, where, entries)
                    took.setdefault(what, []).append(run(folder, what, count))
    return took


def main() -> int:
    """Measures, and prints a table."""
    parser = argparse.ArgumentParser(description=__doc__, formatter_class=argparse.RawDescriptionHelpFormatter)
    parser.add_argument("--before", metavar="BEFORE", help="a program that knew no lists")
    parser.add_argument("--program", default=BUILT, metavar="PATH", help="the program that is measured")
    parser.add_argument("--count", type=int, default=12000, metavar="N", help="how many are entered (12000; a script has at most 1,048,576 bytes)")
    parser.add_argument("--turns", type=int, default=5, metavar="N", help="how often (5)")
    parser.add_argument("--folder", default=quick_folder(), metavar="PATH", help="where the files lie")
    asked = parser.parse_args()
    load, program = f"{os.getloadavg()[0]:.1f}", os.path.abspath(asked.program)
    programs = [os.path.abspath(asked.before), program] if asked.before else [program]
    with tempfile.TemporaryDirectory(prefix="bench-", dir=asked.folder) as folder:
        write_scripts(folder, asked.count)
        took = measure(folder, programs, asked.count, asked.turns)
    least = {what: min(them) for what, them in took.items()}

    def cost(what: What) -> float:
        """The microseconds of processors of one entry."""
        spare = least[what].processor - least[what._replace(entries=NOTHING)].processor
        return float(spare * 1e6 / asked.count)

    day = time.strftime("%Y-%m-%d", time.gmtime())
    print(f"{day}, {os.cpu_count()} cores, a load of {load} before it began; {asked.count:,} of each, the least of {asked.turns}\n")
    print("| Where | What | Of a processor, microseconds each | Times one of one | MB |\n|---|---|---|---|---|")
    for what in least:
        if what.entries != NOTHING:
            by, one = "" if what.program == program else ", by the program before", cost(What(program, what.where, ONE))
            print(f"| {what.where} | {what.entries}{by} | {cost(what):.1f} | {cost(what) / one:.2f} | {least[what].memory:.0f} |")
    eight = {where: cost(What(program, where, EIGHT)) / cost(What(program, where, ONE)) for where in (MEMORY, FILE, OPENED)}
    before = {what: cost(what._replace(program=program)) / cost(what) for what in least if what.program != program and what.entries != NOTHING}
    told = ", ".join(f"{where} {it:.2f}" for where, it in eight.items())
    print(f"bench lists: an insert of eight takes these times one of one: {told}; wanted {MOST_OF_EIGHT} at most as it is entered")
    for what, times in before.items():
        print(f"bench lists: {what.where}, {what.entries}: {times:.2f} times before, wanted {MOST_OF_BEFORE} at most")
    return int(max(eight[MEMORY], eight[FILE]) > MOST_OF_EIGHT or max(before.values(), default=0) > MOST_OF_BEFORE)


if __name__ == "__main__":
    sys.exit(main())
