#!/usr/bin/env python3
"""Measures what it costs to read octets, and prints a table for docs/BENCH.md: tools/bench/bench_octets.py [--program PATH] [--lines N]

`tcdesk octets` reads so many lines from its standard input: CLTUs of a plain request by the standard profile; CLTUs of an insert of eight; and telemetry frames of 1,115 octets, with
reports in them. The time is what the system says that the program took of a processor, the least of five runs; a run of one line is taken off. All that it prints goes to /dev/null, and
its first answer has to be the one of the plain reading.
"""
import argparse
import os
import subprocess
import sys
import tempfile
from typing import NamedTuple

sys.path.insert(0, os.path.dirname(os.path.dirname(os.path.realpath(__file__))))
from model.carriers import Sender
from model.decoded import answer
from model.octets import Ad, cltu, tc_frame
from model.packets import Flight, Insert, Plain, Verification, report, telecommand
from model.profiles import Profile
from model.request import Identity
from tests.asked import BUILT

RUNS = 5


class Row(NamedTuple):
    """What is read: its name, its layer, and the octets of a line."""
    name: str
    layer: str
    octets: bytes


def rows() -> list[Row]:
    """Returns what is measured."""
    profile = Profile()
    ping = Flight(Identity(5, 0), "a--c", Plain(8, 1, outcome="ok"))
    insert = Flight(Identity(5, 1), "a--c", Insert(tuple((1_000_000 + number, ping) for number in range(8))))
    reports = [report(profile, number, 1000, Verification(7, Identity(5, number))) for number in range(48)]
    frame = Sender(profile).send(0x010C0005, reports)[0]
    return [Row("a CLTU of a plain request", "cltu", cltu(tc_frame(profile, Ad(0, telecommand(profile, ping))), False)),
            Row("a CLTU of an insert of eight", "cltu", cltu(tc_frame(profile, Ad(0, telecommand(profile, insert))), False)),
            Row("a telemetry frame with 48 reports", "tm", frame)]


def spent(program: str, row: Row, lines: int) -> float:
    """Returns the processor time that the program takes for so many lines, in seconds: the least of some runs."""
    found = []
    with tempfile.TemporaryFile() as text:
        text.write((row.octets.hex() + "\n").encode() * lines)
        for _ in range(RUNS):
            text.seek(0)
            before = os.times()
            subprocess.run([program, "octets", row.layer, "-"], stdin=text, stdout=subprocess.DEVNULL, check=True)
            after = os.times()
            found.append(after.children_user + after.children_system - before.children_user - before.children_system)
    return min(found)


def main() -> int:
    """Prints the table. The status is 1 if an answer is not the plain one."""
    parser = argparse.ArgumentParser(description=__doc__, formatter_class=argparse.RawDescriptionHelpFormatter)
    parser.add_argument("--program", metavar="PATH", default=BUILT, help="the program that is run")
    parser.add_argument("--lines", metavar="N", type=int, default=10000, help="how many lines it reads")
    asked = parser.parse_args()
    print("| What is read | Octets | Lines printed | Microseconds | MB/s |\n|---|---|---|---|---|")
    for row in rows():
        ran = subprocess.run([asked.program, "octets", row.layer, row.octets.hex()], capture_output=True, text=True, check=False)
        plain = answer(Profile(), row.layer, row.octets.hex().encode())
        if ran.stdout.splitlines() != plain.lines or ran.returncode != plain.status:
            print(f"bench_octets: {row.name} is answered otherwise than by the plain reading", file=sys.stderr)
            return 1
        micros = (spent(asked.program, row, asked.lines) - spent(asked.program, row, 1)) / (asked.lines - 1) * 1e6
        print(f"| {row.name} | {len(row.octets)} | {len(plain.lines)} | {micros:.1f} | {len(row.octets) / micros:.2f} |")
    return 0


if __name__ == "__main__":
    sys.exit(main())
