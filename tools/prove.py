#!/usr/bin/env python3
"""Proves the crates, several beside each other, so that `rt ci` after it finds them kept: tools/prove.py [--record]

Each crate is a call `rt ci NAME`, which begins as soon as the crates below it are proved; the crate with the longest way to the program goes first.
A call takes as many processors as it finds memory for. `rt ci` without names gives each proof one processor if RT_JOBS says how many there are, and
otherwise lets long proofs wait for memory that they do not take. It is the gate all the same: what is proved here counts only because it keeps it.

tools/prove.seconds has the seconds of each crate, by which the ways are measured; --record writes it anew. The status is 1 if a crate is not proved.
If the toolchain can keep nothing on this machine, this ends after the first crate, and `rt ci` proves all.
"""
import argparse
import os
import re
import signal
import subprocess
import sys
import tempfile
import time
from typing import IO, NamedTuple

sys.path.insert(0, f"{os.path.dirname(os.path.realpath(__file__))}/edits")
from edit_checks import crates_of

SECONDS = f"{os.path.dirname(os.path.realpath(__file__))}/prove.seconds"
UNKNOWN = 100
# Another proof begins only if so much memory is free, in KB.
FREE = 6_000_000
KEPT = "and that is kept"


class Proof(NamedTuple):
    """A call that runs: since when, and what it prints."""
    process: subprocess.Popen[bytes]
    began: float
    said: IO[bytes]


def seconds_of() -> dict[str, int]:
    """How many seconds each crate took."""
    with open(SECONDS, encoding="ascii") as kept:
        return {name: int(count) for name, count in map(str.split, kept)}


def ways_of(below: dict[str, list[str]], seconds: dict[str, int]) -> dict[str, int]:
    """How many seconds lie between a crate's beginning and the end of all that stands on it."""
    ways: dict[str, int] = {}
    for name in reversed(below):
        above = [ways[it] for it in ways if name in below[it]]
        ways[name] = seconds.get(name, UNKNOWN) + max(above, default=0)
    return ways


def by_layers(crates: dict[str, list[str]]) -> dict[str, list[str]]:
    """The crates, each after those that it stands on, with the crates of this repository alone below each."""
    left, done = dict(crates), dict[str, list[str]]()
    while left:
        for name in [it for it in left if not any(low in left for low in left[it])]:
            done[name] = [low for low in left.pop(name) if low in crates]
    return done


def free() -> int:
    """How much memory is free, in KB."""
    with open("/proc/meminfo", encoding="ascii") as told:
        found = re.search(r"MemAvailable:\s+(\d+)", told.read())
    return int(found[1]) if found else FREE


def begin(name: str, is_first: bool) -> Proof:
    """Begins the proof of a crate, at a lower weight if another has the longest way."""
    said = tempfile.TemporaryFile()
    weigh = "" if is_first else "echo 4 >/proc/self/autogroup 2>/dev/null; "
    words = ["bash", "-c", f"{weigh}exec rt ci {name}"]
    process = subprocess.Popen(words, stdin=subprocess.DEVNULL, stdout=said, stderr=said, start_new_session=True)
    return Proof(process, time.monotonic(), said)


def end(running: dict[str, Proof]) -> None:
    """Ends the calls that run, with all that they began."""
    for proof in running.values():
        os.killpg(proof.process.pid, signal.SIGTERM)


def text_of(said: IO[bytes]) -> str:
    """All that was printed."""
    said.seek(0)
    return said.read().decode(errors="replace")


def prove(below: dict[str, list[str]], ways: dict[str, int], running: dict[str, Proof]) -> tuple[dict[str, int], bool]:
    """Proves the crates, and returns the seconds of each, and whether none failed."""
    took: dict[str, int] = {}
    lanes, is_well = len(os.sched_getaffinity(0)), True
    left = sorted(below, key=lambda it: -ways[it])
    while running or (left and is_well):
        for name in [it for it in running if running[it].process.poll() is not None]:
            proof = running.pop(name)
            took[name], text = round(time.monotonic() - proof.began), text_of(proof.said)
            print(f"{name}: {took[name] / 60:.1f} minutes", flush=True)
            if proof.process.returncode != 0:
                print(text, flush=True)
                is_well = False
            elif KEPT not in text:
                print("the toolchain keeps no proofs on this machine", flush=True)
                left.clear()
        ready = [it for it in left if all(low in took for low in below[it])]
        if ready and is_well and len(running) < lanes and (not running or free() > FREE):
            is_first = all(ways[ready[0]] >= ways[it] for it in running)
            running[ready[0]] = begin(ready[0], is_first)
            left.remove(ready[0])
        time.sleep(0.5)
    return took, is_well


def main() -> int:
    to = argparse.ArgumentParser(description=__doc__, formatter_class=argparse.RawDescriptionHelpFormatter)
    to.add_argument("--record", action="store_true", help="write tools/prove.seconds anew")
    asked = to.parse_args()
    below = by_layers(crates_of())
    running: dict[str, Proof] = {}
    try:
        took, is_well = prove(below, ways_of(below, seconds_of()), running)
    finally:
        end(running)
    if asked.record and is_well and len(took) == len(below):
        with open(SECONDS, "w", encoding="ascii") as kept:
            kept.writelines(f"{name} {took[name]}\n" for name in sorted(took))
    return int(not is_well)


if __name__ == "__main__":
    sys.exit(main())
