#!/usr/bin/env python3
"""Plants faults into the plain desk, one at a time, and looks whether the comparisons find them: tools/run.py --planted, or this file by itself, at
any place.

    tools/planted/plant.py                     some hundreds of them, over all files of tools/model
    tools/planted/plant.py --count 20          so many
    tools/planted/plant.py --seed 7            others of them, and other scripts
    tools/planted/plant.py --file fop --all    all of the files with this in their names
    tools/planted/plant.py --list              what may be planted: file, line and kind; nothing is tried

A fault is a small change of one fact or one rule, made by rule from the program's own syntax tree (tools/planted/changes.py): so the faults
follow the plain desk as it changes. Those that are known to be the same program are left out, with the reason (tools/planted/same.txt). Each is
tried first on the written cases, then on scripts, files, texts and requests of which it was put down once what the program does with them
(tools/planted/recorded.py); it is found where an answer differs, where the reading fails, or where it does not end. Those that are not found are
listed. The last lines are 'planted: F found of N' and 'N passed, N failed'; the status is 1 where more than a few were not found (MOST_MISSED), or
where the plain desk itself, with no fault in it, differs from the program.
"""
import argparse
import ast
import hashlib
import os
import sys
import time
from collections import defaultdict
from collections.abc import Sequence

TOOLS = os.path.dirname(os.path.dirname(os.path.realpath(__file__)))
sys.path.insert(0, TOOLS)

from planted.changes import changes_in, groups_in  # noqa: E402
from planted.looks import OF_OCTETS, files_of_readings, first_difference  # noqa: E402
from planted.recorded import Recorded  # noqa: E402
from planted.trials import Trial, all_tried, done_apart  # noqa: E402

COUNT, SEED = 400, 1
MOST_MISSED = 0.06  # of those that are planted
LEAST_SECONDS = 30.0  # that a fault has


def known_same() -> list[str]:
    """The names of changes that make the same program; one that ends in * stands for all that begin so."""
    return [it for it in text_of("planted/same.txt").splitlines() if it and not it.startswith("#")]


def is_named(trial: Trial, names: Sequence[str]) -> bool:
    """Whether a change is one of these."""
    return any(trial.key == it or it.endswith("*") and trial.key.startswith(it[:-1]) for it in names)


def all_trials() -> list[Trial]:
    """Every change of every file of the readings, but for those that make the same program."""
    trees = {it: ast.parse(text_of(it)) for it in files_of_readings(TOOLS)}
    following, same = groups_in(list(trees.values())), known_same()
    trials = [Trial(file, tree, it) for file, tree in trees.items() for it in changes_in(tree, following)]
    return [it for it in trials if not is_named(it, same)]


def text_of(file: str) -> str:
    """The text of a file of tools/."""
    with open(f"{TOOLS}/{file}", encoding="utf-8") as it:
        return it.read()


def drawn(trial: Trial, seed: int) -> bytes:
    """By what a seed puts changes in order, so that a change more or less leaves the order of the others as it is."""
    return hashlib.sha256(f"{seed} {trial.key}".encode()).digest()


def chosen(trials: Sequence[Trial], count: int, seed: int) -> list[Trial]:
    """So many of these: of every file in turn, and of every kind in turn."""
    piles = defaultdict[str, dict[str, list[Trial]]](dict)
    for it in sorted(trials, key=lambda it: (it.file, it.change.kind, drawn(it, seed))):
        piles[it.file].setdefault(it.change.kind, []).append(it)
    made, turns = list[Trial](), 0
    while len(made) < min(count, len(trials)):
        for kinds in piles.values():
            full = [it for it in kinds.values() if it]
            if full and len(made) < count:
                made.append(full[turns % len(full)].pop())
        turns += 1
    return made


def parsed(words: Sequence[str]) -> argparse.Namespace:
    """The words of the command line."""
    to = argparse.ArgumentParser(prog="tools/planted/plant.py", description=__doc__, formatter_class=argparse.RawDescriptionHelpFormatter)
    to.add_argument("--program", metavar="PATH", help="the program that answers are put down of")
    to.add_argument("--count", type=int, default=COUNT, metavar="N", help=f"plant so many ({COUNT})")
    to.add_argument("--seed", type=int, default=SEED, metavar="N", help=f"which are planted, and the scripts ({SEED})")
    to.add_argument("--file", default="", metavar="WORD", help="plant into files alone that have this in their names")
    to.add_argument("--word", default="", metavar="WORD", help="plant those alone that have this in their names")
    to.add_argument("--all", action="store_true", help="plant all of them")
    to.add_argument("--list", action="store_true", help="print what may be planted, and try nothing")
    to.add_argument("--told", action="store_true", help="print of each that is found what finds it")
    to.add_argument("--jobs", type=int, default=len(os.sched_getaffinity(0)), metavar="N", help="side by side (the processors)")
    return to.parse_args(words)


def program_of(path: str | None) -> str:
    """The program: this one, or the one that was built here, or the one that is kept."""
    top = os.path.dirname(TOOLS)
    paths = [os.path.abspath(path)] if path else [f"{top}/crates/tc_cli/out/tc_cli", f"{top}/dist/x86_64-linux-gnu/tcdesk"]
    there = [it for it in paths if os.access(it, os.X_OK)]
    if not there:
        sys.exit(f"plant.py: there is no program {paths[-1]}: tools/build.sh builds it, and --program names another")
    return there[0]


def put_down(program: str, seed: int) -> Recorded:
    """What the program does, which another process asks: in this one nothing of the plain desk may be imported."""
    from planted.corpus import recorded_by
    return recorded_by(program, seed)


def put_down_apart(program: str, seed: int) -> Recorded:
    """The same, asked of another process."""
    recorded = done_apart(lambda: put_down(program, seed))
    assert isinstance(recorded, Recorded)
    return recorded


def main(words: Sequence[str]) -> int:
    """Plants the faults that are asked for."""
    asked = parsed(words)
    trials = [it for it in all_trials() if asked.file in it.file and asked.word in it.name]
    trials = trials if asked.all or asked.word else chosen(trials, asked.count, asked.seed)
    if asked.list:
        print("\n".join(it.name for it in trials))
        return 0
    only_octets = all(it.file in OF_OCTETS for it in trials)
    recorded = Recorded() if only_octets else put_down_apart(program_of(asked.program), asked.seed)
    began = time.monotonic()
    fault = done_apart(lambda: first_difference(OF_OCTETS[0] if only_octets else "", recorded))
    if fault:
        print(f"planted: with no fault in it, the plain desk differs: {fault}\nplanted: 0 found of 0\n0 passed, 1 failed")
        return 1
    limit = max(LEAST_SECONDS, 5 * (time.monotonic() - began))
    missed = 0
    for it in all_tried(trials, TOOLS, lambda file: first_difference(file, recorded), limit, asked.jobs):
        missed += not it.found
        if asked.told or not it.found:
            print(f"{f'found {it.seconds:.1f} s' if it.found else 'not found'}: {it.name}{f': {it.found}' if it.found else ''}", flush=True)
    print(f"planted: {len(trials) - missed} found of {len(trials)}")
    print(f"{len(trials) - missed} passed, {missed} failed")
    return int(missed > MOST_MISSED * len(trials) or not trials)


if __name__ == "__main__":
    sys.exit(main(sys.argv[1:]))
