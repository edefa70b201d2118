#!/usr/bin/env python3
"""Tries the edits that must fail, many in one check: tools/edits/edits.py [CRATE | CRATE/NAME.edit ..], at the top of the repository.

An edit is a file crates/CRATE/wrong/NAME.edit that makes a crate wrong, in the format of `rt must-fail`. tools/edits/edit_trial.py says how it is
tried, and when it counts as refused.

A crate that is not proved as it stands shows nothing of its edits. So each is checked first, whole, and its edits are tried over
what that check proved. With --proved, or with --few of a crate with few, it is not, where `rt ci` has proved these very texts before; then each group proves what its
functions call anew, so that is shorter only for a crate with few edits.

Where none is named, an edit is passed over that was refused on the very grounds that stand: tools/edits.tried has the digests, and
tools/edits/edit_record.py says what they cover and what is trusted. --record writes that file after a run.

The libraries below a crate must be built (crates/*/out/rlib), by `rt ci` or `rt all check`. For each edit there is a line with the goal that
refuses it, and for each crate of which some are passed over one with how many; the last line is
'N passed, M failed, K not tried again', and the status is 1 where one failed.
"""
import argparse
import os
import threading
import time
from collections.abc import Mapping, Sequence
from concurrent.futures import ThreadPoolExecutor
from dataclasses import dataclass

from edit_checks import Crate, Kit, crates_of
from edit_files import Edit, edits_in
from edit_record import Digests, Record
from edit_trial import Trial, say

Crates = Mapping[str, Sequence[str]]


def asked() -> argparse.Namespace:
    to = argparse.ArgumentParser(description=__doc__, formatter_class=argparse.RawDescriptionHelpFormatter)
    to.add_argument("--folder", default="wrong", help="of each crate, that holds its edits (wrong)")
    to.add_argument("--cores", type=int, default=os.cpu_count() or 1, help="checks side by side (the processors)")
    to.add_argument("--trust", action="store_true", help="begin over what rt check kept in out/incremental (not in a gate)")
    to.add_argument("--proved", action="store_true", help="`rt ci` has proved these very texts: none is checked as it stands")
    to.add_argument("--few", type=int, default=0, help="the same of a crate with at most so many edits to try (0)")
    to.add_argument("--most", type=int, default=1000, help="edits in one check (1000)")
    to.add_argument("--logs", help="a folder for what each check says")
    to.add_argument("--all", action="store_true", help="try all, whatever tools/edits.tried says")
    to.add_argument("--which", action="store_true", help="only tell how many edits of each crate would be tried")
    to.add_argument("--edits", action="store_true", help="with --which: tell which these are, with their digests")
    to.add_argument("--record", action="store_true", help="write into tools/edits.tried the edits that were refused")
    to.add_argument("names", nargs="*", metavar="CRATE | CRATE/NAME.edit", help="what to try (all)")
    given = to.parse_args()
    if given.record and (given.trust or given.folder != "wrong"):
        to.error("--record takes neither --trust nor --folder: it says what a gate would find")
    return given


@dataclass(frozen=True)
class Chosen:
    """Of a crate the edits that are to be tried, and how many it has in all."""

    crate: Crate
    edits: list[Edit]
    count: int

    def name(self, edit: Edit) -> str:
        """As tools/edits.tried names it."""
        return f"{self.crate.name}/{edit.name}"


def named(given: argparse.Namespace, kit: Kit, crates: Crates) -> list[Chosen]:
    """The edits that are named, or all of them."""
    made = []
    for name in dict.fromkeys(it.partition("/")[0] for it in given.names) if given.names else crates:
        if name not in crates:
            raise SystemExit(f"edits: crates.txt has no crate {name}")
        crate = Crate(name, crates, kit)
        edits = edits_in(f"{crate.folder}/{given.folder}", crate.folder)
        alone = {it.partition("/")[2] for it in given.names if it.startswith(f"{name}/")}
        if missing := alone - {it.name for it in edits}:
            raise SystemExit(f"edits: there is no file crates/{name}/{given.folder}/{min(missing)}")
        is_whole = not alone or name in given.names
        made.append(Chosen(crate, [it for it in edits if is_whole or it.name in alone], len(edits)))
    return [it for it in made if it.edits]


def sums_of(chosen: Sequence[Chosen], given: argparse.Namespace, kit: Kit, crates: Crates) -> dict[str, str]:
    """The digests of edits, as all texts stand now."""
    needed = dict.fromkeys(name for it in chosen for name in [*it.crate.below(), it.crate.name])
    digests = Digests(kit, crates, [*needed], given.folder)
    return {it.name(edit): digests.of(it.crate, edit) for it in chosen for edit in it.edits}


def untried(chosen: Sequence[Chosen], sums: Mapping[str, str]) -> list[Chosen]:
    """The edits that tools/edits.tried does not have as they stand."""
    record, made = Record(), []
    for it in chosen:
        left = [edit for edit in it.edits if not record.holds(it.name(edit), sums[it.name(edit)])]
        same = it.count - len(left)
        how_many, who = (f"{same} of {it.count}", "these") if left else (str(same), "all")
        if same:
            say(f"same {it.crate.name}: {how_many} edits, not tried again: unchanged since {who} were refused")
        if left:
            made.append(Chosen(it.crate, left, it.count))
    return made


def tell(chosen: Sequence[Chosen], sums: Mapping[str, str]) -> None:
    """Tells what would be tried, and the digests where they are known."""
    for it in chosen:
        say(f"try  {it.crate.name}: {len(it.edits)} of {it.count} edits")
        for name in map(it.name, it.edits):
            if name in sums:
                say(f"     {name} {sums[name]}")


def terms_of(it: Chosen, given: argparse.Namespace) -> argparse.Namespace:
    """How the edits of a crate are tried: over what `rt ci` proved, if they are few."""
    return argparse.Namespace(**{**vars(given), "proved": given.proved or len(it.edits) <= given.few})


def tried(chosen: Sequence[Chosen], given: argparse.Namespace) -> list[Trial]:
    """Tries edits. The crates that stand highest have most to load, and those with most edits most to try: these come first."""
    cores, began = threading.Semaphore(given.cores), time.time()
    trials = [Trial(it.crate, it.edits, terms_of(it, given), cores) for it in chosen]
    with ThreadPoolExecutor(given.cores) as pool:
        weight = lambda it: len(it.edits) * (1 + len(it.crate.below()))
        list(pool.map(Trial.run, sorted(trials, key=weight, reverse=True)))
    reports = [it for trial in trials for it in trial.reports]
    used = sum(it.processor for it in reports)
    say(f"{len(reports)} checks, {(time.time() - began) / 60:.1f} minutes, of processors {used / 60:.1f}")
    say(f"{sum(it.by_hand for it in trials)} of the edits are refused at an answer by hand")
    return trials


def put_down(verdicts: Mapping[str, bool], before: Mapping[str, str], now: Mapping[str, str], crates: Crates) -> None:
    """Records the edits that were refused, of texts that are as before, and takes out those that were not refused."""
    record = Record()
    for name, is_refused in verdicts.items():
        if not is_refused:
            record.drop(name)
        elif before[name] == now.get(name):
            record.put(name, before[name])
    folders = [(name, f"crates/{name}/wrong") for name in crates]
    record.write({f"{name}/{it}" for name, folder in folders if os.path.isdir(folder) for it in os.listdir(folder)})


def main() -> int:
    given, kit, crates = asked(), Kit(), crates_of()
    if given.logs:
        os.makedirs(given.logs, exist_ok=True)
    chosen = named(given, kit, crates)
    is_chosen = given.all or bool(given.names)
    sums = sums_of(chosen, given, kit, crates) if given.record or given.edits or not is_chosen else {}
    left = chosen if is_chosen else untried(chosen, sums)
    if given.which:
        tell(left, sums if given.edits else {})
        return 0
    trials = tried(left, given)
    verdicts = {f"{it.crate.name}/{name}": is_refused for it in trials for name, is_refused in it.verdicts.items()}
    if given.record:
        put_down(verdicts, sums, sums_of(named(given, kit, crates), given, kit, crates), crates)
    passed, again = sum(verdicts.values()), sum(len(it.edits) for it in chosen) - sum(len(it.edits) for it in left)
    say(f"{passed} passed, {len(verdicts) - passed} failed, {again} not tried again")
    return 0 if all(verdicts.values()) else 1


if __name__ == "__main__":
    raise SystemExit(main())
