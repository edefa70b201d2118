"""Desks of random lines, whose program is killed at random moments: `tools/run.py --only kills`, by hand.

A random script is run on a desk that is kept in a file, and the program is killed while it runs, 10,000 times or so many as --count says. Each time
the file is opened again: its tables have to be what the plain desk's opening makes of the plain desk's, after the lines that were answered, or after
these and the one in progress. The next script goes on from there; after ten of them a new desk is made. Of that the program says so first, unless it is
killed before; where it said so the desk's tables stand. A reply is written by one call, behind its act; a kill ends a call of several pages between
two pages of the file, so of a long reply a front may be there, which ends at a page.
"""
import os
import random
import shutil
import signal
import subprocess
import time
from collections import Counter
from typing import Optional

from generate.days import day_script
from model.kept import sqlite3
from model.lines import is_answered
from model.rows import Tables, empty_tables
from model.tables import opened_tables
from tests.new_desks import holds_no_table, new_desk
from tests.plain_runs import Plain, kept_tables, text_of, unlike
from tests.runs import Tried, bytes_of, run_kept, write_files

KILLS, SHARES, DAYS, SPAN, MOST_LINES = 10_000, 4, 10, 1000, 200
PAGE = 4096  # bytes of a file that the system writes at a time


class Desk:
    """A desk in a folder of its own, with the tables that its file has, and what became of its runs."""

    def __init__(self, program: str, folder: str, dice: random.Random) -> None:
        """There is no file yet."""
        self.program, self.folder, self.dice = program, folder, dice
        self.tables, self.day = empty_tables(), 0
        self.counts: Counter[str] = Counter()
        os.mkdir(folder)

    def killed(self, moment: int, limit: float) -> Optional[str]:
        """Runs the script, and kills the program within so many seconds. What it printed on both its outputs; none where it ended before."""
        words = [self.program, "run", "--db", "desk.db", "--at", str(moment), "script"]
        with open(f"{self.folder}/out", "wb") as out:
            process = subprocess.Popen(words, cwd=self.folder, stdin=subprocess.DEVNULL, stdout=out, stderr=subprocess.STDOUT)
            time.sleep(self.dice.random() * limit)
            process.kill()
            status = process.wait()
        return bytes_of(out.name).decode("latin-1") if status == -signal.SIGKILL else None

    def go_on(self, limit: float) -> str:
        """One script more, of a few lines or many; what is wrong of what it left, nothing where nothing is."""
        self.day += 1
        moment, first = 2 * self.day * SPAN, new_desk("desk.db") if holds_no_table(f"{self.folder}/desk.db") else ""
        script = day_script(self.dice, self.tables, moment, self.day, self.dice.randrange(1, MOST_LINES))
        lines = [it for it in script.lines if is_answered(it)]
        plain = Plain(lines, script.files, left=self.tables, moment=moment, is_kept=True)
        write_files(self.folder, {**script.files, "script": text_of(lines).encode("latin-1")})
        said = self.killed(moment, limit)
        out = said.removeprefix(first) if said else said
        if said and not said.startswith(first):
            return f"it did not say first that its desk is new: {said[:300]!r}"
        if said and holds_no_table(f"{self.folder}/desk.db"):
            return f"it has no table: {said[-300:]!r}"
        if out is None or out == plain.whole:
            states, how = plain.states[-1:], "ended before"
        elif not out:  # also the opening may be in progress
            states, how = [self.tables, *plain.states[:2]], "before a line"
        elif out in plain.fronts:
            at = plain.fronts.index(out)
            states, how = plain.states[at:at + 2], "at a line"
        elif plain.whole.startswith(out) and (len(first) + len(out)) % PAGE == 0:
            done = sum(out.startswith(it) for it in plain.fronts)
            states, how = plain.states[done:][:1] or plain.states[-1:], "in a reply"
        else:
            return f"what it printed is no front of what is right: {out[-300:]!r}"
        self.counts[how] += 1
        return self.look(moment + SPAN, states)

    def look(self, moment: int, states: list[Tables]) -> str:
        """Opens the desk again: what is wrong of its tables, which are to be what the opening makes of one of these."""
        write_files(self.folder, {"nothing": b""})
        ran = run_kept(self.program, self.folder, "desk.db", moment, "nothing")
        try:
            found = kept_tables(f"{self.folder}/desk.db", "mode=ro&immutable=1")
        except sqlite3.Error as fault:
            return f"the file does not read: {fault}, {ran}"
        wanted = [opened_tables(it, moment) for it in states]
        if ran.status or ran.errors or found is None or found not in wanted:
            return f"it is opened otherwise: {ran.status} {ran.errors}, {unlike(found, wanted[0])}"
        self.tables = found
        return ""


def share(program: str, work: str, kills: int, seed: int) -> tuple[Counter[str], list[str]]:
    """So many kills by a seed: how they went, and what was wrong."""
    dice, counts, bad, at, limit = random.Random(seed), Counter[str](), list[str](), 0, 0.03
    while sum(counts.values()) - counts["ended before"] < kills and not bad:
        at += 1
        desk = Desk(program, f"{work}/{seed}-{at}", dice)
        for _ in range(DAYS):
            before = desk.counts["ended before"]
            why = desk.go_on(limit)
            # Half of the moments lie within a run.
            limit = min(1.0, max(0.002, limit * (0.95 if desk.counts["ended before"] > before else 1.04)))
            if why:
                bad.append(f"seed {seed}, desk {at}, day {desk.day}: {why:.900}")
                break
        counts += desk.counts
        shutil.rmtree(desk.folder)
    return counts, bad


class Kills(Tried):
    """Programs that are killed."""

    def test_kills(self) -> None:
        """So many kills, in four processes, each with a seed of its own."""
        self.shared_out("kills", share, KILLS, SHARES)
