"""Edits of one crate, tried, many in one check: whether each is refused.

Edits of the bodies of different functions go into one copy of the crate, and the prover is asked for those functions alone. An edit is refused
where its own function, or a closure in it, has a goal of its own that is not proved: not because of what the function calls, and not because a
proof file names what is gone. An edit of a constant is refused where a function that names it has such a goal. What is not clear so is tried alone,
by a whole check, and judged as `rt must-fail` does.
"""
import argparse
import os
import re
import shutil
import tempfile
import threading
from collections.abc import Mapping, Sequence
from concurrent.futures import ThreadPoolExecutor

from edit_checks import Crate, Report, check, fault_of, path_of, told, word_of
from edit_files import Edit, Function, constant_of, joined, who_names


def say(text: str) -> None:
    print(text, flush=True)


class Trial:
    """Edits of one crate, tried."""

    def __init__(self, crate: Crate, edits: Sequence[Edit], asked: argparse.Namespace, cores: threading.Semaphore) -> None:
        self.crate, self.edits, self.asked, self.cores = crate, edits, asked, cores
        # Of each edit by its name whether it was refused, what each check took, and how many edits met an answer by hand.
        self.verdicts: dict[str, bool] = {}
        self.reports: list[Report] = []
        self.by_hand = 0
        self.names: set[str] = set()
        # Where its first whole check keeps what it proved, once there was one, and whether it proved the crate.
        self.kept = ""
        self.alone_first = threading.Lock()
        self.is_proved: bool | None = None

    def check(self, label: str, texts: Mapping[str, str], only: Sequence[str] = ()) -> Report:
        with self.cores:
            kept = None if only and self.is_proved is None else self.kept
            report = check(self.crate, texts, kept, only, self.asked.logs)
        self.reports.append(report)
        took = f"{report.seconds:.0f} s, of a processor {report.processor:.0f}"
        say(f"     {self.crate.name}: {label}: {took}; {report.last[:60]}")
        return report

    def tell(self, edit: Edit, is_refused: bool, why: str) -> None:
        self.verdicts[edit.name] = is_refused
        say(f"{'ok  ' if is_refused else 'FAIL'} {self.crate.name}/{edit.name}: {why[:240]}")

    def base(self) -> bool:
        """Whether the crate is proved as it stands, by one whole check."""
        with self.alone_first:
            if self.is_proved is None:
                report = self.check("as it stands", {})
                self.names = {*report.proved()}
                self.is_proved = report.is_proved
        return self.is_proved

    def by_readers(self, edit: Edit) -> bool:
        """Tries an edit of a constant by the functions that name it, and says whether one refuses it."""
        constant = constant_of(edit, self.crate.folder)
        readers = who_names(constant, self.crate.folder) if constant else []
        words = sorted({word for it in readers if (word := self.word(it))})
        if not words:
            return False
        report = self.check(f"who names it, {edit.name}", edit.texts, words)
        if report.unread({it.file for it in edit.splices}) or not report.last.startswith("only="):
            return False
        paths = {it: path for it in readers if (path := path_of(it, self.crate.name, self.reported(report)))}
        fault = next((it for reader, path in paths.items() if (it := fault_of(reader, path, report))), None)
        if fault:
            self.tell(edit, True, f"refused, by who names {constant}: {fault.text}")
        return bool(fault)

    def alone(self, edit: Edit) -> None:
        """Tries an edit by a whole check, and judges it as `rt must-fail` does, or harder: where only a proof file names
        what the edit took away, that is no refusal."""
        if self.by_readers(edit):
            return
        if not self.base():
            self.tell(edit, False, "the crate itself is not proved")
            return
        report = self.check(f"alone, {edit.name}", edit.texts)
        unread = report.unread(edit.texts)
        line, is_more = told(report)
        if unread:
            self.tell(edit, False, f"BAD EDIT: the prover cannot read the edited text: {unread[0]}")
        elif report.is_refused and is_more:
            self.tell(edit, True, f"refused, tried alone: {line}")
        elif report.is_refused:
            self.tell(edit, False, f"refused only because a proof file names what the edit took away: {line}")
        elif report.status == 0:
            self.tell(edit, False, "NOT REFUSED: the crate is still proved with this edit")
        else:
            self.tell(edit, False, f"BAD EDIT: it did not reach the prover: {' / '.join(report.lines[:4])}")

    def group(self, edits: list[Edit]) -> list[Edit]:
        """Tries edits of different functions in one check, and returns those of which it says nothing clear."""
        words = {it: word for edit in edits for it in edit.functions if (word := self.word(it))}
        report = self.check(f"{len(edits)} edits", joined(edits, self.crate.folder), sorted({*words.values()}))
        if report.misnamed:
            odd = [it for it in edits if any(words[of] == report.misnamed for of in it.functions)]
            rest = [it for it in edits if it not in odd]
            return odd + (self.group(rest) if rest and odd else rest)
        names = self.reported(report)
        if report.unread({it.file for edit in edits for it in edit.splices}) or not report.last.startswith("only="):
            return self.without_unread(edits, report)
        unclear = []
        for edit in edits:
            paths = {it: path for it in edit.functions if (path := path_of(it, self.crate.name, names))}
            faults = [fault_of(it, path, report) for it, path in paths.items()]
            fault = next((it for it in faults if it), None)
            if fault:
                self.by_hand += not fault.is_searched
                self.tell(edit, True, f"refused{'' if fault.is_searched else ', at an answer by hand'}: {fault.text}")
            else:
                unclear.append(edit)
        return unclear

    def without_unread(self, edits: list[Edit], report: Report) -> list[Edit]:
        """Where a text of a group does not read: goes on without the edits at fault, or in halves."""
        if len(edits) == 1:
            return edits
        errors = [re.match(r"(?:\./)?(src/[^:]+):(\d+):\d+: error", it) for it in report.lines]
        places = [(it[1], int(it[2])) for it in errors if it]
        at_fault = [it for it in edits if any(of.spans(*place) for of in it.functions for place in places)]
        rest = [it for it in edits if it not in at_fault]
        if at_fault:
            return at_fault + (self.group(rest) if rest else [])
        half = len(edits) // 2
        return self.group(edits[:half]) + self.group(edits[half:])

    def word(self, function: Function) -> str | None:
        """What asks a check for a function: its name, where a whole check told it."""
        is_told = self.is_proved is not None
        return path_of(function, self.crate.name, self.names) if is_told else word_of(function, self.crate.name)

    def reported(self, report: Report) -> set[str]:
        """The names of the functions of which a check tells something."""
        return {*report.proved(), *report.not_proved()}

    def groups(self, edits: Sequence[Edit]) -> list[list[Edit]]:
        """As few groups as the function with most edits needs, of like sizes; no two edits of a group change one."""
        made: list[list[Edit]] = []
        for edit in sorted(edits, key=lambda it: -self.rivals(it, edits)):
            fits = [it for it in made if len(it) < self.asked.most and not any(edit.functions & of.functions for of in it)]
            if fits:
                min(fits, key=len).append(edit)
            else:
                made.append([edit])
        return made

    def rivals(self, edit: Edit, edits: Sequence[Edit]) -> int:
        return sum(bool(edit.functions & it.functions) for it in edits)

    def run(self) -> None:
        for edit in self.edits:
            if edit.fault:
                self.tell(edit, False, f"BAD EDIT: {edit.fault}")
        edits = [it for it in self.edits if not it.fault]
        if not edits:
            return
        with tempfile.TemporaryDirectory(prefix="edits-kept-") as self.kept:
            if self.asked.trust and os.path.isdir(f"{self.crate.folder}/out/incremental"):
                shutil.copytree(f"{self.crate.folder}/out/incremental", self.kept, dirs_exist_ok=True)
            if not self.asked.proved and not self.base():
                for edit in edits:
                    self.tell(edit, False, f"the crate itself is not proved: {self.reports[-1].last}")
                return
            plain = [it for it in edits if it.functions and all(map(self.word, it.functions))]
            with ThreadPoolExecutor(self.asked.cores) as pool:
                unclear = [it for group in pool.map(self.group, self.groups(plain)) for it in group]
                unclear += [it for it in edits if it not in plain]
                list(pool.map(self.alone, unclear))
