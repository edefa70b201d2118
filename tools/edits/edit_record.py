"""Which edits need not be tried again: tools/edits.tried.

Each line names an edit and at most two digests, the newest first. Such a digest says that the prover of this very version refused the edit on
these very grounds, by the rules of tools/edits/edit_trial.py. Of an edit that changes bodies of functions alone the grounds are items
(tools/edits/edit_grounds.py): its text, the functions that it changes, the files that prove them, and all that these reach in their crate and in those
below. Of any other edit, as one of a constant, they are files: all of its crate, and those that these reach by imports
(tools/edits/edit_imports.py).

Why that is enough. What an edit of a body changes is the code of a function, and the prover keeps that to the function's own proof: to all
others it shows the function's contract. So the edit is refused because a goal of that function is not proved, or of one that calls it and
is called by it, since these are proved together. The goal is made of the function's text, and of what it names in turn: the contracts of what it
calls, types with what their impls say of them, constants, definitions. Each of these is named, by a word of its own file or by one that the file
imports, but for three. A method is called by its name alone: so all of that name count whose type or trait is reached. What operators, loops,
`?` and drops call is not named at all: so all functions of impls of traits count with their types. An impl is not named: it counts with its type
and with its trait. How comments and lines lie means nothing. The files that prove the function hold hints and answers; they and the attribute
`tactic` name the lemmas that they cite, and these count by their whole text. A name that comes from the toolchain's own crates counts by its
path.

How another function is proved does not matter, nor which lemmas such proofs cite, nor what is named by nothing of the above: a function more, a
type or a question beside those that are reached, and a new crate below that is not. An item of theirs can be reached only where an item that is
reached already names it, and then that one's text is another, or gets its name in scope, and then the item is found there.

That the crate as it stands is proved is no part of a digest: the gate's `rt ci` checks that these very texts are proved before it looks at
the record.

What stays is the prover's search. It may look through what stands in scope of a library though nothing imports it, and has limits. A lemma
more there cannot prove what is false: an edit whose goal is false stays refused. It can at most find a proof of a goal that is true and was not
found before; that edit was harmless from the start, and was refused for the search's weakness alone. Such a change of verdict is not seen until the
edit is tried again.

To pass over an edit trusts, beside that, such a line: that whoever committed it saw the refusal (`tools/edits/edits.py --record` writes none where
the edit was not refused), that a check of the same texts by the same prover ends the same way on each machine, that tools/edits/edit_items.py and
tools/edits/edit_names.py overlook nothing that is named (what they do not understand they take for more), and that no two grounds have
one sum of 128 bits. `tools/edits/edits.py --all` trusts nothing of it.
"""
import hashlib
import os
from collections.abc import Container, Mapping, Sequence

from edit_checks import Crate, Kit
from edit_files import Edit, text_of
from edit_grounds import Grounds
from edit_imports import PARTS, Imports, files_of
from edit_names import Names

RECORD = "tools/edits.tried"
# How many digests an edit has at most. Machines may have two versions of the toolchain, of which each voids what the other tried: so the
# one before the newest stays. A digest never says more than of its own grounds and version.
MOST = 2
# What tells a refusal from another answer.
RULES = ("edit_trial.py", "edit_checks.py", "edit_files.py")


def bytes_of(path: str) -> bytes:
    with open(path, "rb") as it:
        return it.read()


def rules_of(kit: Kit) -> list[tuple[object, ...]]:
    """What judges: the toolchain, and the files of this tool that do."""
    home = os.path.dirname(os.path.realpath(__file__))
    return [("toolchain", kit.version), *((it, bytes_of(f"{home}/{it}")) for it in RULES)]


def files_reached(crate: Crate, edits: str) -> list[tuple[object, ...]]:
    """All that the verdicts on this crate's edits, in its folder of this name, are made from, by files."""
    folder, names = os.path.dirname(crate.folder), [*crate.below(), crate.name]
    imports = Imports(folder, names, crate.crates)
    own = [it for part in (*PARTS, edits) for it in files_of(f"{crate.folder}/{part}")]
    reached = imports.reached((crate.name, os.path.relpath(it, crate.folder)) for it in own)
    above = {it for file in reached for it in imports.above(file)} - reached
    parts: list[tuple[object, ...]] = [(it, crate.crates[it]) for it in names]
    parts += [(*it, bytes_of("/".join([folder, *it]))) for it in sorted(reached)]
    return [*parts, *((*it, imports.beside_modules(it)) for it in sorted(above))]


def sum_of(parts: object) -> str:
    return hashlib.sha256(repr(parts).encode()).hexdigest()[:32]


class Digests:
    """Of edits sums of their grounds, as the texts stand now."""

    def __init__(self, kit: Kit, crates: Mapping[str, Sequence[str]], needed: Sequence[str], edits: str) -> None:
        """Of edits in the folders of this name, of such of these crates as stand on none but those that are needed."""
        self.rules, self.folder = rules_of(kit), edits
        self.grounds = Grounds(Names(f"{os.getcwd()}/crates", needed, crates))
        self.by_files: dict[str, str] = {}
        self.sums: dict[str, str] = {}

    def of(self, crate: Crate, edit: Edit) -> str:
        if edit.fault or not edit.functions:
            if crate.name not in self.by_files:
                self.by_files[crate.name] = sum_of([*self.rules, *files_reached(crate, self.folder)])
            return sum_of((self.by_files[crate.name], edit.name))
        path = f"{crate.folder}/{self.folder}/{edit.name}"
        found = self.grounds.of(edit, path, crate.name, crate.below())
        return sum_of([*self.rules, crate.name, *((key, self.sum(text)) for key, text in found)])

    def sum(self, text: str) -> str:
        if text not in self.sums:
            self.sums[text] = sum_of(text)
        return self.sums[text]


class Record:
    """The digests of tools/edits.tried, by edit, the newest first."""

    def __init__(self) -> None:
        rows = [it.split() for it in text_of(RECORD).splitlines()] if os.path.isfile(RECORD) else []
        self.digests = {row[0]: row[1:] for row in rows if row}

    def holds(self, edit: str, digest: str) -> bool:
        return digest in self.digests.get(edit, [])

    def put(self, edit: str, digest: str) -> None:
        others = [it for it in self.digests.get(edit, []) if it != digest]
        self.digests[edit] = [digest, *others][:MOST]

    def drop(self, edit: str) -> None:
        """Takes an edit out that was not refused."""
        self.digests.pop(edit, None)

    def write(self, edits: Container[str]) -> None:
        """Writes the lines of these edits, in order of name."""
        with open(RECORD, "w", encoding="utf-8") as it:
            it.writelines(f"{' '.join([name, *digests])}\n" for name, digests in sorted(self.digests.items()) if name in edits)
