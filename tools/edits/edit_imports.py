"""Which files of the crates below a crate its own texts can reach, by what they import.

A file is (crate, path), as ("tc_types", "src/acts.rt"). Whatever is not understood is taken for more, never for less: a
path that leads to no file, or a crate's bare name, stands for all of that crate.
"""
import os
import re
from collections.abc import Iterable, Sequence
from functools import lru_cache

from edit_files import text_of

# A file of a crate, and the parts of a path.
File = tuple[str, str]
Parts = tuple[str, ...]
# What is read of a crate.
PARTS = ("src", "specs", "proofs")
# The files that prove one function, which no other crate can cite: not a definition of such a name.
OF_ONE = re.compile(r"proofs/.+/(Answers|Invariants|Proof)\.antt")
# The files that stand for the folder that they are in.
ROOTS = ("lib.rt", "main.rt", "mod.rt", "Lib.antt")
# What each language is told by, and a line that is a comment in it. An edit's lines are read as of both.
COMMENTS = {".rt": re.compile(r"\s*//"), ".antt": re.compile(r"\s*--(\s|$)"), ".edit": re.compile("(?!)")}
# What begins a path in its own crate.
OF_OWN = ("crate", "self", "super")
MODULE = re.compile(r"(?:\bpub(?:\([^)]*\))?\s+)?\bmod\s+(\w+)(?:\s*;)?")
# What a root file hands out from a module below it: its face.
FACE = re.compile(r"^pub use (?!crate\b|self\b|super\b)(\w+)(?=::)([^;]*);", re.M)
TYPE = re.compile(r"^\s*(?:pub(?:\([^)]*\))?\s+)?(?:unsafe\s+)?(?:struct|enum|union|trait)\s+(\w+)", re.M)
IMPL = re.compile(r"(?:^|\])\s*(?:unsafe\s+)?impl\b([^{;]*)", re.M)
NAME = re.compile(r"\s*([\w-]*)")
STOP = re.compile(r"[^{},]*(.?)", re.S)


def files_of(folder: str) -> list[str]:
    """Every file of a folder, at any depth, in order of path."""
    return sorted(f"{at}/{name}" for at, _, names in os.walk(folder) for name in names)


def found_at(always: re.Pattern[str], text: str, at: int) -> re.Match[str]:
    """What a pattern that fits every text finds at a place in one."""
    found = always.match(text, at)
    assert found
    return found


def tails(text: str, at: int, mark: str) -> tuple[list[Parts], int]:
    """Each way on from a place in a path, and where they end: (a, b) and (a, c) of `::a::{b, c}`, and () of nothing."""
    step = re.compile(rf"\s*{re.escape(mark)}\s*(?:([\w-]+)|\{{)").match(text, at)
    if not step:
        return [()], at
    if step[1]:
        found, at = tails(text, step.end(), mark)
        return [(step[1], *it) for it in found], at
    found, at, stop = [], step.end(), ","
    while stop == ",":
        name = found_at(NAME, text, at)
        more, ends = tails(text, name.end(), mark)
        end = found_at(STOP, text, ends)
        found += [(name[1], *it) for it in more] if text[at : end.start(1)].strip() else []
        at, stop = end.end(), end[1]
    return found + ([] if stop == "}" else [()]), at


@lru_cache(maxsize=None)
def paths_in(text: str, crates: Parts) -> set[tuple[str, Parts]]:
    """Each path of a text that begins with one of these crates or within its own, as (head, parts)."""
    found: set[tuple[str, Parts]] = set()
    for it in re.finditer(rf"\b(?:{'|'.join(crates)}|(?<!::)(?:{'|'.join(OF_OWN)})(?=\s*::))\b", text):
        mark = "." if re.compile(r"\s*\.").match(text, it.end()) else "::"
        found |= {(it[0], parts) for parts in tails(text, it.end(), mark)[0]}
    return found


def folder_of(path: str) -> Parts:
    """Where the modules of a file are, as the parts of a path: ("src", "acts") of src/acts.rt."""
    *above, last = path.split("/")
    return tuple(above) if last in ROOTS else (*above, last.rpartition(".")[0])


def below_root(head: str, parts: Parts, path: str) -> Parts:
    """The path below its crate of one that begins with `crate`, `self` or `super` in this file."""
    at = {"crate": (), "self": folder_of(path)[1:], "super": folder_of(path)[1:-1]}[head]
    while parts[:1] == ("super",):
        at, parts = at[:-1], parts[1:]
    return at + parts


def heads_of(impl: str) -> set[str]:
    """The names of an impl's trait and type, without what stands in angle brackets or after `where`."""
    text, count = re.split(r"\bwhere\b", impl.replace("->", ""))[0], 1
    while count:
        text, count = re.subn(r"<[^<>]*>", "", text)
    return {*re.findall(r"\w+", text)} - {"for", "dyn", "mut", "const"}


class Imports:
    """The files of some crates, which lie in one folder, and what each of them brings."""

    def __init__(self, folder: str, crates: Sequence[str], known: Iterable[str]) -> None:
        """Of these crates, among all that are known."""
        self.folder, self.names = folder, tuple(sorted(known))
        self.files = {it: self.listed(it) for it in crates}
        self.texts: dict[File, str] = {}
        self.faces = {it: self.face(it) for it in crates}
        self.carried: dict[File, set[File]] = {}
        for name in crates:
            self.carry(name)

    def listed(self, name: str) -> set[str]:
        top = f"{self.folder}/{name}"
        found = [os.path.relpath(it, top) for part in PARTS for it in files_of(f"{top}/{part}")]
        return {it for it in found if not OF_ONE.fullmatch(it)}

    def face(self, name: str) -> dict[str, Parts]:
        """By each name that a crate's root hands out from a module below it, the path of what that is. A name that is no
        plain one, as `*`, or is handed out under another, is none."""
        if "src/lib.rt" not in self.files[name]:
            return {}
        found = FACE.finditer(self.words((name, "src/lib.rt")))
        paths = [(it[1], *parts) for it in found if " as " not in it[2] for parts in tails(it[2], 0, "::")[0]]
        return {it[-1]: it for it in paths if len(it) > 1}

    def words(self, file: File) -> str:
        """The lines of a file that are no comments; of a file that is in neither language none."""
        if file not in self.texts:
            comment = COMMENTS.get(os.path.splitext(file[1])[1])
            lines = text_of("/".join([self.folder, *file])).splitlines() if comment else []
            self.texts[file] = "\n".join(it for it in lines if not (comment and comment.match(it)))
        return self.texts[file]

    def carry(self, name: str) -> None:
        """No path names an impl. One of a trait and a type that other files declare comes with these files, or, where
        they are not found, with each file of its crate; and so does what declares a macro."""
        codes = [it for it in self.files[name] if it.endswith(".rt")]
        types = {it: {*TYPE.findall(self.words((name, it)))} for it in codes}
        for path in codes:
            text = self.words((name, path))
            strays = [it for it in map(heads_of, IMPL.findall(text)) if not it & types[path]]
            homes = [[it for it in codes if heads & types[it]] or self.files[name] for heads in strays]
            for home in [*homes, *([self.files[name]] if "macro_rules" in text else [])]:
                for it in home:
                    self.carried.setdefault((name, it), set()).add((name, path))

    def all_of(self, name: str) -> set[File]:
        return {(name, it) for it in self.files[name]}

    def exact(self, name: str, parts: Parts) -> str | None:
        """The file of a module, by the parts of its path, its folder's first."""
        stem = "/".join(parts)
        names = [f"{stem}.antt", f"{stem}/Lib.antt", f"{stem}.rt", f"{stem}/mod.rt", f"{stem}/lib.rt"]
        return next((it for it in names if it in self.files[name]), None)

    def longest(self, name: str, folder: str, parts: Parts) -> str | None:
        """The file that the longest beginning of a path below a folder leads to, if one does."""
        stems = [(folder, *parts[:count]) for count in range(len(parts), 0, -1)]
        return next(filter(None, (self.exact(name, it) for it in stems)), None)

    def led(self, name: str, parts: Parts) -> set[File]:
        """The files that a path below a crate leads to. What the prover makes of src/ is named by the paths of src/, in
        `specs.declared`, in `specs.contracts` and in `proofs`."""
        parts = (*self.faces[name].get(parts[0], parts[:1]), *parts[1:]) if parts else parts
        places = [("src", parts)]
        if parts[:1] in (("specs",), ("proofs",)):
            places.append((parts[0], parts[1:]))
            places.append(("src", parts[2 if parts[1:2] in (("declared",), ("contracts",)) else 1 :]))
        found = (self.longest(name, *it) for it in places)
        return {(name, it) for it in found if it} or self.all_of(name)

    def brought(self, file: File) -> set[File]:
        """What comes with a file: the files that its paths and its `mod` lines lead to, and impls."""
        (name, path), found = file, {*self.carried.get(file, ())}
        for head, parts in paths_in(self.words(file), self.names):
            if head in OF_OWN:
                found |= self.led(name, below_root(head, parts, path))
            elif head in self.files:
                found |= self.led(head, parts)
        for module in MODULE.findall(self.words(file)):
            at = self.exact(name, (*folder_of(path), module))
            found |= {(name, at)} if at else self.all_of(name)
        return found

    def reached(self, files: Iterable[File]) -> set[File]:
        """These files and all that comes with them, and what is no text of either language."""
        others = {(name, it) for name in self.files for it in self.files[name] if not it.endswith((".rt", ".antt"))}
        todo, found = {*files, *others}, set()
        while todo:
            found |= todo
            todo = {it for file in todo for it in self.brought(file)} - found
        return found

    def above(self, file: File) -> set[File]:
        """The module files that a file stands under, up to its crate's root."""
        name, path = file
        stems = [folder_of(path)[:count] for count in range(1, len(folder_of(path)))]
        return {(name, it) for it in (self.exact(name, stem) for stem in stems) if it}

    def beside_modules(self, file: File) -> str:
        """What a file says beside its `mod` lines, its face and comments. A face tells only where a path leads, and that
        is followed."""
        lines = FACE.sub("", MODULE.sub("", self.words(file))).splitlines()
        return "\n".join(it for it in lines if it.strip())
