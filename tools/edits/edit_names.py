"""What the words of a file mean: the items of its own (edit_items.py), and those of the files that it imports.

A path is followed as in edit_imports.py, and what is left of it behind its file is the item's name there, or what that file imports under that
name. Whatever is not understood is taken for more, never for less: a path that leads to no file stands for all items of its crate, and one
that leads to no item of its file for all of that file.
"""
import os
import re
from collections.abc import Iterable, Iterator, Sequence
from typing import NamedTuple

from edit_imports import OF_ONE, OF_OWN, PARTS, File, Imports, Parts, below_root, files_of, folder_of
from edit_items import NAME, Contents, Import, Item, Whole, calls_of, contents_of, parted, words_of

# What the prover makes of src/ for variants and constants, which are named behind these.
MADE = ("TheVariants", "TheConstants")
# Paths that are written out, in antt and in Rust.
DOTTED = re.compile(rf"{NAME.pattern}(?:\.{NAME.pattern})+")
PATH = re.compile(r"\w+(?:\s*::\s*\w+)+")
HEAD = re.compile(r"\w+")


class Meaning(NamedTuple):
    """What a text names: items by their numbers, and methods that it may call."""

    items: frozenset[int]
    calls: frozenset[str]


class Names:
    """The items of some crates, which lie in one folder, by number, and what leads to them."""

    def __init__(self, folder: str, crates: Sequence[str], known: Iterable[str]) -> None:
        """Of these crates, among all that are known."""
        self.imports = Imports(folder, crates, known)
        self.items: list[Item] = []
        self.wholes: dict[File, list[Whole]] = {}
        self.of_file: dict[File, list[int]] = {}
        # Of each file: the items that a word means, what it imports under a word, and all of which it imports each name.
        self.by_word: dict[File, dict[str, set[int]]] = {}
        self.scopes: dict[File, dict[str, set[Import]]] = {}
        self.globs: dict[File, list[Import]] = {}
        self.looked: dict[tuple[File, str], frozenset[int]] = {}
        self.placed: dict[tuple[File, Parts], frozenset[int]] = {}
        self.traits: dict[File, dict[int, set[str]]] = {}
        self.outside: dict[tuple[File, Import], int] = {}
        for name in crates:
            for part in PARTS:
                for path in files_of(f"{folder}/{name}/{part}"):
                    file = (name, os.path.relpath(path, f"{folder}/{name}"))
                    self.put(file, contents_of(file, path))

    def put(self, file: File, contents: Contents) -> None:
        self.wholes[file], words = contents.wholes, self.by_word.setdefault(file, {})
        self.of_file[file] = [*range(len(self.items), len(self.items) + len(contents.items))]
        self.items += contents.items
        for n in self.of_file[file]:
            for word in self.items[n].words if not self.items[n].is_method else ():
                words.setdefault(word, set()).add(n)
        scope = self.scopes.setdefault(file, {})
        self.globs[file] = [Import(it.path[:-1], "*") for it in contents.imports if it.name == "*"]
        for it in contents.imports:
            for word in parted(it.name) if it.name != "*" else ():
                scope.setdefault(word, set()).add(it)

    def place(self, file: File, path: Parts) -> tuple[str, Parts] | None:
        """The crate that a path in a file leads to, and the path below it; None where that is none of these."""
        path = path[1:] if path[:1] == ("Rattle",) else path
        if path and path[0] in OF_OWN and file[1].endswith(".rt"):
            return file[0], below_root(path[0], path[1:], file[1])
        if path and path[0] in self.imports.files:
            return path[0], path[1:]
        if path and file[1].endswith(".rt") and self.exact(file[0], (*folder_of(file[1]), path[0])):
            return file[0], (*folder_of(file[1])[1:], *path)
        return None

    def exact(self, crate: str, parts: Parts) -> str | None:
        """The file of a module, also of one that proves one function."""
        of_one = "/".join(parts) + ".antt"
        return self.imports.exact(crate, parts) or (of_one if (crate, of_one) in self.of_file else None)

    def led(self, crate: str, parts: Parts) -> list[tuple[File, Parts]]:
        """The files that a path below a crate leads to, and what is left of it behind each."""
        parts = (*self.imports.faces[crate].get(parts[0], parts[:1]), *parts[1:]) if parts else parts
        places = [("src", parts)]
        if parts[:1] in (("specs",), ("proofs",)):
            own = parts[2 if parts[1:2] in (("declared",), ("contracts",)) else 1 :]
            places += [(parts[0], parts[1:]), ("src", own)]
        found = [it for folder, path in places if (it := self.longest(crate, folder, path))]
        root = next((it for it in ("src/lib.rt", "src/main.rt") if (crate, it) in self.of_file), "")
        left = self.left(places[-1][1])
        return found or ([((crate, root), left)] if root and left and self.has((crate, root), left[0]) else [])

    def longest(self, crate: str, folder: str, path: Parts) -> tuple[File, Parts] | None:
        """The file that the longest beginning of a path below a folder leads to, if one does, and the rest of it."""
        for count in range(len(path), 0, -1):
            if at := self.exact(crate, (folder, *path[:count])):
                return (crate, at), self.left(path[count:])
        return None

    @staticmethod
    def left(parts: Parts) -> Parts:
        return tuple(it for it in parts if it not in MADE)

    def has(self, file: File, name: str) -> bool:
        """Whether a file has a name, of its own or from elsewhere."""
        words = parted(name)
        return any(it in self.by_word[file] or it in self.scopes[file] for it in words) or bool(self.globs[file])

    def all_of(self, crate: str) -> Iterator[int]:
        """All items of a crate, without those by which one function is proved."""
        return (n for file, items in self.of_file.items() if file[0] == crate and not OF_ONE.fullmatch(file[1]) for n in items)

    def lookup(self, file: File, word: str) -> frozenset[int]:
        """The items that a word of a file may mean."""
        if (file, word) not in self.looked:
            todo, seen, found = {(file, word)}, set[tuple[File, str]](), set[int]()
            while todo:
                at, name = todo.pop()
                seen.add((at, name))
                found |= self.by_word[at].get(name, set())
                for it in [*self.scopes[at].get(name, ()), *self.globs[at]]:
                    more, next_ones = self.followed(at, it, name)
                    found |= more
                    todo |= next_ones - seen
            self.looked[file, word] = frozenset(found)
        return self.looked[file, word]

    def followed(self, file: File, it: Import, name: str) -> tuple[set[int], set[tuple[File, str]]]:
        """What this name leads to by an import: items that are taken for more, and words of other files."""
        place = self.place(file, it.path)
        if not place:
            return {self.from_outside(file, it)}, set()
        places = self.led(*place)
        if it.name == "*" and places and not any(left for _, left in places):
            return set(), {(at, name) for at, _ in places}
        words = {(at, word) for at, left in places if left and self.has(at, left[0]) for word in parted(left[0])}
        if not places:
            return {*self.all_of(place[0])}, set()
        return set() if words else {n for at, left in places if left for n in self.of_file[at]}, words

    def from_outside(self, file: File, it: Import) -> int:
        """What a file imports from elsewhere, as an item: its path."""
        if (file, it) not in self.outside:
            self.outside[file, it] = len(self.items)
            self.items.append(Item(file, "use", f"{it.name} {'.'.join(it.path)}", ""))
        return self.outside[file, it]

    def led_to(self, file: File, path: Parts) -> frozenset[int]:
        """The items that a path leads to which a text of this file writes out, none where its head is no module or crate."""
        if (file, path) not in self.placed:
            paths = {Import((*it.path, *path[1:]), path[-1]) for it in self.scopes[file].get(path[0], ())}
            paths |= set() if paths else {Import(path, path[-1])}
            found = set[int]()
            for it in paths:
                if self.place(file, it.path):
                    items, words = self.followed(file, it, path[-1])
                    found |= {*items, *(n for at, word in words for n in self.lookup(at, word))}
            for place in (self.place(file, (*it.path, *path)) for it in self.globs[file]):
                for at, left in self.led(*place) if place else ():
                    found |= {n for it in left[:1] for word in parted(it) for n in self.lookup(at, word)}
            self.placed[file, path] = frozenset(found)
        return self.placed[file, path]

    def traits_of(self, file: File) -> dict[int, set[str]]:
        """The traits that a file has or imports, whose methods its texts may call, and the names of these."""
        if file not in self.traits:
            words = {*self.by_word[file], *self.scopes[file]} - {"*"}
            items = {n for word in words for n in self.lookup(file, word)}
            items |= {n for it in self.globs[file] for at, _ in self.led(*(self.place(file, it.path) or (file[0], ()))) for n in self.of_file[at]}
            self.traits[file] = {n: self.methods(n) for n in items if self.items[n].kind == "trait"}
        return self.traits[file]

    def methods(self, trait: int) -> set[str]:
        it = self.items[trait]
        of_it = (self.items[n] for n in self.of_file[it.file])
        return {*re.findall(r"\bfn\s+(\w+)", it.text), *(word for of in of_it if of.owners == it.owners for word in of.words)}

    def meaning(self, file: File, text: str) -> Meaning:
        """What a text of a file names."""
        is_rust = file[1].endswith(".rt")
        words, calls = words_of(text, is_rust), calls_of(text) if is_rust else set()
        known = words if self.globs[file] else words & {*self.by_word[file], *self.scopes[file]}
        found = {n for it in known for n in self.lookup(file, it)}
        dotted = (tuple(it.split(".")) for it in DOTTED.findall(text))
        paths = {it for it in dotted if it[0] in self.scopes[file] or it[0] == "Rattle"}
        paths |= {tuple(re.split(r"\s*::\s*", it)) for it in PATH.findall(text)} if is_rust else set()
        for path in paths:
            found |= self.led_to(file, path)
        found |= {n for n, names in self.traits_of(file).items() if names & calls} if calls else set()
        return Meaning(frozenset(found), frozenset(calls))
