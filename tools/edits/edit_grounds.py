"""What the verdict on an edit hangs on, item by item: its grounds.

Of an edit that changes bodies of functions alone they are its text; each changed function, with its body; the files by which a function of its
name is proved; and what all these reach, from item to item: what their words mean (edit_names.py), the methods that they may call, and of a
type or a trait that is reached its impls. A method is called by its name, so it is reached where its type or its trait is; the functions of
impls of traits come with them all, since operators, loops, `?` and drops call them unnamed. Functions that call each other in a circle with one
that is changed count with their bodies and their proofs too.
"""
from collections.abc import Iterable, Sequence
from dataclasses import dataclass, field

from edit_files import Edit, text_of
from edit_imports import OF_ONE, File
from edit_items import Item, Whole
from edit_names import Meaning, Names

# A part of the grounds: what it is, and its text.
Ground = tuple[tuple[str, ...], str]


@dataclass
class Reach:
    """What is reached so far, in these crates."""

    crates: frozenset[str]
    items: set[int] = field(default_factory=set)
    calls: set[str] = field(default_factory=set)
    types: set[int] = field(default_factory=set)


class Types:
    """What comes with each type and each trait, by its number."""

    def __init__(self, names: Names) -> None:
        self.names = names
        # Of each: the impls, with the functions of those of traits; its own methods by name. And which have a method of a name.
        self.impls: dict[int, set[int]] = {}
        self.methods: dict[int, dict[str, set[int]]] = {}
        self.who_has: dict[str, set[int]] = {}
        # Impls of a trait and a type from elsewhere, which come always; and the functions that are of a trait from elsewhere.
        self.strays: set[int] = set()
        self.unnamed: set[int] = set()
        for number, item in enumerate([*names.items]):
            if item.owners and item.kind != "trait":
                self.join(number, item)

    def join(self, number: int, item: Item) -> None:
        owners = self.owners(item)
        if not owners:
            self.strays.add(number)
        if item.of_trait and not any(self.names.items[it].kind == "trait" for it in owners):
            self.unnamed.add(number)
        for owner in owners:
            if item.kind == "impl" or item.of_trait:
                self.impls.setdefault(owner, set()).add(number)
                continue
            for word in item.words:
                self.methods.setdefault(owner, {}).setdefault(word, set()).add(number)
                self.who_has.setdefault(word, set()).add(owner)

    def owners(self, item: Item) -> set[int]:
        """The types and traits that the header of an item's impl names, behind all aliases."""
        todo, found = {n for it in item.owners for n in self.names.lookup(item.file, it)}, set[int]()
        while todo:
            number = todo.pop()
            it = self.names.items[number]
            if it.is_type and number not in found:
                found.add(number)
                todo |= self.names.meaning(it.file, it.text).items if it.kind == "type" else set()
        return found

    def called(self, it: Reach, calls: frozenset[str]) -> set[int]:
        """The methods of the types that are reached, as these calls are met."""
        more = calls - it.calls
        it.calls |= more
        return {n for word in more for owner in self.who_has.get(word, set()) & it.types for n in self.methods[owner][word]}

    def met(self, it: Reach, number: int) -> set[int]:
        """What comes with a type or a trait, as it is met."""
        it.types.add(number)
        methods = self.methods.get(number, {})
        return self.impls.get(number, set()) | {n for word in methods.keys() & it.calls for n in methods[word]}


class Circles:
    """Which functions of a crate call each other, as far as names and types tell."""

    def __init__(self, crates: Sequence[str], grounds: "Grounds") -> None:
        """Of the last of these crates, which stands on the others."""
        self.crates, self.grounds, names = crates, grounds, grounds.names
        files = [it for it in names.of_file if it[0] == crates[-1]]
        self.wholes = [it for file in files for it in names.wholes[file]]
        self.places = {(it.item.file, it.function.begins): n for n, it in enumerate(self.wholes)}
        numbers = {names.items[it].key: it for file in files for it in names.of_file[file]}
        self.by_item = {numbers[it.item.key]: n for n, it in enumerate(self.wholes)}
        self.by_word: dict[str, set[int]] = {}
        for n, it in enumerate(self.wholes):
            for word in it.item.words:
                self.by_word.setdefault(word, set()).add(n)
        self.unnamed = {n for it, n in self.by_item.items() if it in grounds.types.unnamed}
        self.meanings = [names.meaning(it.item.file, it.text) for it in self.wholes]
        self.callees = [self.called(it) for it in self.meanings]
        self.callers: list[set[int]] = [set() for _ in self.wholes]
        for n, callees in enumerate(self.callees):
            for callee in callees:
                self.callers[callee].add(n)

    def called(self, *meanings: Meaning) -> set[int]:
        """The functions of the crate that texts of these meanings may call."""
        plain = {self.by_item[it] for of in meanings for it in of.items & self.by_item.keys()}
        named = {n for of in meanings for word in of.calls for n in self.by_word.get(word, ())}
        reached = self.grounds.reached(self.crates, meanings)
        return plain | ((named | self.unnamed) & {self.by_item[it] for it in reached & self.by_item.keys()})

    def around(self, changed: int, more: Meaning) -> set[int]:
        """The functions in a circle with one that calls what its own text and this one do, and that function itself."""
        down = self.all_from(self.called(self.meanings[changed], more), self.callees)
        return {changed} | (down & self.all_from(self.callers[changed], self.callers))

    @staticmethod
    def all_from(todo: set[int], edges: Sequence[set[int]]) -> set[int]:
        found: set[int] = set()
        while todo:
            found |= todo
            todo = {it for n in todo for it in edges[n]} - found
        return found


class Grounds:
    """The grounds of edits, of crates which lie in one folder."""

    def __init__(self, names: Names) -> None:
        self.names, self.types = names, Types(names)
        self.loose = self.types.strays | {n for n, it in enumerate(names.items) if it.is_loose}
        self.meanings: dict[int, Meaning] = {}
        self.circles: dict[str, Circles] = {}

    def meaning(self, number: int) -> Meaning:
        if number not in self.meanings:
            it = self.names.items[number]
            self.meanings[number] = self.names.meaning(it.file, it.text)
        return self.meanings[number]

    def reached(self, crates: Sequence[str], meanings: Iterable[Meaning]) -> set[int]:
        """All items of these crates that texts of these meanings reach, which are of the last of them."""
        it, own = Reach(frozenset(crates)), crates[-1]
        todo = {n for n in self.loose if self.names.items[n].file[0] == own or not self.names.items[n].of_own}
        for meaning in meanings:
            todo |= meaning.items | self.types.called(it, meaning.calls)
        while todo:
            number = todo.pop()
            item = self.names.items[number]
            if number not in it.items and item.file[0] in it.crates:
                it.items.add(number)
                meaning = self.meaning(number)
                todo |= meaning.items - it.items
                todo |= self.types.called(it, meaning.calls) | (self.types.met(it, number) if item.is_type else set())
        return it.items

    def of(self, edit: Edit, path: str, crate: str, below: Sequence[str]) -> list[Ground]:
        """The grounds of an edit of functions, which stands in this file, of a crate over those below it."""
        if crate not in self.circles:
            self.circles[crate] = Circles([*below, crate], self)
        circles, text, around = self.circles[crate], text_of(path), set[int]()
        told = {it.file: self.names.meaning((crate, it.file), text) for it in edit.functions}
        for it in edit.functions:
            around |= circles.around(circles.places[(crate, it.file), it.begins], told[it.file])
        wholes = [circles.wholes[n] for n in around]
        proofs = {n for file in self.proofs(crate, wholes) for n in self.names.of_file[file]}
        meanings = [*told.values(), *(circles.meanings[n] for n in around), *map(self.meaning, proofs)]
        items = [self.names.items[n] for n in self.reached([*below, crate], meanings) | proofs]
        found = [(("edit", edit.name), text), *((("whole", *it.item.key), it.text) for it in wholes)]
        return sorted([*found, *((it.key, it.text) for it in items)])

    def proofs(self, crate: str, wholes: Iterable[Whole]) -> list[File]:
        """The files by which functions of these names are proved, and those of closures in them."""
        homes = {home for it in wholes for home in it.homes}
        found = []
        for file in self.names.of_file:
            if file[0] == crate and OF_ONE.fullmatch(file[1]):
                *above, last, _ = file[1].split("/")
                if last.lstrip("+") in homes or ("fn" in above and homes & {*above, last}):
                    found.append(file)
        return found
