"""The items of a file: what the grounds of an edit are made of (edit_grounds.py), each with its own text.

Of a .rt file an item is a function without its body (but for a `const fn`), with what stands right before it and the header of the
impl or trait that it stands in; an impl or a trait without the functions that have bodies; a struct, an enum, a union, a type, a
constant, a static. Of an .antt file it is a definition, a lemma or a ruleset, with all of its lines, and with the header of the
`module _` block that it stands in. Imports and lines `mod NAME;` are none. Whatever is not understood is an item that is loose:
it counts as reached by everything.
"""
import re
from collections.abc import Iterator, Sequence
from dataclasses import dataclass
from typing import NamedTuple

from edit_files import SKIPPED, Function, functions_of, text_of
from edit_imports import File, Parts, found_at, heads_of

# What stands in an item's text, beside its words of Rust: the names of antt, of which `◌` parts an operator's.
NAME = re.compile(r'[^\s(){}.;,@"«»]+')
WORD = re.compile(r"[^\W\d]\w*")
LETTER = re.compile(r"[^\W\d_]")
# A method that is called, or whatever is named behind `::`.
CALL = re.compile(r"\.\s*([^\W\d]\w*)\s*(?:\(|::)|::\s*([^\W\d]\w*)")
# A text in which the lines are told by their layout.
LAID_OUT = re.compile(r"\b(?:do|where|mutual)\b")

# ---- Rust

IMPORT = re.compile(r"\b(ghost\s+)?use\b\s*([^;]*);")
# What an item begins with, behind its attributes.
KIND = re.compile(
    r"(?:pub(?:\([^)]*\))?\s+)?(?:(?:ghost|unsafe|auto)\s+)*(struct|enum|union|trait|const|static|type|impl|mod|use)\b\s*(?:mut\s+)?(\w*)"
)
TYPES = ("struct", "enum", "union", "trait", "type")
# Those that end at a `;` alone.
FLAT = ("const", "static", "type", "use")
# What tells how the functions of its own crate are proved, and nothing of what is stated of them.
OF_OWN = re.compile(r"#!\[tactic\(.*\)\]|(?:#\[(?:tactic|cfg)\(.*\)\] )+(?:pub(?:\([^)]*\))? )?mod \w+;")
CYCLE = re.compile(r"#\[cycle\((\w+)\)\]")

# ---- antt

ANTT_SKIPPED = re.compile(r'"(?:[^"\\]|\\.)*"|\{-.*?-\}|(?:(?<=\s)|^)--(?=[\s-]|$)[^\n]*', re.S | re.M)
MARKS = re.compile(r"(?:(?:pattern|unfoldable|abbrev|axiom|pub|opaque|private)\s+)*")
# Each declaration of a block that is no signature begins with a word.
DECLARED = re.compile(r"(data|record|ruleset|infix[lr]?|module|mutual|mod|use|unfolding|open|deriving)(?=\s|$)\s*", re.S)
SIGNATURE = re.compile(r'([^\s(){}.;,@":]+)\s*(?:\{[^}]*\}\s*)?:(?=\s)')
STEM = re.compile(r'[^\s(){}.;,@":]*')
BLOCK = re.compile(r"\s*(?:(?:pub\s+)?module\b.*\bwhere|mutual)\s*", re.S)
CONSTRUCTOR = re.compile(r"(?:^|\bwhere\b)\s+((?:[^\s(){}.;,:]+\s+)+):\s", re.M)


@dataclass(frozen=True)
class Item:
    """A part of a file, of which a text is reached as a whole or not at all."""

    file: File
    # What it is, and its name among those of its kind in its file.
    kind: str
    name: str
    text: str
    # The words that mean it in its file, and in one that imports it.
    words: frozenset[str] = frozenset()
    # Of an impl, a trait, or a function in one: the names of the trait and the type; and whether it is of a trait.
    owners: frozenset[str] = frozenset()
    of_trait: bool = False
    # Whether it counts as reached by everything, of its own crate or of any.
    is_loose: bool = False
    of_own: bool = False

    @property
    def key(self) -> tuple[str, ...]:
        return (*self.file, self.kind, self.name)

    @property
    def is_type(self) -> bool:
        return self.kind in TYPES

    @property
    def is_method(self) -> bool:
        """Whether it is a function that no word alone means."""
        return self.kind == "fn" and bool(self.owners)


class Whole(NamedTuple):
    """A function with its body, as an edit's grounds have it."""

    function: Function
    item: Item
    text: str
    # The folders of its proofs, by the last parts of their paths.
    homes: frozenset[str]


class Import(NamedTuple):
    """A name that a file has from elsewhere. `*` stands for all names."""

    path: Parts
    name: str


class Contents(NamedTuple):
    """What a file has."""

    items: list[Item]
    wholes: list[Whole]
    imports: list[Import]


def parted(name: str) -> frozenset[str]:
    """The words that a name is told by: an operator's parts, or itself."""
    return frozenset(filter(None, name.split("◌"))) if "◌" in name else frozenset({name})


def words_of(text: str, is_rust: bool) -> set[str]:
    """All that may name something in a text."""
    found = {*NAME.findall(text)}
    found |= {part for it in found if "◌" in it for part in parted(it)}
    # (between these brackets antt has a type of Rust)
    return found | {*WORD.findall(text if is_rust else " ".join(re.findall("⟦[^⟧]*⟧", text)))}


def calls_of(text: str) -> set[str]:
    """The methods that a text of Rust may call. A `?` converts by `from`."""
    found = {it for pair in CALL.findall(text) for it in pair if it}
    return found | ({"from"} if "?" in text or "into" in found else set())


def squeezed(text: str) -> str:
    """A text of Rust without comments, of which the lines do not count, but where an antt term in it is laid out in lines."""
    kept: list[str] = []

    def taken(it: re.Match[str]) -> str:
        if it[0].startswith(("//", "/*")):
            return " "
        kept.append(it[0])
        return f"\0{len(kept) - 1}\0"

    bare = SKIPPED.sub(taken, text)
    lines = [it.rstrip() for it in bare.splitlines() if it.strip()]
    bare = "\n".join(lines) if re.search(r"\bdo\b", bare) else " ".join(bare.split())
    return re.sub("\0(\\d+)\0", lambda it: kept[int(it[1])], bare)


def imported(text: str, mark: str) -> list[Import]:
    """What stands behind a word `use`, in all its groups."""
    head, brace, inner = text.partition("{")
    path, _, name = re.sub(r"\s+", " ", head).strip(" «»").partition(" as ")
    parts = tuple(it for part in path.split(mark) if (it := part.strip(" «»")))
    if not brace:
        return [Import(parts, name.strip(" «»") or parts[-1])] if parts else []
    found = [it for part in listed(inner.rpartition("}")[0]) for it in imported(part, mark)]
    return [here(Import((*parts, *it.path), it.name)) for it in found]


def here(it: Import) -> Import:
    """A module that a group names by `self`."""
    if it.path[-1] != "self" or len(it.path) < 2:
        return it
    return Import(it.path[:-1], it.path[-2] if it.name == "self" else it.name)


def listed(text: str) -> Iterator[str]:
    """The parts of a group, at its commas."""
    depth, since = 0, 0
    for at, mark in enumerate(text):
        depth += (mark == "{") - (mark == "}")
        if mark == "," and not depth:
            yield text[since:at]
            since = at + 1
    yield text[since:]


class Chunk(NamedTuple):
    """A stretch of a .rt file: where it begins, its first word behind attributes, its block if it has one, and its end."""

    begins: int
    head: int
    opens: int
    ends: int


class RustFile:
    """A .rt file, taken apart."""

    def __init__(self, file: File, text: str) -> None:
        self.file, self.text = file, text
        self.blank = SKIPPED.sub(lambda it: re.sub(r"[^\n]", " ", it[0]), text)
        self.functions = [(it.begins - 1 - len(it.head.lstrip()), it) for it in functions_of(file[1], text)]
        self.items: list[Item] = []
        self.wholes: list[Whole] = []
        self.counts: dict[tuple[str, str], int] = {}
        at = 0
        while blank := re.compile(r"\S").search(self.blank, at):
            chunk = self.chunk(blank.start())
            self.take(chunk)
            at = chunk.ends

    def contents(self) -> Contents:
        found = IMPORT.finditer(self.blank)
        pairs = [(it[2], "." if it[1] and "::" not in it[2].partition("{")[0] else "::") for it in found]
        return Contents(self.items, self.wholes, [it for text, mark in pairs for it in imported(text, mark)])

    def closed(self, at: int) -> int:
        """Where the bracket that opens here has closed."""
        depth = 0
        for it in re.compile(r"[()\[\]{}]").finditer(self.blank, at):
            depth += 1 if it[0] in "([{" else -1
            if not depth:
                return it.end()
        return len(self.blank)

    def past_attributes(self, at: int) -> int:
        """Where an item's own words begin."""
        while it := re.compile(r"\s*#\s*(?=\[)").match(self.blank, at):
            at = self.closed(it.end())
        return at + len(self.blank[at:]) - len(self.blank[at:].lstrip())

    def chunk(self, begins: int) -> Chunk:
        """What begins here: it ends at its `;`, behind its block, or where its function does."""
        if inner := re.compile(r"#\s*!\s*(?=\[)").match(self.blank, begins):
            return Chunk(begins, begins, -1, self.closed(inner.end()))
        head = self.past_attributes(begins)
        found = KIND.match(self.blank, head)
        at, is_flat = head, bool(found and found[1] in FLAT)
        own = next(((start, it) for start, it in self.functions if start >= begins), None)
        while stop := re.compile(r"[;(\[{]").search(self.blank, at):
            if own and own[0] < stop.start():
                return Chunk(begins, own[0], own[1].begins - 1, own[1].ends + 1)
            at = stop.end() if stop[0] == ";" else self.closed(stop.start())
            if stop[0] == ";" or (stop[0] == "{" and not is_flat):
                return Chunk(begins, head, stop.start() if stop[0] == "{" else -1, at)
        return Chunk(begins, head, -1, len(self.blank))

    def take(self, chunk: Chunk) -> None:
        """Makes the items of a chunk."""
        inside = [(start, it) for start, it in self.functions if chunk.begins <= start < chunk.ends]
        if inside and inside[0][1].begins - 1 == chunk.opens:
            self.put_function(inside[0][1], chunk.begins, "", frozenset(), False)
            return
        found = KIND.match(self.blank, chunk.head)
        kind, name = (found[1], found[2]) if found else ("loose", "")
        text = self.text[chunk.begins : chunk.ends]
        if kind == "use" or (kind == "mod" and chunk.opens < 0 and chunk.head == chunk.begins):
            return
        if kind in ("impl", "trait") and chunk.opens > 0:
            self.take_block(kind, name, chunk, inside)
        elif kind in (*TYPES, "const", "static") and name and name != "_" and not inside:
            self.put(kind, name, text, words=frozenset({name}))
        else:
            self.put("loose", squeezed(text)[:60], text, is_loose=True, of_own=bool(OF_OWN.fullmatch(squeezed(text))))
            for _, it in inside:
                self.put_function(it, chunk.begins, "", frozenset(), False, text)

    def take_block(self, kind: str, name: str, chunk: Chunk, inside: Sequence[tuple[int, Function]]) -> None:
        """An impl or a trait: its functions, and what is left of it without these and without imports."""
        header, at, rest = self.text[chunk.begins : chunk.opens + 1], chunk.opens + 1, ""
        words = squeezed(self.blank[chunk.head : chunk.opens])
        owners = frozenset(heads_of(words.partition("impl")[2]) if kind == "impl" else {name})
        of_trait = kind == "trait" or bool(re.search(r"\bfor\b", re.sub(r"\bfor\s*<", "", words)))
        for start, it in inside:
            lead = max(at, *(self.blank.rfind(mark, at, start) + 1 for mark in ";{}"))
            rest += self.without_imports(at, lead)
            self.put_function(it, lead, header, owners, of_trait)
            at = it.ends + 1
        rest = squeezed(rest + self.without_imports(at, chunk.ends))
        # (an impl of functions alone is in their texts)
        if kind == "trait":
            self.put(kind, name, f"{header} {rest}", frozenset({name}), owners, of_trait)
        elif of_trait or not inside or rest != "}":
            self.put(kind, words, f"{header} {rest}", owners=owners, of_trait=of_trait)

    def without_imports(self, at: int, ends: int) -> str:
        made = ""
        for it in IMPORT.finditer(self.blank, at, ends):
            made, at = made + self.text[at : it.start()], it.end()
        return made + self.text[at:ends]

    def put_function(
        self, it: Function, lead: int, header: str, owners: frozenset[str], of_trait: bool, instead: str | None = None
    ) -> None:
        """A function that begins with its lead, in a block of this header or in none."""
        last, ends = it.name.rpartition("::")[2], it.ends + 1
        head, body = header + self.text[lead : it.begins], self.text[it.begins : ends]
        # (an impl in a body is one for all)
        is_loose = instead is not None or bool(re.search(r"\bimpl\b[^;(){}]*\{", self.blank[it.begins : ends]))
        name = f"{squeezed(header)} {last}".strip()
        text = head + body if it.is_const or is_loose else head
        made = self.put("fn", name, text, frozenset({last}), owners, of_trait, is_loose)
        homes = {last, *CYCLE.findall(self.blank[lead : it.begins])}
        self.wholes.append(Whole(it, made, squeezed(head + body if instead is None else instead), frozenset(homes)))

    def put(
        self,
        kind: str,
        name: str,
        text: str,
        words: frozenset[str] = frozenset(),
        owners: frozenset[str] = frozenset(),
        of_trait: bool = False,
        is_loose: bool = False,
        of_own: bool = False,
    ) -> Item:
        count = self.counts[kind, name] = self.counts.get((kind, name), 0) + 1
        name = f"{name} {count}" if count > 1 else name
        made = Item(self.file, kind, name, squeezed(text), words, owners, of_trait, is_loose, of_own)
        self.items.append(made)
        return made


class AnttFile:
    """A file of antt, taken apart."""

    def __init__(self, file: File, text: str) -> None:
        self.file = file
        # Of each name: its lines, and the words that mean it.
        self.pieces: dict[str, list[str]] = {}
        self.words: dict[str, set[str]] = {}
        self.imports: list[Import] = []
        self.loose: list[str] = []
        self.last = ""
        for header, lines in self.statements(ANTT_SKIPPED.sub(self.kept, text).splitlines()):
            if lines:
                self.take(header, lines)

    @staticmethod
    def kept(it: re.Match[str]) -> str:
        """A text stays; of a comment its ends of lines do."""
        return it[0] if it[0].startswith('"') else "\n" * it[0].count("\n")

    def contents(self) -> Contents:
        found = [(name, "\n".join(it), frozenset(self.words[name])) for name, it in self.pieces.items()]
        made = [Item(self.file, "def", name, text, words, is_loose=not LETTER.search(name)) for name, text, words in found]
        made += [Item(self.file, "loose", str(n), it, is_loose=True) for n, it in enumerate(self.loose)]
        return Contents(made, [], self.imports)

    @staticmethod
    def statements(lines: Sequence[str]) -> Iterator[tuple[str, list[str]]]:
        """The lines of each signature, clause or the like, with the header of the block that it stands in."""
        blocks: list[tuple[int, str]] = [(0, "")]
        held: list[str] = []
        for line in filter(str.strip, lines):
            deep, is_closing = len(line) - len(line.lstrip()), line.lstrip()[0] in ")]}"
            if deep > blocks[-1][0] and BLOCK.fullmatch(text := "\n".join(held)):
                blocks.append((deep, f"{blocks[-1][1]}{text}\n"))
                held = []
            if deep > blocks[-1][0] or (is_closing and held):
                held.append(line)
                continue
            yield blocks[-1][1], held
            while deep < blocks[-1][0]:
                blocks.pop()
            held = [line]
        yield blocks[-1][1], held

    def take(self, header: str, lines: Sequence[str]) -> None:
        """Puts a statement to the item that it is of."""
        text = "\n".join(lines)
        after = text.lstrip()[found_at(MARKS, text.lstrip(), 0).end() :]
        found, name = DECLARED.match(after), found_at(STEM, after, 0)[0]
        kind, rest = (found[1], after[found.end() :]) if found else ("", after)
        signature = SIGNATURE.match(after)
        if kind == "use":
            self.imports += imported(rest, ".")
        elif kind in ("open", "deriving") or not (name or self.last):
            self.loose.append(header + text)
        elif kind.startswith("infix"):
            self.put(rest.strip(), header, lines, *NAME.findall(rest))
        elif kind in ("data", "record", "ruleset"):
            self.last = found_at(STEM, rest, 0)[0]
            names = [it for row in CONSTRUCTOR.findall(text) for it in row.split()] if kind == "data" else []
            self.put(self.last, header, lines, self.last, *names)
        elif kind not in ("mod", "module", "mutual") and text.strip():
            self.last = signature[1] if signature else name if kind != "unfolding" and name and "◌" not in self.last else self.last
            self.put(self.last, header, lines, self.last)

    def put(self, name: str, header: str, lines: Sequence[str], *names: str) -> None:
        """Adds lines to the item of this name. They count as lines where the layout tells what they mean."""
        least = min(len(it) - len(it.lstrip()) for it in lines)
        is_laid_out = LAID_OUT.search("\n".join(lines))
        text = "\n".join(it[least:].rstrip() for it in lines) if is_laid_out else " ".join(map(str.strip, lines))
        pieces = self.pieces.setdefault(name, [])
        pieces += [it for it in [" ".join(header.split())] if it and it not in pieces]
        pieces.append(text)
        self.words.setdefault(name, set()).update(*(parted(it.strip("«»")) for it in names))


def contents_of(file: File, path: str) -> Contents:
    """What a file has. One that is in neither language is an item that is loose."""
    if path.endswith(".rt"):
        return RustFile(file, text_of(path)).contents()
    if path.endswith(".antt"):
        return AnttFile(file, text_of(path)).contents()
    with open(path, "rb") as it:
        return Contents([Item(file, "loose", "", repr(it.read()), is_loose=True)], [], [])
