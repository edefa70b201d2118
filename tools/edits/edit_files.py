"""Edits that must fail, and the functions whose bodies they change.

An edit is a file of lines 'file: src/x.rt', 'old: TEXT' and 'new: TEXT', in the format of `rt must-fail`: each TEXT is one
line, an old TEXT stands once in its file, and later pairs apply to what the earlier ones made. A line 'fn: NAME' behind the
file, which `rt must-fail` does not know, names a function as a check does (`act`, `Room::act`): an old TEXT stands once in
its body then.
"""
import os
import re
from collections.abc import Sequence
from dataclasses import dataclass, field

# Comments, texts and characters of Rust: the search for braces passes over them.
SKIPPED = re.compile(
    r"""//[^\n]*|/\*.*?\*/|b?r(#*)".*?"\1|b?"(?:[^"\\]|\\.)*"|b?'(?:[^'\\\n]|\\[^'\n]+|\\')'""", re.S
)
FUNCTION = re.compile(r"^[^\n\S]*((?:\w+(?:\([^)]*\))?\s+)*?)fn\s+(\w+)", re.M)
BLOCK = re.compile(r"\b(?:impl|trait)\b([^{};]*)\{")
CLAUSE = re.compile(r"\b(requires|ensures|ghost)\b")


def text_of(path: str) -> str:
    with open(path, encoding="utf-8") as it:
        return it.read()


@dataclass(frozen=True)
class Function:
    """A function with a body, outside any other function."""

    file: str
    # The name behind that of its module: `name`, `Type::name`, or `TypeTrait::name` in an impl of a trait.
    name: str
    first_line: int
    last_line: int
    # Where the text between its braces begins and ends, and all that stands before it.
    begins: int = field(compare=False)
    ends: int = field(compare=False)
    head: str = field(compare=False)
    is_const: bool = field(compare=False)

    def spans(self, file: str, line: int) -> bool:
        return file == self.file and self.first_line <= line <= self.last_line

    def holds(self, at: int, length: int) -> bool:
        return self.begins <= at and at + length <= self.ends


def end_of_block(blank: str, at: int) -> int:
    """Where the block that opens at this brace has ended."""
    depth = 0
    for found in re.compile(r"[{}]").finditer(blank, at):
        depth += 1 if found[0] == "{" else -1
        if not depth:
            return found.end()
    return len(blank)


def block_name(head: str) -> str:
    """How a check names what stands in this impl or trait: `impl Read for Counted<R>` is CountedRead."""
    while re.search(r"<[^<>]*>", head):
        head = re.sub(r"<[^<>]*>", "", head)
    sides = re.sub(r"\bwhere\b.*", "", head, flags=re.S).split(" for ")
    words = [re.search(r"(\w+)\s*(?::(?!:).*)?$", it.strip(), re.S) for it in reversed(sides)]
    return "".join(it[1] for it in words if it)


def body_of(blank: str, at: int) -> int | None:
    """Where the body opens of a function whose name ends here, behind its clauses, or None where it has none."""
    depth, since = 0, at
    while at < len(blank):
        depth += (blank[at] in "([") - (blank[at] in ")]")
        if not depth and blank[at] == ";":
            return None
        if not depth and blank[at] == "{":
            if not CLAUSE.search(blank[since:at]):
                return at
            at = since = end_of_block(blank, at)
        else:
            at += 1
    return None


def functions_of(file: str, text: str) -> list[Function]:
    """The outermost functions of a .rt file that have a body, in order."""
    blank = SKIPPED.sub(lambda it: re.sub(r"[^\n]", " ", it[0]), text)
    blocks = [(it.end() - 1, end_of_block(blank, it.end() - 1), block_name(it[1])) for it in BLOCK.finditer(blank)]
    made: list[Function] = []
    end = 0
    for found in FUNCTION.finditer(blank):
        opens = body_of(blank, found.end()) if found.start() >= end else None
        if opens is None:
            continue
        end = end_of_block(blank, opens)
        inside = [name for start, stop, name in blocks if start < found.start() < stop]
        first, last = (blank.count("\n", 0, it) + 1 for it in (found.start(), end))
        head, is_const = text[found.start() : opens], "const" in found[1].split()
        name = "::".join([*inside[-1:], found[2]])
        made.append(Function(file, name, first, last, opens + 1, end - 1, head, is_const))
    return made


@dataclass(frozen=True)
class Splice:
    """One pair of an edit: the old text at its place in the crate's own file, or at -1 where an earlier pair made it."""

    file: str
    at: int
    old: str
    new: str


class Unreadable(Exception):
    """Why an edit is none."""


def places_of(file: str, text: str, name: str | None, old: str) -> list[int]:
    """Where an old text stands in a file, or in the body of the function of this name."""
    found = [it.start() for it in re.finditer(re.escape(old), text)]
    if name is None:
        return found
    named = [it for it in functions_of(file, text) if it.name == name]
    if len(named) != 1:
        raise Unreadable(f"there are {len(named)} functions {name} in {file}, and not one")
    return [at for at in found if named[0].holds(at, len(old))]


class Edit:
    """A wrong text of a crate: what it changes, the texts that it makes, and the functions that it changes alone."""

    def __init__(self, path: str, folder: str) -> None:
        self.name = os.path.basename(path)
        # The file's text with this edit, by its path in the crate.
        self.texts: dict[str, str] = {}
        self.splices: list[Splice] = []
        # The functions whose bodies it changes, if it changes nothing else.
        self.functions: frozenset[Function] = frozenset()
        self.fault: str | None = None
        try:
            self._read(text_of(path).split("\n"), folder)
            self._place(folder)
        except (Unreadable, OSError, UnicodeDecodeError) as error:
            self.fault = str(error)

    def _read(self, lines: Sequence[str], folder: str) -> None:
        file: str | None = None
        name: str | None = None
        old: str | None = None
        for line in lines:
            if line.startswith("file: "):
                file, name = line.removeprefix("file: ").strip(), None
                if os.path.normpath(file) != file or not file.startswith(("src/", "specs/", "proofs/")):
                    raise Unreadable("a 'file:' line names no file below src/, specs/ or proofs/")
            elif line.startswith("fn: "):
                name = line.removeprefix("fn: ").strip()
            elif line.startswith("old: "):
                old = line.removeprefix("old: ")
            elif line.startswith("new:"):
                if not file or not old:
                    raise Unreadable("a 'new:' line stands before any 'file:' or 'old:' line")
                self._splice(file, name, old, line.removeprefix("new:").removeprefix(" "), folder)
                old = None
        if not self.splices:
            raise Unreadable("it has no 'old:' and 'new:' pair")

    def _splice(self, file: str, name: str | None, old: str, new: str, folder: str) -> None:
        if not os.path.isfile(f"{folder}/{file}"):
            raise Unreadable(f"there is no file {file}")
        was = text_of(f"{folder}/{file}")
        text = self.texts.get(file, was)
        at = places_of(file, text, name, old)
        if len(at) != 1:
            raise Unreadable(f"an 'old:' text is in {name or file} {len(at)} times, and not once")
        self.texts[file] = text[: at[0]] + new + text[at[0] + len(old) :]
        before = places_of(file, was, name, old)
        self.splices.append(Splice(file, before[0] if len(before) == 1 else -1, old, new))

    def _place(self, folder: str) -> None:
        """Finds the functions that the edit changes, if it changes bodies alone, and of no `const fn`."""
        functions: dict[str, list[Function]] = {}
        for file, text in self.texts.items():
            before, after = functions_of(file, text_of(f"{folder}/{file}")), functions_of(file, text)
            if not file.startswith("src/") or [(it.name, it.head) for it in before] != [(it.name, it.head) for it in after]:
                return
            functions[file] = before
        changed: list[Function] = []
        for it in self.splices:
            inside = [of for of in functions[it.file] if of.holds(it.at, len(it.old)) and not of.is_const]
            if it.at < 0 or not inside:
                return
            changed += inside
        self.functions = frozenset(changed)


def constant_of(edit: Edit, folder: str) -> str | None:
    """The constant that the edit changes, if it stands outside all functions, and behind the head of one."""
    names: set[str] = set()
    for it in edit.splices:
        text = text_of(f"{folder}/{it.file}")
        is_inside = any(of.holds(it.at, len(it.old)) for of in functions_of(it.file, text))
        found = re.findall(r"^[^\n\S]*(?:pub(?:\([^)]*\))? )?(?:const|static) (\w+):", text[: it.at + len(it.old)], re.M)
        if it.at < 0 or is_inside or not found:
            return None
        names.add(found[-1])
    return names.pop() if len(names) == 1 else None


def who_names(word: str, folder: str) -> list[Function]:
    """The functions of a crate whose clauses or bodies name this word."""
    found: list[Function] = []
    for place, _, files in os.walk(f"{folder}/src"):
        for name in sorted(it for it in files if it.endswith(".rt")):
            path = f"{place}/{name}"
            text = text_of(path)
            for it in functions_of(os.path.relpath(path, folder), text):
                if re.search(rf"\b{word}\b", it.head + text[it.begins : it.ends]):
                    found.append(it)
    return found


def joined(edits: Sequence[Edit], folder: str) -> dict[str, str]:
    """The texts of a crate with all these edits, which change different functions' bodies."""
    texts = {it.file: text_of(f"{folder}/{it.file}") for edit in edits for it in edit.splices}
    splices = [it for edit in edits for it in edit.splices]
    for it in sorted(splices, key=lambda it: (it.file, it.at), reverse=True):
        texts[it.file] = texts[it.file][: it.at] + it.new + texts[it.file][it.at + len(it.old) :]
    return texts


def edits_in(path: str, folder: str) -> list[Edit]:
    """The edits of a folder, in order of name. A file `.md` is only to be read."""
    names = sorted(os.listdir(path)) if os.path.isdir(path) else []
    return [Edit(f"{path}/{it}", folder) for it in names if not it.endswith(".md")]
