"""What makes the record of an edit void, by items: of an edit that changes bodies of functions alone; and how files are taken apart."""
import os
import re
import tempfile
from collections import Counter
from collections.abc import Iterator

from edit_checks import crates_of
from edit_files import SKIPPED, edits_in, functions_of, text_of
from edit_imports import PARTS, files_of
from edit_items import Contents, contents_of
from edits_test_base import TOOLS, Held, digest, digest_with, lay, noted, ran
from edits_test_cases import ACTS, ANTT, CRATES, HOLDS, IMPORTS, RUST, VOID


def put(text: str, old: str, new: str) -> str:
    assert text.count(old) == 1, f"{old!r} stands {text.count(old)} times"
    return text.replace(old, new)


def changes() -> Iterator[Held]:
    """What must hold as something changes."""
    with tempfile.TemporaryDirectory(prefix="edits-test-") as top:
        lay(top, CRATES)
        sum_now = noted(top, "act")
        for is_void, cases in ((True, VOID), (False, HOLDS)):
            for name, (file, old, new) in cases.items():
                text = put(CRATES[file], old, new) if old else new
                found = digest_with(top, "act", file, text)
                yield f"by items, once it changes: {name}", (found != sum_now) == is_void, found
        yield "by items, once all is as it was", digest(top, "act") == sum_now, sum_now
        yield from own_words(top, sum_now)
        yield from imports(top)
        lay(top, CRATES)
        _, lines = ran(top, "--which")
        yield "another edit alone is tried", lines[0].startswith("same planted: 1 of 2 edits") and lines[1:] == ["try  planted: 1 of 2 edits"], lines


def own_words(top: str, sum_now: str) -> Iterator[Held]:
    """No word of the function that an edit changes can be another one."""
    text = CRATES[ACTS]
    begins, ends = text.index("    #[tactic"), text.index("    /// Acts once more")
    bare = SKIPPED.sub(lambda it: " " * len(it[0]), text)
    for it in re.finditer(r"\w+|[+?&]", bare):
        if begins <= it.start() < ends:
            found = digest_with(top, "act", ACTS, f"{text[:it.start()]}changed{text[it.end():]}")
            yield f"by items, once it changes: {it[0]} at {it.start() - begins} of the function", found != sum_now, found


def imports(top: str) -> Iterator[Held]:
    """What an import, or a path that is written out, reaches."""
    for name, (line, call, is_reached) in IMPORTS.items():
        lay(top, {"crates/low/src/apart.rt": "pub fn lone() -> u8 {\n    1\n}\n"})
        lay(top, {ACTS: put(put(CRATES[ACTS], "use low::Shown;", f"use low::Shown;\n{line}"), "all[0] +", f"{call} +")})
        before = digest(top, "act")
        found = digest_with(top, "act", "crates/low/src/apart.rt", "pub fn lone() -> u16 {\n    1\n}\n")
        yield f"by items, {'all is reached' if is_reached else 'nothing is'}, by {name}", (found != before) == is_reached, found


def parted(name: str, text: str) -> Contents:
    """A file of this text, taken apart."""
    with tempfile.TemporaryDirectory(prefix="edits-test-") as top:
        lay(top, {name: text})
        return contents_of(("it", name), f"{top}/{name}")


def taken_apart() -> Iterator[Held]:
    """What must hold of the items of a file."""
    rust, antt = parted("src/x.rt", RUST), parted("specs/X.antt", ANTT)
    found = {(it.kind, it.name): it for it in [*rust.items, *antt.items]}
    header = "impl<const N: usize> From<[u8; 4]> for Shape"
    kinds = [("loose", "#![tactic(auto)]"), ("struct", "Shape"), ("static", "NAMES"), ("fn", f"{header} {{ from"), ("impl", header)]
    kinds += [("fn", "trait Held: Drop { twice"), ("trait", "Held"), ("fn", "three")]
    yield "the items of code", [(it.kind, it.name) for it in rust.items] == kinds, [(it.kind, it.name) for it in rust.items]
    yield "a body is not in a function's text", "inner" not in found[kinds[3]].text and "3 }" in found[kinds[7]].text, found[kinds[3]]
    yield "it is in the whole", all(it in rust.wholes[0].text for it in (header, "requires", "inner")), rust.wholes[0]
    yield "what stands behind a comment is in an impl", "type Of = u8; const MOST: u8 = 3; }" in found[kinds[4]].text, found[kinds[4]]
    yield "a text stays as it is", '["a // b", "};"]' in found[kinds[2]].text, found[kinds[2]]
    yield "imports", [(".".join(it.path), it.name) for it in rust.imports] == [("a.b", "b"), ("a.b.c", "d"), ("a.e.*", "*")], rust.imports
    names = ["10 ◌⊕◌", "◌⊕◌", "Tree", "long-name", "first", "second", "rules", "even", "odd"]
    yield "the items of antt", [it.name for it in antt.items] == names, [it.name for it in antt.items]
    yield "imports of antt", [(".".join(it.path), it.name) for it in antt.imports] == [("A.f", "g"), ("A.◌+◌", "◌+◌"), ("A.B", "h")], antt.imports
    yield "an operator without a letter is reached always", found["def", "◌⊕◌"].is_loose, found["def", "◌⊕◌"]
    yield "its clauses are its own", "(suc a) ⊕ b = a\na ⊕ b = b" in found["def", "◌⊕◌"].text, found["def", "◌⊕◌"]
    yield "a type is found by its constructors", found["def", "Tree"].words >= {"Tree", "leaf", "one", "two"}, found["def", "Tree"]
    last = found["def", "long-name"].text
    yield "a bracket in column 0 ends nothing", '"-- no comment") ≡ record { a = 0; } → ℕ\nunfolding Tree\n' in last, last
    yield "lines count where the layout tells", "do\n  y ← x\n  y\n  where" in last and "inner = 0" in last, last
    yield "a block's header is in each item of it", found["def", "second"].text.startswith("module _ (k : ℕ) where module _ where\n"), found["def", "second"]


def words(text: str) -> Counter[str]:
    return Counter(re.findall(r"\w+", text))


def without_rest(path: str) -> str:
    """What a file says beside comments, imports and its list of modules, as lines have it."""
    text = text_of(path)
    if path.endswith(".rt"):
        text = SKIPPED.sub(lambda it: " " if it[0].startswith(("//", "/*")) else it[0], text)
        text = re.sub(r"^\s*(pub(\([^)]*\))? )?(ghost )?use [^;]*;", "", text, flags=re.M)
        return re.sub(r"^(pub(\([^)]*\))? )?mod \w+;", "", text, flags=re.M)
    text = re.sub(r'("[^"\n]*")|(^|\s)--(\s.*|$)', lambda it: it[1] or "", text, flags=re.M)
    text = re.sub(r"^(pub )?use [^\n{]*(\{[^}]*\})?.*$", "", text, flags=re.M)
    return re.sub(r"^(pub )?mod \S+$", "", text, flags=re.M)


def repository() -> Iterator[Held]:
    """What must hold of the crates of the repository that this tool stands in: each word is of an item, and each function is found."""
    top = os.path.dirname(os.path.dirname(TOOLS))
    lost: list[object] = []
    odd: list[object] = []
    wholes: dict[tuple[str, str, str], set[int]] = {}
    crates = crates_of(f"{top}/crates.txt")
    for crate in crates:
        for path in (it for part in PARTS for it in files_of(f"{top}/crates/{crate}/{part}") if it.endswith((".rt", ".antt"))):
            file = (crate, os.path.relpath(path, f"{top}/crates/{crate}"))
            it = contents_of(file, path)
            texts = [*(of.text for of in it.items if of.kind != "fn"), *(of.text for of in it.wholes)]
            lost += [(file, missing)] if (missing := words(without_rest(path)) - words("\n".join(texts))) else []
            odd += [file] if len({of.key for of in it.items}) < len(it.items) else []
            if path.endswith(".rt"):
                begins = {of.function.begins for of in it.wholes}
                odd += [] if begins == {of.begins for of in functions_of(file[1], text_of(path))} else [file]
                wholes |= {(*file, of.function.name): begins for of in it.wholes}
    yield "each word of a file is of an item", not lost, lost[:3]
    yield "each function of a file is found, and no two items have one name", not odd, odd[:3]
    for crate in crates:
        folder = f"{top}/crates/{crate}"
        functions = [(it.name, of) for it in edits_in(f"{folder}/wrong", folder) for of in it.functions]
        lost = [(it, of.name) for it, of in functions if of.begins not in wholes.get((crate, of.file, of.name), set())]
        yield f"each function that an edit of {crate} changes is found", not lost, lost[:3]
