#!/usr/bin/env python3
"""Prints definitions with their file, line and comment.

    tools/definitions.py NAME ..        each definition, function and type of these names, with its text; `Room::act` names one of a type
    tools/definitions.py --all [CRATE]  all definitions, or those of a crate, in reading order, without their text
    tools/definitions.py --bare         the definitions that have no comment over them, and how many there are per crate

Definitions stand in crates/*/specs: contracts and proofs speak these words. Each stands once, in the lowest crate that needs it.
The status is 1 if a name is found nowhere.
"""
import argparse
import glob
import os
import re
import signal
import sys
from collections import Counter
from typing import Iterator, NamedTuple

TOP = os.path.dirname(os.path.dirname(os.path.realpath(__file__)))
DEFINITION = re.compile(r"(?:\s*(?:abbrev|unfoldable) pub |\s*pub (?:record|data) |(?:abbrev|unfoldable|record|data) )([^\s:{(]+)")
ITEM = re.compile(r"\s*(?:pub(?:\(crate\))? )?(fn|struct|enum|trait) (\w+)")
OWNER = re.compile(r"(?:impl(?:<.*?>)? (?:.* for )?|(?:pub(?:\(crate\))? )?trait )(\w+)")


class Found(NamedTuple):
    """A definition, or an item of the code: its name, with that of its type before it if it has one; where it is; its comment and its text."""
    name: str
    file: str
    line: int
    comment: list[str]
    text: list[str]

    @property
    def crate(self) -> str:
        """Its crate."""
        return self.file.split("/")[1]


def comment_over(lines: list[str], at: int, mark: str) -> list[str]:
    """The comment that ends just above a line, without its marks. A rule with a heading is none."""
    found: list[str] = []
    for line in reversed(lines[:at]):
        text = line.strip()
        if text.startswith("#["):
            continue
        if not text.startswith(mark) or text.startswith("-- ----"):
            break
        found.insert(0, text[len(mark):].strip())
    return found


def definitions_in(file: str, lines: list[str]) -> Iterator[Found]:
    """The definitions of a file of specs/: the text of each ends at an empty line or at the next one."""
    for at, line in enumerate(lines):
        begins = DEFINITION.match(line)
        if begins:
            ends = next((n for n in range(at + 1, len(lines)) if not lines[n].strip() or DEFINITION.match(lines[n])), len(lines))
            yield Found(begins[1], file, at + 1, comment_over(lines, at, "--"), lines[at:ends])


def items_in(file: str, lines: list[str]) -> Iterator[Found]:
    """The functions and types of a file of src/: the text of a function is its head with all clauses."""
    owner = ""
    for at, line in enumerate(lines):
        if line[:1].isalpha():
            starts = OWNER.match(line)
            owner = f"{starts[1]}::" if starts else ""
        begins = ITEM.match(line)
        if begins:
            name = (owner if line[:1].isspace() else "") + begins[2]
            yield Found(name, file, at + 1, comment_over(lines, at, "///"), lines[at:end_of_item(lines, at, begins[1])])


def end_of_item(lines: list[str], at: int, kind: str) -> int:
    """The end of an item that begins at this line: a function's is after its clauses, a type's after its body."""
    if kind != "fn" and lines[at].endswith(";"):
        return at + 1
    is_end = re.compile(r"\s*\{$|.*[^{] \{$|.*;$|.*\{ \}$" if kind == "fn" else r"\}")
    return next((n + 1 for n in range(at, len(lines)) if is_end.match(lines[n])), len(lines))


def reading_order(paths: list[str]) -> list[str]:
    """Files in the order in which the Lib.antt among them names them, and else by name."""
    lib = next((it for it in paths if it.endswith("/Lib.antt")), None)
    named: list[str] = []
    if lib:
        with open(lib, encoding="utf-8") as file:
            named = re.findall(r"pub mod (\w+)", file.read())
    order = {f"{name}.antt": at for at, name in enumerate(named)}
    return sorted(paths, key=lambda it: (order.get(os.path.basename(it), len(order)), it))


def found_in(pattern: str, crate: str) -> Iterator[Found]:
    """All that the files of a crate have which fit a pattern."""
    for path in reading_order(glob.glob(f"{TOP}/crates/{crate}/{pattern}", recursive=True)):
        with open(path, encoding="utf-8") as file:
            lines = file.read().splitlines()
        yield from (definitions_in if path.endswith(".antt") else items_in)(os.path.relpath(path, TOP), lines)


def crates() -> list[str]:
    """The crates in the order of crates.txt: each stands on earlier ones alone."""
    with open(f"{TOP}/crates.txt", encoding="utf-8") as file:
        return [line.split(":")[0] for line in file if re.match(r"\w+:", line)]


def definitions(of: list[str]) -> list[Found]:
    """The definitions of these crates."""
    return [it for crate in of for it in found_in("specs/**/*.antt", crate)]


def everything() -> list[Found]:
    """All definitions, and all functions and types of the code."""
    return definitions(crates()) + [it for crate in crates() for it in found_in("src/**/*.rt", crate)]


def print_found(it: Found, has_text: bool) -> None:
    """Prints one, with its text if that is asked for."""
    print(f"{it.file}:{it.line}: {it.name}")
    for line in it.comment:
        print(f"  {line}")
    if has_text:
        print("".join(f"    {line}\n" for line in it.text))


def print_names(names: list[str]) -> int:
    """Prints all that has one of these names, and returns the status."""
    every, status = everything(), 0
    for name in names:
        fitting = [it for it in every if name == it.name or ("::" not in name and it.name.endswith(f"::{name}"))]
        for it in fitting:
            print_found(it, True)
        if not fitting:
            print(f"definitions: no crate defines {name}", file=sys.stderr)
            status = 1
    return status


def print_bare() -> None:
    """Prints the definitions without a comment, and counts them."""
    every = definitions(crates())
    bare = [it for it in every if not it.comment]
    for it in bare:
        print_found(it, False)
    for crate, count in Counter(it.crate for it in bare).most_common():
        print(f"{crate}: {count}")
    print(f"{len(bare)} of {len(every)} definitions have no comment")


def main() -> int:
    """Does what the words of the command line ask for."""
    signal.signal(signal.SIGPIPE, signal.SIG_DFL)
    parser = argparse.ArgumentParser(prog="tools/definitions.py", description=__doc__, formatter_class=argparse.RawDescriptionHelpFormatter)
    parser.add_argument("names", nargs="*", metavar="NAME", help="a definition, a function or a type; with --all a crate")
    parser.add_argument("--all", action="store_true", help="print all definitions, or those of the crates that are named")
    parser.add_argument("--bare", action="store_true", help="print the definitions that have no comment")
    asked = parser.parse_args()
    if asked.bare:
        print_bare()
    elif asked.all:
        for it in definitions([crate for crate in crates() if not asked.names or crate in asked.names]):
            print_found(it, False)
    elif asked.names:
        return print_names(asked.names)
    else:
        parser.error("name a definition, or say --all or --bare")
    return 0


if __name__ == "__main__":
    sys.exit(main())
