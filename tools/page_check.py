#!/usr/bin/env python3
"""Checks the pages of the repository: every *.md of its top, docs/, deploy/, examples/ and crates/.

    tools/page_check.py                  prints each fault; the status is 1 if there is one
    tools/page_check.py --counts [PAGE]  prints the counts of all pages, or of these, and no faults
    tools/page_check.py --show PAGE      prints the sentences of a page that count against it
    tools/page_check.py --lower          brings the limits of pages "to be written anew" down to what they have today

A fault is one of these:
- more words than tools/pages.limits allows the page;
- more than 8, 5 and 2 of 100 sentences that are over 30 words, begin with a noun clause, or have a turn that has to be read twice
  (one of each is allowed in any case: these are signs, and no verdict on a sentence);
- a line over 200 columns, outside of tables and of text that is shown as is;
- a link to a file, line or heading that does not exist, or a file named in backticks that does not exist.
"""
import argparse
import fnmatch
import os
import re
import sys
from typing import Iterator, NamedTuple

TOP = os.path.dirname(os.path.dirname(os.path.realpath(__file__)))
LIMITS = f"{TOP}/tools/pages.limits"
FOLDERS = ("docs", "deploy", "examples", "crates")
ANEW = "# to be written anew"
COLUMNS = 200
LONG = 30  # words
SHARES = (8, 5, 2)  # of 100 sentences, by kind
KINDS = ("sentences over 30 words", "sentences that begin with a noun clause", "sentences with an odd turn", "lines over 200 columns")

FRONTED = re.compile(r"(Of|What|Who|Whoever|Whom|Whether|That|Which|To whom|Where|Nor is|So is|So it is)\b")
ODD = re.compile(
    r"\b(is told|are told|tells that|of which|a (line|word|row|byte|number|time|page) more|as it stands?|as they stand|is such as|that there is"
    r"|(is|are) none\b|the like|by hand of|stands? (beside|behind|before|above)|so it is|nor (is|does)|has (it|them) so|of its own|comes? twice"
    r"|is given back|wants? (a|the|no)\b)", re.I)
LINK = re.compile(r"\[[^\]]*\]\(([^)\s]+)\)")
NAMED = re.compile(r"`((?:docs|tools|deploy|examples|crates)/[\w./-]+\.(?:md|py|sh|rt|antt|tc|sql|csv|patch|js|html|css))`")
PLACEHOLDER = re.compile(r"NAME|TABLE")  # it stands for a name that the reader chooses


class Counts(NamedTuple):
    """Words of a page, also in tables and in text shown as is; its sentences; and how many things it has of each of KINDS."""
    words: int
    sentences: int
    long: int
    fronted: int
    odd: int
    wide: int

    @property
    def kinds(self) -> tuple[int, ...]:
        """The counts of KINDS."""
        return self[2:]


class Limit(NamedTuple):
    """The words that a page may have; and how many of each of KINDS, if it is to be written anew."""
    pattern: str
    words: int
    kinds: tuple[int, ...]


def pages() -> list[str]:
    """All pages, by their paths from the top."""
    found = [name for name in os.listdir(TOP) if name.endswith(".md")]
    for folder in FOLDERS:
        for place, folders, names in os.walk(f"{TOP}/{folder}"):
            folders[:] = [it for it in folders if it != "out"]
            found += [os.path.relpath(f"{place}/{name}", TOP) for name in names if name.endswith(".md")]
    return sorted(found)


def text_of(page: str) -> str:
    """The text of a page."""
    with open(f"{TOP}/{page}", encoding="utf-8") as file:
        return file.read()


def prose_lines(text: str) -> Iterator[tuple[int, str]]:
    """The lines outside of fences, each with its number."""
    is_shown = False
    for number, line in enumerate(text.splitlines(), 1):
        if line.lstrip().startswith("```"):
            is_shown = not is_shown
        elif not is_shown:
            yield number, line


def sentences_of(text: str) -> list[str]:
    """The sentences of four words or more; headings, tables and indented text have none."""
    lines = [line for _, line in prose_lines(text) if not line.startswith(("#", "|", "    "))]
    prose = re.sub(r"\[([^\]]*)\]\([^)]*\)", r"\1", "\n".join(lines))
    prose = re.sub(r"^ *(- |\d+\. )", "\n", prose, flags=re.M)
    pieces = re.split(r"(?<=[.!?:])\s+(?=[A-Z`*])|\n\s*\n", prose)
    return [" ".join(it.split()) for it in pieces if len(it.split()) > 3]


def is_hard(sentence: str) -> tuple[bool, bool, bool]:
    """Whether a sentence is long, begins with a noun clause, or has an odd turn."""
    return len(sentence.split()) > LONG, bool(FRONTED.match(sentence)), bool(ODD.search(sentence))


def counts_of(text: str) -> Counts:
    """The counts of a page."""
    sentences = sentences_of(text)
    long, fronted, odd = (sum(is_hard(it)[kind] for it in sentences) for kind in range(len(SHARES)))
    wide = sum(len(line) > COLUMNS and not line.startswith("|") for _, line in prose_lines(text))
    return Counts(len(text.split()), len(sentences), long, fronted, odd, wide)


def read_limits() -> list[Limit]:
    """The lines of tools/pages.limits."""
    limits = []
    with open(LIMITS, encoding="utf-8") as file:
        for line in file:
            if line.strip() and not line.startswith("#"):
                pattern, words, *kinds = line.split()
                limits.append(Limit(pattern, int(words), tuple(map(int, kinds))))
    return limits


def limit_of(page: str, limits: list[Limit]) -> Limit | None:
    """The limit of a page: of its line to be written anew, of its own line, or of the first pattern that fits it, in this order."""
    fitting = [it for it in limits if fnmatch.fnmatchcase(page, it.pattern)]
    fitting.sort(key=lambda it: (not it.kinds, it.pattern != page))
    return fitting[0] if fitting else None


def most_of(limit: Limit, sentences: int) -> tuple[int, ...]:
    """How many of each of KINDS a page of so many sentences may have."""
    return limit.kinds or (*(max(1, share * sentences // 100) for share in SHARES), 0)


def count_faults(page: str, counts: Counts, limits: list[Limit]) -> Iterator[str]:
    """The counts of a page that are over its limit."""
    limit = limit_of(page, limits)
    if limit is None:
        yield f"{page}: it has no line in tools/pages.limits"
        return
    if counts.words > limit.words:
        yield f"{page}: {counts.words} words, and it may have {limit.words}"
    for count, most, kind in zip(counts.kinds, most_of(limit, counts.sentences), KINDS):
        if count > most:
            yield f"{page}: {count} {kind}, and it may have {most}"


def anchors_of(text: str) -> set[str]:
    """The anchors of the headings of a page, as they are made from their texts."""
    anchors: dict[str, int] = {}
    found = set()
    for _, line in prose_lines(text):
        if line.startswith("#"):
            name = re.sub(r"[^\w\- ]", "", line.lstrip("#").strip().lower()).replace(" ", "-")
            found.add(f"{name}-{anchors[name]}" if name in anchors else name)
            anchors[name] = anchors.get(name, 0) + 1
    return found


def link_fault(page: str, target: str) -> str | None:
    """What is wrong with a link of a page, if anything is."""
    path, _, anchor = target.partition("#")
    file = os.path.normpath(f"{TOP}/{os.path.dirname(page)}/{path}") if path else f"{TOP}/{page}"
    if not os.path.exists(file):
        return "the file does not exist"
    if not anchor:
        return None
    if not file.endswith(".md"):
        with open(file, encoding="utf-8") as lines:
            count = sum(1 for _ in lines)
        return None if re.fullmatch(r"L\d+", anchor) and 0 < int(anchor[1:]) <= count else "the line does not exist"
    with open(file, encoding="utf-8") as other:
        return None if anchor in anchors_of(other.read()) else "the heading does not exist"


def line_faults(page: str, text: str) -> Iterator[str]:
    """Links to nothing, and files named that do not exist."""
    for number, line in prose_lines(text):
        for target in LINK.findall(re.sub(r"`[^`]*`", "", line)):
            fault = None if re.match(r"[a-z]+:", target) else link_fault(page, target)
            if fault:
                yield f"{page}:{number}: the link to {target}: {fault}"
        for named in NAMED.findall(line):
            if not PLACEHOLDER.search(named) and not os.path.exists(f"{TOP}/{named}"):
                yield f"{page}:{number}: {named} does not exist"


def lowered(line: str, limits: list[Limit]) -> str:
    """A line of a page to be written anew, at today's figures: none if its page is gone or meets the other limits."""
    page, words, *most = line.split()
    if not os.path.exists(f"{TOP}/{page}"):
        return ""
    counts, others = counts_of(text_of(page)), [it for it in limits if not it.kinds]
    if not list(count_faults(page, counts, others)):
        return ""
    other = limit_of(page, others)
    figures = [min(int(words), max(counts.words, other.words if other else 0))]
    figures += [min(int(limit), count) for limit, count in zip(most, counts.kinds)]
    return " ".join(map(str, [page, *figures])) + "\n"


def lower() -> None:
    """Rewrites the limits of pages to be written anew."""
    limits = read_limits()
    with open(LIMITS, encoding="utf-8") as file:
        lines = file.readlines()
    begins = next(at for at, line in enumerate(lines) if line.startswith(ANEW))
    with open(LIMITS, "w", encoding="utf-8") as file:
        file.writelines(lines[:begins])
        file.writelines(line if line.startswith("#") or not line.strip() else lowered(line, limits) for line in lines[begins:])


def print_counts(names: list[str]) -> None:
    """Prints the counts of these pages, and of all together."""
    every = [counts_of(text_of(it)) for it in names]
    for name, it in zip([*names, "all"], [*every, Counts(*map(sum, zip(*every)))]):
        shares = " ".join(f"{100 * count / max(1, it.sentences):5.1f}" for count in it.kinds[:len(SHARES)])
        print(f"{name:36} {it.words:6} words {it.sentences:5} sentences, of 100 {shares}, {it.wide:3} wide lines")


def print_faults() -> int:
    """Prints all faults, and returns how many there are."""
    limits, faults = read_limits(), []
    for page in pages():
        text = text_of(page)
        faults += [*count_faults(page, counts_of(text), limits), *line_faults(page, text)]
    print("".join(f"{it}\n" for it in faults), end="")
    print(f"pages: {len(pages())} looked at, {len(faults)} faults")
    return len(faults)


def main() -> int:
    """Does what the words of the command line ask for."""
    parser = argparse.ArgumentParser(prog="tools/page_check.py", description=__doc__, formatter_class=argparse.RawDescriptionHelpFormatter)
    parser.add_argument("--counts", nargs="*", metavar="PAGE", help="print the counts of these pages, or of all")
    parser.add_argument("--show", metavar="PAGE", help="print the hard sentences of a page")
    parser.add_argument("--lower", action="store_true", help="lower the limits of pages to be written anew")
    asked = parser.parse_args()
    if asked.show:
        print("".join(f"{it}\n" for it in sentences_of(text_of(asked.show)) if any(is_hard(it))), end="")
    elif asked.counts is not None:
        print_counts(asked.counts or pages())
    elif asked.lower:
        lower()
    else:
        return int(print_faults() > 0)
    return 0


if __name__ == "__main__":
    sys.exit(main())
