#!/usr/bin/env python3
"""page_parts.py [--check]: writes crates/tc_wall/src/fixed.rt, the constants of the page's fixed parts, from the files of crates/tc_wall/page, which a person
edits, and with them the policy that allows the script of the page and no other. With --check it only says whether they agree.
"""
import base64
import hashlib
import os
import sys

TOP = os.path.dirname(os.path.dirname(os.path.realpath(__file__)))
FOLDER, MADE = f"{TOP}/crates/tc_wall/page", f"{TOP}/crates/tc_wall/src/fixed.rt"
WIDE = 100  # the layout breaks a line that is longer
HEAD = "//! The fixed parts of the page. Edit the files of `page/`, and let `tools/page_parts.py` write this one.\n"


class Part:
    """A fixed part: its constant, and what is said of it."""

    def __init__(self, name: str, about: str) -> None:
        self.file, self.about = name, about
        self.constant = name.split(".")[0].replace("-", "_").upper()

    def text(self) -> str:
        """What the file has."""
        with open(f"{FOLDER}/{self.file}", encoding="ascii", newline="") as file:
            text = file.read()
        assert '"##' not in text, f'{self.file}: a fixed part has no "## in it'
        return text

    def rust(self) -> str:
        """The constant."""
        begin, text = f"pub(crate) const {self.constant}: &str =", f'r##"{self.text()}"##;'
        first = text.split("\n", maxsplit=1)[0]
        gap = " " if len(f"{begin} {first}") <= WIDE else "\n    "
        return f"\n/// {self.about}\npub(crate) const {self.constant}: &str ={gap}{text}\n"


def policy() -> str:
    """The policy of the page (Content Security Policy, level 3): one script runs, the one whose text between its tags has this hash. It may ask the desk."""
    with open(f"{FOLDER}/script.js", "rb") as file:
        text = b"\n" + file.read()
    digest = base64.b64encode(hashlib.sha256(text).digest()).decode("ascii")
    return f"default-src 'none'; style-src 'unsafe-inline'; img-src data:; script-src 'sha256-{digest}'; connect-src 'self'"


PARTS = (
    Part("head.html", "The head of the page, up to its style."),
    Part("style.css", "The style."),
    Part("strict.html", "The policy of a page on which no script runs."),
    Part("live.html", "The end of the policy, the page's refresh if no script may run, and the start of its script."),
    Part("script.js", "The script."),
    Part("heading.html", "Where the heading begins."),
    Part("tiles.html", "Where the tiles begin."),
    Part("closed.html", "What the heading says of a file that nobody has open."),
    Part("urgent.html", "Where the table of what is open begins."),
    Part("schedule.html", "Where the on-board schedule begins."),
    Part("ways.html", "Where the ways begin, with their legend."),
    Part("ways-head.html", "Where the table of the ways begins, up to its axis."),
    Part("moves.html", "Where the table of the last moves begins."),
    Part("foot.html", "The foot of the page."))


def made() -> str:
    """What the file of the constants has to have."""
    about = "The policy of an open desk's page: its style and its one script are its own, and it asks its own desk alone."
    said = f'\n/// {about}\npub const POLICY: &str =\n    "{policy()}";\n'
    return HEAD + said + "".join(part.rust() for part in PARTS)


def main() -> int:
    """Writes the file, or says whether it agrees."""
    if sys.argv[1:] == ["--check"]:
        with open(MADE, encoding="ascii") as file:
            agrees = file.read() == made()
        print("the fixed parts agree" if agrees else f"{MADE} is not what {FOLDER} has: run tools/page_parts.py")
        return int(not agrees)
    with open(MADE, "w", encoding="ascii") as file:
        file.write(made())
    return 0


if __name__ == "__main__":
    sys.exit(main())
