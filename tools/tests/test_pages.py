"""Pages: whether tools/page_check.py finds what is wrong with a page, and finds nothing on the pages of the repository."""
import re
import unittest

import definitions
import page_check
from page_check import Limit, anchors_of, count_faults, counts_of, limit_of, line_faults, sentences_of

LONG = "It " + "goes on " * 15 + "so."
HARD = f"{LONG} What it says is here. It is told a word.\n"  # one of each kind
TEN = "The desk prints a line.\n" * 10
OTHERS = ("HasCleanDisk", "NotEmpty", "answers")  # a definition of the toolchain, a variant, a module


class Tool(unittest.TestCase):
    """The tool, on texts with faults and without."""

    def test_sentences(self) -> None:
        """Sentences end at a full stop, at a paragraph, and at an item; headings, tables and text shown as is have none."""
        text = ("# A heading of many words\n\nThe first one ends. The second one\ngoes on.\n\n- An item of four\n- Too short\n\n"
                "| A row of a table |\n```\nNo sentence of any kind.\n```\n")
        self.assertEqual(["The first one ends.", "The second one goes on.", "An item of four"], sentences_of(text))

    def test_counts(self) -> None:
        """Each kind of hard sentence is counted, and lines over 200 columns outside of tables."""
        self.assertEqual((1, 1, 1, 0), counts_of(HARD).kinds)
        self.assertEqual((0, 0, 0, 1), counts_of("word " * 3 + "w" * 200 + "\n| " + "w" * 300 + " |\n").kinds)

    def test_limits(self) -> None:
        """One hard sentence of each kind is allowed, two of ten are not, nor a word too many, nor a page that no limit fits."""
        limits = [Limit("docs/*", 200, ())]
        self.assertEqual([], list(count_faults("docs/x.md", counts_of(HARD + TEN), limits)))
        self.assertEqual(3, len(list(count_faults("docs/x.md", counts_of(HARD * 2 + TEN), limits))))
        self.assertEqual(1, len(list(count_faults("docs/x.md", counts_of("word\n" * 201), limits))))
        self.assertEqual(1, len(list(count_faults("x.md", counts_of(TEN), limits))))

    def test_pages_anew(self) -> None:
        """A page that is to be written anew has its own numbers, and they come before each other limit."""
        anew = Limit("docs/x.md", 300, (2, 2, 2, 0))
        limits = [Limit("docs/*", 10, ()), Limit("docs/x.md", 20, ()), anew]
        self.assertEqual(anew, limit_of("docs/x.md", limits))
        self.assertEqual([], list(count_faults("docs/x.md", counts_of(HARD * 2), limits)))
        self.assertEqual(3, len(list(count_faults("docs/x.md", counts_of(HARD * 3), limits))))

    def test_links(self) -> None:
        """Links to files, lines and headings that exist are no fault; each other link, and a file that is named and does not exist, is one."""
        right = ("[a](docs/README.md) [b](#the-promise) [c](tools/run.py#L1) [d](docs/README.md#all-pages) [e](https://example.org/x) "
                 "`tools/run.py` `tools/tests/NAME.py`\n")
        self.assertEqual([], list(line_faults("README.md", right)))
        for wrong in ("[a](docs/NONE.md)", "[a](#no-promise)", "[a](tools/run.py#L99999)", "[a](docs/README.md#no-pages)", "`tools/none.py`"):
            self.assertEqual(1, len(list(line_faults("README.md", wrong))), wrong)

    def test_anchors(self) -> None:
        """A heading's anchor has no marks, and a second one of its text has a number."""
        self.assertEqual({"what-run-does", "what-run-does-1"}, anchors_of("# What `run` does\n## What run does?\n"))


class Definitions(unittest.TestCase):
    """tools/definitions.py."""

    def test_names(self) -> None:
        """A definition, a function of a type and a type are found, with their files, comments and clauses."""
        every = {it.name: it for it in definitions.everything()}
        promise, act, carrier = every["KeepsPromise"], every["Desk::act"], every["Carrier"]
        self.assertEqual("crates/tc_desk/specs/Promise.antt", promise.file)
        self.assertTrue(promise.comment[0].startswith("Of a desk at any moment."), promise.comment)
        self.assertIn("pub places", "\n".join(promise.text))
        self.assertIn("ensures stays", "\n".join(act.text))
        self.assertIn("fn lose", "\n".join(carrier.text))

    def test_comments(self) -> None:
        """A comment belongs to the definition right below it; a heading belongs to none."""
        lines = ["-- one", "abbrev pub one : ℕ", "one = 1", "abbrev pub two : ℕ", "two = 2", "",
                 "-- ---- a heading", "pub record Three where", "  pub first : ℕ"]
        found = list(definitions.definitions_in("x", lines))
        self.assertEqual([("one", ["one"]), ("two", []), ("Three", [])], [(it.name, it.comment) for it in found])
        self.assertEqual(["pub record Three where", "  pub first : ℕ"], found[2].text)


class Pages(unittest.TestCase):
    """All pages of the repository."""

    def test_pages(self) -> None:
        """No page has a fault."""
        self.assertEqual(0, page_check.print_faults())

    def test_claims(self) -> None:
        """Each function, type and definition that the pages of docs/proof name stands in a crate."""
        every = {it.name for it in definitions.everything()}
        every |= {name.split("::")[-1] for name in every} | set(OTHERS)
        for page in ("docs/proof/CLAIMS.md", "docs/proof/NOT_PROVED.md"):
            for name in re.findall(r"`((?:\w+::)+\w+|[A-Z][a-z]+[A-Z]\w*)`", page_check.text_of(page)):
                self.assertIn(name.split("::")[-1], every, f"{page} names {name}")
