#!/usr/bin/env python3
"""The test of tools/edits/edits.py: a small crate with planted edits, wrong, harmless and unreadable, and what it must say of
each; and what it passes over, by tools/edits.tried: tools/edits/edits_test.py, at any place. The last line is 'N passed, M failed'.

The crate is written here, since `rt ci` refuses a source that no crate of the repository reads.
"""
import re
import tempfile
from collections.abc import Iterator

from edit_checks import Report, told
from edits_test_base import Held, edit_text, lay, ran, recorded
from edits_test_files import changes
from edits_test_items import changes as by_items, repository, taken_apart

CRATE = {
    "src/lib.rt": """\
//! A crate whose wrong bodies are known.
#![tactic(auto)]
ghost use Rattle.std.specs.Prelude.{◌≡◌, ◌+◌, ◌/◌, ◌<◌, ◌==◌, count_by};
ghost use Rattle.planted.specs.Twice.{twice_of};

pub mod counters;

/// The most that a shelf holds.
pub const MOST: u8 = 10;

/// Half of a number.
pub fn half(x: u8) -> u8
    ensures { result ≡ x / 2 }
{
    x / 2
}

/// A quarter of a number.
pub fn quarter(x: u8) -> u8
    ensures { result ≡ x / 2 / 2 }
{
    half(half(x))
}

/// How often a byte stands in a text.
pub fn count(text: &[u8], byte: u8) -> usize
    ensures { result ≡ count_by (λ x. x == byte) text.now }
{
    text.iter().filter(|x| **x == byte).count()
}

/// A number with two added to it.
pub fn two_more(x: u8) -> u8
    requires { x < 100 }
    ensures { result ≡ x + 2 }
{
    let add = |y: u8| -> u8
        requires { y < 200 }
        ensures { result ≡ y + 1 }
    { y + 1 };
    add(add(x))
}

/// How many fit on the shelf.
pub fn most() -> u8
    ensures { result ≡ 10 }
{
    MOST
}

/// Twice a number.
pub fn twice(x: u8) -> u8
    requires { x < 100 }
    ensures { result ≡ twice_of x }
{
    x + x
}

/// Twice the half of a number.
pub fn even(x: u8) -> u8
    requires { x < 100 }
    ensures { result ≡ twice_of (x / 2) }
{
    let lower = half(x);
    lower + lower
}
""",
    "src/counters.rt": """\
//! A counter.
ghost use Rattle.std.specs.Prelude.{◌≡◌, ◌+◌, ◌<◌};

/// Counts, up to 255.
#[derive(Drop)]
pub struct Counter {
    pub value: u8,
}

impl Counter {
    /// Counts one more.
    pub fn raise(&mut self)
        requires { self.old.value < 255 }
        ensures { self.new.value ≡ self.old.value + 1 }
    {
        self.value += 1;
    }

    /// A counter at 0.
    pub const fn new() -> Self
        ensures { result.value ≡ 0 }
    {
        Counter { value: 0 }
    }
}
""",
    "specs/Lib.antt": "pub mod Twice\n",
    "specs/Twice.antt": """\
use Rattle.std.specs.Prelude.{ℕ, ◌+◌}

-- twice a number
unfoldable pub twice_of : ℕ → ℕ
twice_of n = n + n
""",
    "proofs/twice/Answers.antt": """\
use Rattle.std.proofs.Common.{refl}
use Rattle.planted.specs.Twice.{twice_of}
use Rattle.planted.proofs.twice.Goals as goal

pub returns : goal.returns
unfolding twice_of
returns c = refl
""",
    "proofs/even/Answers.antt": """\
use Rattle.std.proofs.Common.{ap, ◌+◌}
use Rattle.planted.specs.Twice.{twice_of}
use Rattle.planted.proofs.even.Goals as goal

pub returns : goal.returns
unfolding twice_of
returns c = ap (λ n. n + n) c.half-lower.ensures
""",
}

REFUSED = r"ok   planted/NAME: refused: "
BY_HAND = r"ok   planted/NAME: refused, at an answer by hand: "
ALONE = r"ok   planted/NAME: refused, tried alone: "
BY_READER = r"ok   planted/NAME: refused, by who names MOST: "
HARMLESS = r"FAIL planted/NAME: NOT REFUSED: "
GONE = r"FAIL planted/NAME: refused only because a proof file names "
UNREAD = r"FAIL planted/NAME: BAD EDIT: the prover cannot read |FAIL planted/NAME: BAD EDIT: it did not reach the prover"
NO_EDIT = r"FAIL planted/NAME: BAD EDIT: "

LIB, COUNTERS = "src/lib.rt", "src/counters.rt"
# Each edit: its file, an old and a new text, and what must be said of it.
PLANTED = {
    # Wrong, each of a function of its own: one of a callee, one in a closure that is a method's argument, one in a
    # closure with clauses, one of an impl, one of a safety that no clause names.
    "wrong_callee": (LIB, "    x / 2\n", "    x / 3\n", REFUSED),
    "wrong_in_a_closure": (LIB, "**x == byte", "**x != byte", REFUSED),
    "wrong_by_a_closures_own_clause": (LIB, "{ y + 1 };", "{ y };", REFUSED),
    "wrong_method": (COUNTERS, "self.value += 1;", "self.value += 2;", REFUSED),
    "wrong_by_hand": (LIB, "    x + x\n", "    x\n", BY_HAND),
    # Wrong, beside another edit of the same function.
    "wrong_again": (LIB, "    x / 2\n", "    x / 2 + 1\n", REFUSED),
    # Wrong, by a text that stands once in the body of the function that is named.
    "wrong_in_a_named_function": (f"{LIB}\nfn: half", "x / 2", "x / 4", REFUSED),
    "wrong_in_a_named_method": (f"{COUNTERS}\nfn: Counter::raise", "value", "value -= 1; self.value", REFUSED),
    # Wrong, and outside the bodies: of a constant, and of a function that a constant can rest on.
    "wrong_constant": (LIB, "pub const MOST: u8 = 10;", "pub const MOST: u8 = 11;", BY_READER),
    "wrong_constant_function": (COUNTERS, "Counter { value: 0 }", "Counter { value: 1 }", ALONE),
    # Harmless, of functions that call a wrong one: one whose proof is found, one with an answer by hand.
    "harmless_beside_a_wrong_callee": (LIB, "    half(half(x))\n", "    let once = half(x); half(once)\n", HARMLESS),
    "harmless_by_hand": (LIB, "    lower + lower\n", "    let same = lower + lower; same\n", HARMLESS),
    # Right code, by which a name goes that a proof file uses.
    "gone": (LIB, "let lower = half(x);", "let lower = x / 2;", GONE),
    # No texts of the language: a brace that is not closed, a name that is none, a type that does not fit.
    "unread_brace": (LIB, "    MOST\n", "    MOST + {\n", UNREAD),
    "unread_name": (LIB, "    lower + lower\n", "    lower + upper\n", UNREAD),
    "unread_type": (COUNTERS, "self.value += 1;", "self.value += true;", UNREAD),
    # No edits.
    "old_is_missing": (LIB, "x / 5", "x / 6", NO_EDIT + r"an 'old:' text is in src/lib.rt 0 times"),
    "old_stands_twice": (LIB, "result ≡ x / 2", "result ≡ x / 3", NO_EDIT + r"an 'old:' text is in src/lib.rt 2 times"),
    "no_such_function": (f"{LIB}\nfn: third", "x / 2", "x / 3", NO_EDIT + "there are 0 functions third in src/lib.rt"),
    "old_stands_outside": (f"{LIB}\nfn: most", "x / 2", "x / 3", NO_EDIT + r"an 'old:' text is in most 0 times"),
    "no_such_file": ("src/none.rt", "x", "y", NO_EDIT + "there is no file src/none.rt"),
    "outside": ("../crates.txt", "planted", "other", NO_EDIT + "a 'file:' line names no file below"),
}


def verdicts() -> Iterator[Held]:
    """What must hold of the planted edits, one by one, and of the tool's last line and status."""
    with tempfile.TemporaryDirectory(prefix="edits-test-") as top:
        lay(top, {"crates.txt": "planted:\n"})
        lay(f"{top}/crates/planted", CRATE)
        lay(f"{top}/crates/planted/wrong", {f"{name}.edit": edit_text(*it[:3]) for name, it in PLANTED.items()})
        lay(top, {"tools/edits.tried": "gone/a.edit 0\nplanted/gone.edit 0 1\nplanted/harmless_by_hand.edit 0\nplanted/wrong_callee.edit 0 1\n"})
        well = [name for name, it in PLANTED.items() if it[3] in (REFUSED, BY_HAND, ALONE, BY_READER)]
        last = f"{len(well)} passed, {len(PLANTED) - len(well)} failed, 0 not tried again"
        for words in (["--record"], ["planted", "--proved"]):
            status, lines = ran(top, *words)
            for name, (_, _, _, wanted) in PLANTED.items():
                said = [it for it in lines if f" planted/{name}.edit: " in it]
                yield f"{name}, {words[-1]}", len(said) == 1 and re.match(wanted.replace("NAME", rf"{name}\.edit"), said[0]), said
            yield f"the last line and the status, {words[-1]}", (status, lines[-1]) == (1, last), lines[-1:]
        names = sorted(f"planted/{it}.edit" for it in well)
        yield "what is refused is recorded, and nothing else", [*recorded(top)] == names, recorded(top)
        yield "the newest digest stands first, with one more", recorded(top)["planted/wrong_callee.edit"][1:] == ["0"], recorded(top)

        # A crate that is not proved shows nothing of its edits.
        lay(f"{top}/crates/planted", {"src/lib.rt": CRATE["src/lib.rt"].replace("half(half(x))", "half(x)")})
        before = recorded(top)
        status, lines = ran(top, "planted")
        last = f"0 passed, {len(PLANTED)} failed, 0 not tried again"
        yield "a crate that is not proved", (status, lines[-1]) == (1, last), lines[-3:]
        yield "nothing is recorded unasked", recorded(top) == before, recorded(top)


def records() -> Iterator[Held]:
    """What must hold of an edit that was refused: it is recorded, and passed over from then on."""
    with tempfile.TemporaryDirectory(prefix="edits-test-") as top:
        lay(top, {"crates.txt": "planted:\n", "tools/edits.tried": ""})
        lay(f"{top}/crates/planted", CRATE)
        lay(f"{top}/crates/planted/wrong", {"wrong_method.edit": edit_text(*PLANTED["wrong_method"][:3])})
        status, lines = ran(top, "--record")
        yield "one is tried while there is no line", (status, lines[-1]) == (0, "1 passed, 0 failed, 0 not tried again"), lines[-3:]
        name, digests = next(iter(recorded(top).items()), ("", [""]))
        yield "it is recorded", name == "planted/wrong_method.edit" and len(digests) == 1 and re.fullmatch("[0-9a-f]{32}", digests[0]), recorded(top)
        status, lines = ran(top)
        yield "then it is passed over", (status, lines[-1]) == (0, "0 passed, 0 failed, 1 not tried again"), lines[-3:]
        yield "and told so", lines[0].startswith("same planted: 1 edits, not tried again"), lines[:1]
        for words in (["--all"], ["planted"], ["planted/wrong_method.edit"]):
            _, lines = ran(top, "--which", "--edits", *words)
            yield f"unless by {words[0]}", lines == ["try  planted: 1 of 1 edits", f"     {name} {digests[0]}"], lines
        for word in ("other", "planted/other.edit", "planted/"):
            status, lines = ran(top, "--which", word)
            yield f"there is no {word}", status == 1 and lines[0].startswith("edits: "), lines
        lay(top, {"tools/edits.tried": f"{name} 0\n"})
        yield "another digest counts for nothing", ran(top, "--which")[1] == ["try  planted: 1 of 1 edits"], recorded(top)
        lay(top, {"tools/edits.tried": f"{name} 0 {digests[0]}\n"})
        yield "a second one counts too", ran(top, "--which")[1][0].startswith("same planted: 1 edits"), recorded(top)
        yield from one_more(top, name, digests[0])


def one_more(top: str, name: str, digest: str) -> Iterator[Held]:
    """What must hold as an edit is added: it alone is tried, whatever becomes of it."""
    other = "planted/wrong_callee.edit"
    lay(f"{top}/crates/planted/wrong", {"wrong_callee.edit": edit_text(*PLANTED["wrong_callee"][:3])})
    status, lines = ran(top, "--record")
    yield "an edit more is tried alone", (status, lines[-1]) == (0, "1 passed, 0 failed, 1 not tried again"), lines
    yield "and that is told", lines[0].startswith("same planted: 1 of 2 edits, not tried again"), lines
    yield "it is recorded beside the other", [*recorded(top)] == [other, name] and recorded(top)[name] == ["0", digest], recorded(top)


def reasons() -> Iterator[Held]:
    """What must hold of the line that tells why a whole check is refused."""
    note = "note: src/lib.rt:3:1: its proof took a large solution"
    gone = "./proofs/half/Answers.antt:5:1: error: `c.args` has no field `x`"
    goal = "note: src/lib.rt:7:5: it is not proved that the sum fits"
    other = "fn planted::half: not proved; `search` did not prove a goal of it"
    for name, lines, wanted in (
        ("a goal, behind a note", [note, goal, other], (goal, True)),
        ("a proof file that names what is gone, behind a note", [note, gone, other], (gone, False)),
        ("a goal, behind such a file", [gone, goal], (goal, True)),
        ("a function, where no place is told", [note, other], (other, True)),
        ("a note alone", [note], ("no reason is told", False)),
    ):
        said = told(Report(1, [*lines, "logic=not-proved"], 0, 0))
        yield f"the reason: {name}", said == wanted, list(map(str, said))


def main() -> int:
    passed = failed = 0
    for name, is_well, said in [*reasons(), *verdicts(), *records(), *changes(), *taken_apart(), *by_items(), *repository()]:
        passed, failed = passed + bool(is_well), failed + (not is_well)
        if not is_well:
            print(f"edits_test: {name}: it said {said}", flush=True)
    print(f"{passed} passed, {failed} failed")
    return 1 if failed else 0


if __name__ == "__main__":
    raise SystemExit(main())
