"""Texts that the test of grounds by items changes: three small crates, what voids the record of an edit of theirs, and what does not."""
from edits_test_base import edit_text

# Three crates, of which `planted` stands on `low` alone.
CRATES = {
    "crates.txt": "low:\nbeside:\nplanted: low\n",
    "crates/low/src/lib.rt": """\
//! A lower crate.
#![tactic(auto)]
pub mod counts;
pub mod faults;
mod shown;
pub use shown::Shown;
""",
    "crates/low/src/counts.rt": """\
//! Counts.
ghost use Rattle.low.specs.Words.{least as smallest};

use crate::kinds::Kind;

/// A count.
#[derive(Clone, Copy)]
pub struct Count {
    pub value: u8,
    kind: Kind,
}

/// Nothing reaches it.
pub enum Apart {
    One,
}

impl Count {
    /// So much more.
    pub fn raised(&self, by: u8) -> Count
        ensures { smallest result.value ≡ by }
    {
        Count { value: self.value + by, kind: self.kind }
    }

    /// Nobody calls it.
    pub fn lowered(&self) -> Count
        ensures { smallest result.value ≡ 0 }
    {
        *self
    }
}

/// As a constant may call it.
pub const fn none() -> u8
    ensures { result ≡ 0 }
{
    0
}

/// Nothing calls it.
pub fn apart() -> u8
    ensures { result ≡ 1 }
{
    1
}
""",
    "crates/low/src/kinds.rt": "pub enum Kind {\n    Small,\n    Large,\n}\n\npub enum Question {\n    Who,\n}\n",
    "crates/low/src/views.rt": """\
use crate::counts::Count;

impl Model for Count {
    ghost use Rattle.low.specs.Sound.{IsSound};

    ghost Value = { Count };

    ghost invariant = { λ c. IsSound c };
}
""",
    "crates/low/src/faults.rt": """\
use std::alloc::AllocError;

pub enum Fault {
    Memory,
}

impl From<AllocError> for Fault {
    ghost from_gives = { λ e f. f ≡ f };

    fn from(error: AllocError) -> Fault
        ensures { result ≡ result }
    {
        Fault::Memory
    }
}
""",
    "crates/low/src/holds.rt": """\
pub trait Holds {
    /// What it holds.
    fn held(&self) -> u8
        ensures { result ≡ 3 };
}
""",
    "crates/low/src/boxes.rt": """\
use crate::counts::Count;
use crate::holds::Holds;

impl Holds for Count {
    fn held(&self) -> u8
        ensures { result ≡ 3 }
    {
        3
    }
}
""",
    "crates/low/src/shown.rt": "pub struct Shown {}\n",
    "crates/low/src/limits.rt": "pub const MOST: u8 = 10;\npub const LEAST: u8 = 1;\n",
    "crates/low/specs/Words.antt": """\
use Rattle.low.specs.Ground as ground
use Rattle.low.specs.Grown.{grown}

-- the least
abbrev pub least : ℕ → ℕ
least 0 = 0
least (suc n) = ground.base n

-- nothing names it
abbrev pub greatest : ℕ → ℕ
greatest n = grown n
""",
    "crates/low/specs/Ground.antt": """\
use Rattle.low.specs.Deep.{deep}

module _ (k : ℕ)
    (l : ℕ) where
  abbrev pub base : ℕ → ℕ
  base n = deep k

  abbrev pub lower : ℕ → ℕ
  lower n = l
""",
    "crates/low/specs/Deep.antt": "pub data Deep : Type 0 where\n  deep : ℕ → Deep\n",
    "crates/low/specs/Grown.antt": "abbrev pub grown : ℕ → ℕ\ngrown n = n\n",
    "crates/low/specs/Sound.antt": "abbrev pub IsSound : ℕ → Type 0\nIsSound n = n ≡ n\n",
    "crates/planted/src/lib.rt": "//! The crate.\n#![tactic(auto)]\nmod acts;\n#[tactic(auto)]\nmod helpers;\n",
    "crates/planted/src/acts.rt": """\
//! Acts.
ghost use Rattle.std.specs.Prelude.{◌≡◌};
ghost use Rattle.low.specs.Words as words;
ghost use Rattle.planted.specs.Pairs.{pair};

use crate::helpers::told as told_of;
use low::Shown;
use low::counts::{self, Count};
use low::faults::Fault;
use low::holds::Holds;

/// How far a step goes.
const STEP: u8 = 2;

pub struct Desk<H: Holds> {
    holder: H,
    shown: Shown,
}

impl<H: Holds> Desk<H> {
    /// Acts.
    #[tactic(auto, using(crate::proofs::OneLine::moves_one))]
    pub fn act(&self, count: Count, by: u8) -> Result<u8, Fault>
        ensures { words.least result ≡ pair by }
    {
        // (a step)
        let more = count.raised(by);
        let told = told_of(more)?;
        let all = [told + STEP, low::limits::MOST, counts::none(), self.holder.held()];
        Ok(all[0] + self.again(by))
    }

    /// Acts once more, below some number.
    fn again(&self, by: u8) -> u8
        ensures { result ≡ by }
    {
        if by > 4 { 0 } else { self.act(Count::new(), by + 1).unwrap_or(by) }
    }

    /// Something else.
    pub fn other(&self) -> u8
        ensures { result ≡ 5 }
    {
        5
    }
}
""",
    "crates/planted/src/helpers.rt": """\
use low::counts::Count;
use std::alloc::AllocError;

pub fn told(count: Count) -> Result<u8, AllocError>
    ensures { result ≡ result }
{
    Ok(count.value)
}
""",
    "crates/planted/specs/Pairs.antt": "abbrev pub pair : ℕ → ℕ\npair n = n\n",
    "crates/planted/proofs/Lib.antt": "mod OneLine\nmod Moved\n",
    "crates/planted/proofs/OneLine.antt": """\
use Rattle.planted.proofs.Moved.{moved}

pub moves_one : (n : ℕ) → n ≡ n
moves_one n = moved n

pub moves_none : (n : ℕ) → n ≡ n
moves_none n = refl
""",
    "crates/planted/proofs/Moved.antt": "pub moved : (n : ℕ) → n ≡ n\nmoved n = refl\n",
    "crates/planted/proofs/acts/Desk/act/Answers.antt": """\
use Rattle.planted.proofs.Cited.{cited}
use Rattle.planted.proofs.acts.Desk.act.Goals as goal

pub returns : goal.returns
returns c = record {
  first = cited c;
}
""",
    "crates/planted/proofs/acts/Desk/again/Answers.antt": "pub returns : ℕ\nreturns = 0\n",
    "crates/planted/proofs/acts/Desk/other/Answers.antt": "pub returns : ℕ\nreturns = 0\n",
    "crates/planted/proofs/Cited.antt": "pub cited : (n : ℕ) → n ≡ n\ncited n = refl\n",
    "crates/planted/wrong/act.edit": edit_text("src/acts.rt", "told + STEP", "told + STEP + 1"),
    "crates/planted/wrong/other.edit": edit_text("src/acts.rt\nfn: Desk::other", "5", "6"),
    "crates/beside/src/lib.rt": "//! A crate beside.\n",
}
LOW, SPECS, ACTS, MINE = "crates/low/src/", "crates/low/specs/", "crates/planted/src/acts.rt", "crates/planted/"
# What takes the place of what, in which file; where that is nothing, it is a file more.
VOID = {
    "its own body": (ACTS, "all[0] +", "all[1] +"),
    "a clause of its own": (ACTS, "words.least result ≡ pair by", "words.least result ≡ pair 0"),
    "its signature": (ACTS, "pub fn act(&self", "fn act(&self"),
    "its attribute": (ACTS, "#[tactic(auto, using(crate::proofs::OneLine::moves_one))]", "#[tactic(auto)]"),
    "the header of its impl": (ACTS, "impl<H: Holds> Desk<H>", "impl<H: Holds + Drop> Desk<H>"),
    "the edit": (MINE + "wrong/act.edit", "told + STEP + 1", "told + STEP + 2"),
    "its own proof": (MINE + "proofs/acts/Desk/act/Answers.antt", "first = cited c;", "first = cited 0;"),
    "a second file that proves it": (MINE + "proofs/acts/Desk/act/Invariants.antt", "", "pub more : ℕ\nmore = 0\n"),
    "the proof of a closure in it": (MINE + "proofs/acts/fn/Desk/act/add/Answers.antt", "", "pub more : ℕ\nmore = 0\n"),
    "a lemma that its proof cites": (MINE + "proofs/Cited.antt", "cited n = refl", "cited m = refl"),
    "a lemma of its attribute": (MINE + "proofs/OneLine.antt", "moves_one n = moved n", "moves_one n = moved 0"),
    "a lemma that this one cites": (MINE + "proofs/Moved.antt", "moved n = refl", "moved m = refl"),
    "the tactics of its crate": (MINE + "src/lib.rt", "#![tactic(auto)]", "#![tactic(none)]"),
    "those of a module of its crate": (MINE + "src/lib.rt", "#[tactic(auto)]\nmod helpers", "#[tactic(none)]\nmod helpers"),
    "a clause of a function that it calls by another name": (MINE + "src/helpers.rt", "result ≡ result", "result ≡ Ok 0"),
    "a clause of a method that it calls": (LOW + "counts.rt", "smallest result.value ≡ by", "smallest result.value ≡ 0"),
    "a trait's clause": (LOW + "holds.rt", "result ≡ 3", "result ≡ 4"),
    "a clause of an impl of that trait": (LOW + "boxes.rt", "result ≡ 3", "result ≡ 4"),
    "an impl of it more": (LOW + "more.rt", "", "use crate::holds::Holds;\nimpl Holds for u8 {\n    fn held(&self) -> u8 {\n        3\n    }\n}\n"),
    "what a const fn that it calls does": (LOW + "counts.rt", "{\n    0\n}", "{\n    1 - 1\n}"),
    "a definition that a clause names by its file": (SPECS + "Words.antt", "ground.base n", "n"),
    "a case of it": (SPECS + "Words.antt", "least 0 = 0", "least 0 = 1"),
    "one that this names by another name of its file": (SPECS + "Ground.antt", "base n = deep k", "base n = deep n"),
    "the header of a block around it": (SPECS + "Ground.antt", "module _ (k : ℕ)", "module _ (k : ℤ)"),
    "a type, by its constructor": (SPECS + "Deep.antt", "pub data Deep", "data Deep"),
    "a definition that is imported": (MINE + "specs/Pairs.antt", "pair n = n", "pair n = 0"),
    "a field of a type": (LOW + "counts.rt", "pub value: u8", "pub value: u16"),
    "the type of a field": (LOW + "kinds.rt", "Small,", "Small,\n    Middle,"),
    "an invariant": (LOW + "views.rt", "λ c. IsSound c", "λ c. IsSound 0"),
    "a ghost view, in another file": (LOW + "views.rt", "ghost Value", "ghost view = { λ c. c };\n\n    ghost Value"),
    "a definition of it": (SPECS + "Sound.antt", "IsSound n = n ≡ n", "IsSound n = n ≡ 0"),
    "what `?` converts by": (LOW + "faults.rt", "{ λ e f. f ≡ f }", "{ λ e f. e ≡ e }"),
    "a clause of that": (LOW + "faults.rt", "ensures { result ≡ result }\n", ""),
    "a conversion more": (LOW + "more.rt", "", "use crate::faults::Fault;\nimpl From<u8> for Fault {\n    fn from(it: u8) -> Fault {\n        Fault::Memory\n    }\n}\n"),
    "a type that the face of a root hands out": (LOW + "shown.rt", "pub struct Shown {}", "pub struct Shown { pub at: u8 }"),
    "a constant of its file": (ACTS, "const STEP: u8 = 2;", "const STEP: u8 = 3;"),
    "a constant whose path stands in it": (LOW + "limits.rt", "MOST: u8 = 10", "MOST: u8 = 11"),
    "where an operator comes from": (ACTS, "Rattle.std.specs.Prelude.{◌≡◌}", "Rattle.std.specs.Other.{◌≡◌}"),
    "where a name comes from": (ACTS, "ghost use Rattle.planted.specs.Pairs.{pair};", "ghost use Rattle.std.specs.Pairs.{pair};"),
    "a name of its file that it had from elsewhere": (ACTS, "/// How far", "fn told_of(count: Count) -> u8 {\n    0\n}\n\n/// How far"),
    "a method of a name that it calls": (LOW + "more.rt", "", "use crate::counts::Count;\nimpl Count {\n    fn held(&self) -> u8 {\n        3\n    }\n}\n"),
    "a body that it calls, and that calls it": (ACTS, "if by > 4", "if by > 3"),
    "the proof of that": (MINE + "proofs/acts/Desk/again/Answers.antt", "returns = 0", "returns = 1"),
    "a body that it calls, and that calls it by now": (MINE + "src/helpers.rt", "Ok(count.value)", "crate::acts::Desk::act(count)"),
    "a macro": (LOW + "more.rt", "", "macro_rules! more {\n    () => {};\n}\n"),
    "a module in a module": (LOW + "more.rt", "", "mod inside {\n    pub fn more() {}\n}\n"),
    "a file of no language": (MINE + "src/page.html", "", "a page"),
    "what a lower root says": (LOW + "lib.rt", "#![tactic(auto)]", "#![tactic(auto)]\n#![feature(more)]"),
}
HOLDS = {
    "a comment": (ACTS, "// (a step)", "// (a large step)"),
    "a comment of a callee": (LOW + "counts.rt", "/// So much more.", "/// Even more."),
    "a comment of a definition": (SPECS + "Words.antt", "-- the least", "-- the very least"),
    "one behind a definition": (SPECS + "Words.antt", "least 0 = 0", "least 0 = 0 -- none"),
    "how its lines are broken": (ACTS, "let more = count.raised(by);", "let more =\n            count.raised(by);"),
    "how those of a callee are": (LOW + "counts.rt", "ensures { smallest result.value ≡ by }", "ensures {\n            smallest result.value\n            ≡ by\n        }"),
    "how those of a proof are": (MINE + "proofs/acts/Desk/act/Answers.antt", "  first = cited c;", "  first =\n    cited c;"),
    "another body of its file": (ACTS, "{\n        5\n", "{\n        2 + 3\n"),
    "another head": (ACTS, "ensures { result ≡ 5 }", "ensures { result ≡ 2 + 3 }"),
    "the body of a callee": (LOW + "counts.rt", "value: self.value + by", "value: by + self.value"),
    "another method": (LOW + "counts.rt", "smallest result.value ≡ 0", "smallest result.value ≡ 1"),
    "a function that nothing calls": (LOW + "counts.rt", "ensures { result ≡ 1 }", "ensures { result ≡ 2 }"),
    "a type that nothing reaches": (LOW + "counts.rt", "    One,", "    One,\n    Two,"),
    "a question more": (LOW + "kinds.rt", "    Who,", "    Who,\n    What,"),
    "a question in a file beside": (LOW + "asks.rt", "", "use crate::kinds::Question;\npub fn asked(it: Question) -> bool {\n    true\n}\n"),
    "a definition that nothing names": (SPECS + "Words.antt", "greatest n = grown n", "greatest n = n"),
    "one that this alone names": (SPECS + "Grown.antt", "grown n = n", "grown n = 0"),
    "one beside it in a block": (SPECS + "Ground.antt", "lower n = l", "lower n = n"),
    "a constant that nothing names": (LOW + "limits.rt", "LEAST: u8 = 1", "LEAST: u8 = 2"),
    "a constant of its file that nothing names": (ACTS, "const STEP", "const MORE: u8 = 3;\n\nconst STEP"),
    "a lemma beside": (MINE + "proofs/OneLine.antt", "moves_none n = refl", "moves_none m = refl"),
    "the proof of another function": (MINE + "proofs/acts/Desk/other/Answers.antt", "returns = 0", "returns = 1"),
    "another edit": (MINE + "wrong/other.edit", "new: 6", "new: 7"),
    "an edit more": (MINE + "wrong/more.edit", "", "file: src/acts.rt\n"),
    "an import that nothing uses": (ACTS, "use low::Shown;", "use low::Shown;\nuse low::limits::LEAST;"),
    "a list of modules": (LOW + "lib.rt", "pub mod faults;", "pub mod faults;\npub mod more;"),
    "a list of lemmas": (MINE + "proofs/Lib.antt", "mod Moved", "mod Moved\nmod Cited"),
    "the tactics of a lower crate": (LOW + "lib.rt", "#![tactic(auto)]", "#![tactic(none)]"),
    "a method that nothing calls": (LOW + "more.rt", "", "use crate::counts::Count;\nimpl Count {\n    fn more(&self) -> u8 {\n        3\n    }\n}\n"),
    "a dependency more": ("crates.txt", "planted: low", "planted: low thiserror"),
    "a lower crate that stands on more": ("crates.txt", "low:", "low: thiserror"),
    "a crate beside": ("crates/beside/src/lib.rt", "//! A", "//! Another"),
    "a page": (MINE + "README.md", "", "a page\n"),
}
# By which import an item of this file of `low`, which nothing else reaches, is reached; or not.
IMPORTS = {
    "all of a module": ("use low::apart::*;", "lone()", True),
    "all of a module, and another name": ("use low::apart::*;", "alone()", False),
    "all of a crate": ("use low::*;", "apart::lone()", True),
    "a group in a group": ("use low::{apart::{lone}, limits};", "lone()", True),
    "another name in a group": ("use low::{limits, apart::lone as other};", "other()", True),
    "a module by its own name": ("use low::apart;", "apart::lone()", True),
    "a module by `self` in a group": ("use low::apart::{self as set};", "set::lone()", True),
    "a crate under another name": ("use low as under;", "under::apart::lone()", True),
    "no module": ("use low::nowhere::lone;", "lone()", True),
    "no item of a module": ("use low::limits::nothing;\nuse low::apart;", "nothing()", False),
    "a path that leads nowhere": ("", "low::nowhere::lone()", True),
}

# A file of each language, to be taken apart.
RUST = """\
#![tactic(auto)]
use a::{b::{self, c as d}, e::*};
mod more;
/// Its shape; with { a brace.
#[derive(Debug)]
pub struct Shape(pub [u8; 4]);
pub(crate) static NAMES: [&str; 2] = ["a // b", "};"];
impl<const N: usize> From<[u8; 4]> for Shape {
    type Of = u8;
    fn from(it: [u8; 4]) -> Shape
        requires { N < 4 }
        ensures same { { let x = it in result ≡ x } }
    {
        fn inner() {}
        Shape(it)
    }
    /// (use this; then that)
    const MOST: u8 = 3;
}
trait Held: Drop {
    ghost kind: { Self → ℕ };
    fn held(&self);
    fn twice(&self) -> u8 { 2 }
}
pub const fn three() -> u8 { 3 }
"""
ANTT = """\
use A.{f as g, ◌+◌}
use A.B
  as h

infixl 10 ◌⊕◌
abbrev pub ◌⊕◌ : ℕ → ℕ → ℕ
(suc a) ⊕ b = a
a ⊕ b = b -- or so

pub data Tree {ℓ} (A : Type ℓ) : Type ℓ where
  leaf : Tree A
  one two : A → Tree A

-- a comment: f = 0
long-name : (codes "-- no comment") ≡ record {
  a = 0;
} → ℕ
unfolding Tree
long-name x = do
  y ← x
  y
  where
    inner : ℕ
    inner = 0

module _ (k : ℕ)
    where
  pub first : ℕ
  first = k

  module _ where
    second : ℕ
    second = 1

pub ruleset rules = (first, long-name)
mutual
  even : ℕ
  even = odd

  odd : ℕ
  odd = even
"""
