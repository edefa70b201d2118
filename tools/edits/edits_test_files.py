"""What makes the record of an edit void, by files: of an edit that changes anything but bodies of functions, as one of a constant."""
import os
import shutil
import tempfile
from collections.abc import Iterator

from edit_files import text_of
from edits_test_base import TOOLS, Held, digest, digest_with, edit_text, lay, noted, ran, recorded

EDIT = "wrong_constant"

# Three crates, of which `planted` stands on `low` alone.
THREE = {
    "crates.txt": "low:\nbeside:\nplanted: low\n",
    "crates/planted/wrong/wrong_constant.edit": edit_text("src/lib.rt", "pub const MOST: u8 = 10;", "pub const MOST: u8 = 11;"),
    "crates/planted/src/lib.rt": "//! The crate.\npub const MOST: u8 = 10;\n",
    "crates/planted/src/counters.rt": "pub fn count() {}\n",
    "crates/planted/specs/Twice.antt": "",
    "crates/planted/proofs/twice/Answers.antt": "",
    "crates/planted/src/user.rt": """\
use low::{
    deep::{inner::Inner, Deep},
    named::Thing as Other,
    Shown,
};
ghost use Rattle.low.specs.declared.told.Told.TheVariants as told;
""",
    "crates/planted/proofs/Mine.antt": "use Rattle.low.proofs.Laws.{law}\n",
    "crates/low/src/lib.rt": "//! A lower crate.\n#![tactic(auto)]\npub mod apart;\npub mod named;\nmod shown;\npub use shown::{Aside, Shown};\n",
    "crates/low/src/shown.rt": "pub struct Aside {}\npub struct Shown {}\n",
    "crates/low/src/named.rt": "use super::through::Hidden;\nghost use Rattle.low.specs.deep.Words.{word};\npub struct Thing {}\n",
    "crates/low/src/through.rt": "pub struct Hidden {}\n",
    "crates/low/src/told.rt": "pub enum Told {}\n",
    "crates/low/src/deep.rt": "pub mod inner;\npub mod kin;\n",
    "crates/low/src/deep/inner.rt": "use super::super::under::Under;\n",
    "crates/low/src/under.rt": "pub struct Under {}\n",
    "crates/low/src/deep/kin.rt": "",
    "crates/low/src/more.rt": "use crate::named::Thing;\npub trait Kept {}\nimpl<A: Kept> Thing {}\n",
    "crates/low/src/apart.rt": "use crate::named::Thing;\npub struct Apart {}\nimpl From<Thing> for Apart {}\n",
    "crates/low/specs/deep/Words.antt": "use Rattle.low.specs.Ground.{ground}\n",
    "crates/low/specs/Ground.antt": "use Rattle.low.specs.Answers.{answers}\n",
    "crates/low/specs/Answers.antt": "",
    "crates/low/specs/Apart.antt": "use Rattle.low.specs.declared.apart.Apart.{Apart}\n",
    "crates/low/proofs/Lib.antt": "pub mod Laws\npub mod Apart\n",
    "crates/low/proofs/Laws.antt": "-- see Rattle.low.specs.Apart\nuse Rattle.low.proofs.Base.{base}\n",
    "crates/low/proofs/Base.antt": "",
    "crates/low/proofs/Apart.antt": "",
    "crates/low/proofs/half/Answers.antt": "",
    "crates/beside/src/lib.rt": "//! A crate beside.\n",
}
# What may be added to which file, and whether the edit of `planted` is then to be tried.
CHANGES = {
    "a body": ("crates/planted/src/counters.rt", "\n", True),
    "a definition": ("crates/planted/specs/Twice.antt", "\n", True),
    "a proof": ("crates/planted/proofs/twice/Answers.antt", "\n", True),
    "the edit": ("crates/planted/wrong/wrong_constant.edit", "\n", True),
    "an edit more": ("crates/planted/wrong/one_more.edit", "\n", True),
    "a lower module that code imports": ("crates/low/src/named.rt", "\n", True),
    "one of which the root's face hands out what code imports": ("crates/low/src/shown.rt", "\n", True),
    "one that it imports in a group": ("crates/low/src/deep/inner.rt", "\n", True),
    "one that is imported by its place": ("crates/low/src/under.rt", "\n", True),
    "one that a ghost import names": ("crates/low/src/told.rt", "\n", True),
    "one that another module imports": ("crates/low/src/through.rt", "\n", True),
    "one that has an impl of a type that is imported": ("crates/low/src/more.rt", "\n", True),
    "a lower definition that a module imports": ("crates/low/specs/deep/Words.antt", "\n", True),
    "one that a definition imports": ("crates/low/specs/Ground.antt", "\n", True),
    "one with the name of a proof": ("crates/low/specs/Answers.antt", "\n", True),
    "a lower lemma": ("crates/low/proofs/Laws.antt", "\n", True),
    "one that a lemma imports": ("crates/low/proofs/Base.antt", "\n", True),
    "what a lower root says": ("crates/low/src/lib.rt", "#![feature]\n", True),
    "a lower module that is not imported": ("crates/low/src/apart.rt", "\n", False),
    "a lower definition that is not imported": ("crates/low/specs/Apart.antt", "\n", False),
    "a lower lemma that is not imported": ("crates/low/proofs/Apart.antt", "\n", False),
    "a lower list of modules": ("crates/low/src/lib.rt", "/// A module more.\npub mod more;\n", False),
    "a lower face": ("crates/low/src/lib.rt", "pub use apart::Apart;\n", False),
    "a lower list of lemmas": ("crates/low/proofs/Lib.antt", "pub mod Base\n", False),
    "a lower module more": ("crates/low/src/acts.rt", "pub struct Act {}\n", False),
    "a lower proof": ("crates/low/proofs/half/Answers.antt", "\n", False),
    "a lower edit": ("crates/low/wrong/other.edit", "\n", False),
    "a page": ("crates/planted/README.md", "\n", False),
    "what is built": ("crates/planted/out/kept", "\n", False),
    "a crate beside": ("crates/beside/src/lib.rt", "\n", False),
}
# What `planted`, or a module of `low` that it imports, may say so that all of `low` counts.
UNKNOWN = {
    "no module": {"crates/planted/src/user.rt": "use low::{named::Thing, nowhere};\n"},
    "no definition": {"crates/planted/proofs/Mine.antt": "use Rattle.low.specs.Nowhere.{word}\n"},
    "a crate under another name": {"crates/planted/src/user.rt": "use low as other;\n"},
    "all of a crate": {"crates/planted/src/user.rt": "use low::*;\n"},
    "a group that is not read": {"crates/planted/src/user.rt": "use low::{named::Thing, {nowhere}};\n"},
    "no module, in an edit": {"crates/planted/wrong/wrong_constant.edit": "new: low::nowhere();\n"},
    "a module in a module": {"crates/low/src/named.rt": "mod inside {\n    use super::super::through::Hidden;\n}\n"},
    "no module, in a lower crate": {"crates/low/src/named.rt": "use super::nowhere::Thing;\n"},
}


def is_tried(top: str, tools: str = TOOLS, path: str = "") -> bool:
    """Whether the edit would be tried."""
    return any(it.startswith("try  planted: ") for it in ran(top, "--which", tools=tools, path=path)[1])


def changes() -> Iterator[Held]:
    """What must hold as something changes, of the crate, below it, or of what judges."""
    with tempfile.TemporaryDirectory(prefix="edits-test-") as top:
        lay(top, THREE)
        sum_now = noted(top, EDIT)
        for change, (file, added, is_void) in CHANGES.items():
            was = text_of(f"{top}/{file}") if os.path.exists(f"{top}/{file}") else ""
            found = digest_with(top, EDIT, file, was + added)
            yield f"by files, once it changes: {change}", (found != sum_now) == is_void, found
        yield "by files, once all is as it was", digest(top, EDIT) == sum_now and not is_tried(top), recorded(top)
        yield from unknown(top)
        yield from judges(top)


def unknown(top: str) -> Iterator[Held]:
    """What must hold where an import is not understood."""
    for name, files in UNKNOWN.items():
        before = {it: text_of(f"{top}/{it}") for it in files}
        lay(top, files)
        sum_now = digest(top, EDIT)
        # (nothing else leads to this file)
        found = digest_with(top, EDIT, "crates/low/proofs/Apart.antt", "\n")
        yield f"by files, all counts, by {name}", found != sum_now, found
        found = digest_with(top, EDIT, "crates/low/proofs/half/Answers.antt", "\n")
        yield f"by files, but not what proves one function, by {name}", found == sum_now, found
        lay(top, before)


def judges(top: str) -> Iterator[Held]:
    """What must hold as a crate's dependencies, the toolchain or the rules of judging change."""
    noted(top, EDIT)
    lay(top, {"crates.txt": THREE["crates.txt"].replace("low:", "low: thiserror")})
    yield "once a lower crate stands on more", is_tried(top), recorded(top)
    lay(top, {"crates.txt": THREE["crates.txt"], "bin/rt": "#!/bin/sh\necho another version\n"})
    os.chmod(f"{top}/bin/rt", 0o755)
    yield "once the toolchain changes", is_tried(top, path=f"{top}/bin:"), recorded(top)
    shutil.copytree(TOOLS, f"{top}/rules", ignore=shutil.ignore_patterns("__pycache__"))
    yield "the tool lies elsewhere", not is_tried(top, tools=f"{top}/rules"), recorded(top)
    for rule in ("edit_trial.py", "edit_checks.py", "edit_files.py"):
        lay(f"{top}/rules", {rule: text_of(f"{TOOLS}/{rule}") + "\n"})
        yield f"once a rule of judging changes: {rule}", is_tried(top, tools=f"{top}/rules"), recorded(top)
        lay(f"{top}/rules", {rule: text_of(f"{TOOLS}/{rule}")})
    lay(f"{top}/rules", {"edits.py": text_of(f"{TOOLS}/edits.py") + "\n"})
    yield "what takes arguments judges nothing", not is_tried(top, tools=f"{top}/rules"), recorded(top)
