"""NOTICE: whether it lists all parts of the toolchain that the program links, with the licences and holders that the part's folder there states."""
import os
import re
import shutil
import sys
import unittest

from tests.asked import TOP

sys.path.insert(0, f"{TOP}/tools/edits")
from edit_checks import Crate, Kit, crates_of  # noqa: E402
from edit_files import text_of  # noqa: E402

# What tells the text of a licence, in this order: the third holds the words of the first, too.
LICENCES = {"UNICODE LICENSE V3": "Unicode-3.0", "Apache License": "Apache-2.0", "associated documentation files": "MIT",
            "Redistribution and use in source and binary forms": "BSD-3-Clause"}
HOLDER = re.compile(r"^\s*Copyright \s*(?:\(c\)|©)\s*(.+?)\s*$", re.M | re.I)
HEAD = "The toolchain states no licence for these parts"


def linked(kit: Kit) -> set[str]:
    """The names of the toolchain's crates that the program stands on, also through others."""
    crates = crates_of(f"{TOP}/crates.txt")
    own = [*Crate("tc_cli", crates, kit).below(), "tc_cli"]
    found: set[str] = set()
    left = {"std", *(it for name in own for it in crates[name] if it not in crates)}
    while left:
        found |= left
        below = {it for name in left for it in re.findall(r"^dep (\S+)$", text_of(f"{kit.top}/rlibs/{name}.rlib/format"), re.M)}
        left = below - found
    return found


def stated(folder: str) -> tuple[set[str], set[str]]:
    """The licences that a folder of the toolchain holds, and the holders of the copyright that they name."""
    texts = [text_of(f"{folder}/{it}") for it in os.listdir(folder) if it.startswith("LICENSE")]
    names = {next(name for words, name in LICENCES.items() if words in " ".join(it.split())) for it in texts}
    return names, {it for text in texts for it in HOLDER.findall(text)}


class Notice(unittest.TestCase):
    """The rows of NOTICE, and its list of parts without a licence."""

    def test_parts(self) -> None:
        """Each part stands once, as its folder states it, and no other part stands there."""
        if not shutil.which("rt"):
            self.skipTest("the parts that the program links, since the toolchain's command rt is not on the path")
        kit = Kit()
        parts = linked(kit)
        with_licence, _, rest = text_of(f"{TOP}/NOTICE").partition(HEAD)
        rows = re.findall(r"^(\w+) {2,}(\S.*?)(?: {2,}(\S.*))?$", with_licence, re.M)
        bare = rest.split("\n\n")[1].split()
        self.assertEqual(sorted(parts), sorted([name for name, _, _ in rows] + bare))
        for name, licence, holders in rows:
            with self.subTest(name):
                self.assertEqual(stated(f"{kit.top}/rattle/{name}"), (set(re.findall(r"[A-Z][\w.-]+", licence)), set(filter(None, holders.split("; ")))))
        for name in bare:
            with self.subTest(name):
                self.assertEqual((set(), set()), stated(f"{kit.top}/rattle/{name}"))
        print(f"notice: {len(rows)} parts with a licence, {len(bare)} without")
