#!/usr/bin/env python3
"""Whether the pages of docs/extend/ are true: tools/extend_check.sh [NAME ..] [--crate CRATE] [--unproved]

Each patch of tools/extend/ is a small change of its kind: an act on the book, a question, a table. It is applied to a copy of
crates/. It may touch those files alone that docs/extend/NAME.md lists, or a page that its line `also: PAGE ..` names. And what it
makes has to be proved: the functions that its lines `prove: CRATE FUNCTION ..` name, with all that they call.

A patch changes a low crate, so no library above it can be used as it is: all crates are given as sources. But a library holds the
modules that the check of its crate proved (kept_modules.py), and the prover takes those of them that the patch does not reach. So
the libraries should be built: crates/*/out/rlib, by `rt lib` in the folder of each crate, or in one folder (--built). Those of `rt ci` do
not serve. Of a crate that has none all that these functions call is proved anew.

For each line `prove:` there is a line with what it cost, and for each patch one with the files that its pages list and it leaves as
they are. The last line is `N passed, M failed`, and the status is 1 where one failed.

One crate of one patch is tried by `act --crate tc_book`. With --unproved nothing is proved, and that takes seconds: what a patch makes
has to be taken by all of the compiler but the prover.
"""
import argparse
import os
import re
import shutil
import subprocess
import sys
import tempfile
import time
from collections.abc import Iterator, Sequence
from contextlib import contextmanager

TOP = os.path.dirname(os.path.dirname(os.path.dirname(os.path.realpath(__file__))))
HOME = f"{TOP}/tools/extend"
sys.path.insert(0, f"{TOP}/tools/edits")
from edit_checks import Crate, Kit, crates_of  # noqa: E402
from edit_files import text_of  # noqa: E402
from kept_modules import unpack  # noqa: E402

# What a file's name on a page may have in the place of a name that the change chooses.
ANY_NAME = re.compile(r"NAME|TABLE|GROUP")
# The prover's word for no function: a crate is read, and nothing of it is proved.
UNPROVED = [""]


def listed(page: str) -> dict[str, str]:
    """The files of crates/ that a page lists, and a pattern for each: a folder stands for what is in it."""
    rows = [it for it in text_of(f"{TOP}/docs/extend/{page}.md").splitlines() if it.startswith(("- ", "  "))]
    found = [it for row in rows for it in re.findall(r"`(crates/[^`]+)`", row)]
    return {it: ANY_NAME.sub(r"\\w+", re.escape(it)) + (r"[\w/]+\.\w+" if it.endswith("/") else "") for it in found}


class Patch:
    """A small change of its kind: what it touches, what its pages list, and what has to be proved."""

    def __init__(self, name: str) -> None:
        self.name, self.path = name, f"{HOME}/{name}.patch"
        text = text_of(self.path)
        self.touched = sorted({*re.findall(r"^\+\+\+ b/(crates/\S+)", text, re.M)})
        self.asked = [row.split() for row in re.findall(r"^prove: (.*)", text, re.M)]
        pages = [name, *(it for row in re.findall(r"^also: (.*)", text, re.M) for it in row.split())]
        self.listed = {it: pattern for page in pages for it, pattern in listed(page).items()}

    def strays(self) -> list[str]:
        """The files that it touches and no page lists."""
        return [it for it in self.touched if not any(re.fullmatch(of, it) for of in self.listed.values())]

    def left(self) -> list[str]:
        """The files that its pages list and it leaves as they are."""
        return [it for it, of in self.listed.items() if not any(re.fullmatch(of, file) for file in self.touched)]

    @contextmanager
    def applied(self) -> Iterator[str]:
        """A folder with a copy of crates/ to which it is applied."""
        with tempfile.TemporaryDirectory(prefix="extend-") as room:
            shutil.copytree(f"{TOP}/crates", f"{room}/crates", ignore=shutil.ignore_patterns("out"))
            shutil.copy(f"{TOP}/crates.txt", f"{room}/crates.txt")
            ran = subprocess.run(["git", "apply", self.path], cwd=room, stdout=subprocess.PIPE, stderr=subprocess.STDOUT, text=True)
            if ran.returncode:
                raise Untrue(f"the patch does not apply: {ran.stdout.strip()}")
            yield room


class Untrue(Exception):
    """Why a page is not true."""


class Prover:
    """Proves functions of crates over sources, and what it proves serves the next."""

    def __init__(self, given: argparse.Namespace, kept: str) -> None:
        self.kit, self.built, self.kept, self.jobs = Kit(), given.built, kept, given.jobs
        self.unpacked: set[str] = set()

    def library(self, name: str) -> str:
        """Where the library of a crate lies, if it is built."""
        return f"{self.built}/{name}.rlib" if self.built else f"{TOP}/crates/{name}/out/rlib/{name}.rlib"

    def prepare(self, names: Sequence[str]) -> None:
        """Has the modules at hand that the libraries of these crates hold."""
        for name in names:
            if name not in self.unpacked and os.path.isdir(self.library(name)):
                if not unpack(self.library(name), self.kept):
                    print(f"     {name}: its library holds statements alone, as `rt ci` makes it, so it serves for nothing", flush=True)
                self.unpacked.add(name)

    def words(self, crate: Crate, functions: Sequence[str]) -> list[str]:
        """The words of a check of these functions, over the crates below as sources; of no function, by the empty name."""
        kit, below, known = self.kit, crate.below(), crate.crates
        of_kit = {it for name in [crate.name, *below] for it in known[name] if it not in known}
        made = [kit.rattle, "check", "--crate-name", crate.name, "src/lib.rt", "-L", f"dependency={kit.top}/rlibs"]
        for name in sorted({"std", *of_kit}):
            made += ["--extern", f"{name}={kit.top}/rlibs/{name}.rlib"]
        for name in below:
            made += ["--lib", f"{name}:{','.join(['std', *known[name]])}=../{name}/src/lib.rt"]
        made += ["--antt-project", f"{kit.top}/rattle/logic/antt-project.json", "--logic-built", f"{kit.top}/logic_built"]
        made += ["--links", f"{crate.name}=", "--incremental", self.kept, "--jobs", str(self.jobs)]
        return [*made, *(word for name in functions for word in ("--only", name))]

    def prove(self, crate: Crate, functions: Sequence[str]) -> None:
        """Proves these functions, and says what it cost."""
        if functions != UNPROVED:
            self.prepare([crate.name, *crate.below()])
        began = time.time()
        ran = subprocess.Popen(self.words(crate, functions), cwd=crate.folder, stdout=subprocess.PIPE, stderr=subprocess.STDOUT, text=True)
        assert ran.stdout
        lines = ran.stdout.read().splitlines() or ["nothing was said"]
        _, status, used = os.wait4(ran.pid, 0)
        ran.returncode = os.waitstatus_to_exitcode(status)
        if ran.returncode:
            faults = [it for it in lines if re.match(r"fn \S+: (?!proved|assumed)", it) or ": error" in it]
            raise Untrue(f"{crate.name}: {(faults or lines[-1:])[0]}")
        counts = [it for line in lines for it in re.findall(r"^(?:crate|library) .*checked=(\d+)", line)]
        minutes, processor = (time.time() - began) / 60, (used.ru_utime + used.ru_stime) / 60
        count = sum(bool(re.match(r"fn \S+: proved", it)) for it in lines)
        print(
            f"     {crate.name}: {count} functions, {sum(map(int, counts))} modules proved anew,"
            f" {minutes:.1f} minutes, of processors {processor:.1f}, {used.ru_maxrss // 1024} MB",
            flush=True,
        )


def try_patch(patch: Patch, given: argparse.Namespace) -> str:
    """In which crates what this patch makes was proved. Raises Untrue where its page is not true."""
    if strays := patch.strays():
        raise Untrue(f"no page lists {', '.join(strays)}")
    asked = [it for it in patch.asked if it[0] == (given.crate or it[0])]
    if not asked:
        raise Untrue(f"it has no line for {given.crate}")
    with patch.applied() as room, tempfile.TemporaryDirectory(prefix="extend-kept-") as own:
        os.chdir(room)
        prover, crates = Prover(given, given.kept or own), crates_of()
        for name, *functions in asked:
            prover.prove(Crate(name, crates, prover.kit), UNPROVED if given.unproved else functions)
    return f"{'read' if given.unproved else 'proved'} in {', '.join(name for name, *_ in asked)}"


def whole(path: str) -> str:
    """A path from the root, since checks run elsewhere."""
    return os.path.abspath(path)


def asked(patches: Sequence[str]) -> argparse.Namespace:
    to = argparse.ArgumentParser(description=__doc__, formatter_class=argparse.RawDescriptionHelpFormatter)
    to.add_argument("--built", metavar="FOLDER", type=whole, help="where the libraries lie, as FOLDER/CRATE.rlib (crates/CRATE/out/rlib)")
    to.add_argument("--kept", metavar="FOLDER", type=whole, help="a folder for what is proved, which serves a later run (none)")
    to.add_argument("--jobs", type=int, default=1, help="how many functions the prover takes at once (1)")
    to.add_argument("--crate", metavar="CRATE", help="the line `prove:` of this crate alone (each)")
    to.add_argument("--unproved", action="store_true", help="whether a patch applies, touches what its pages list, and is taken by the compiler; nothing is proved")
    to.add_argument("names", nargs="*", metavar="NAME", help=f"of {', '.join(patches)} (all)")
    given = to.parse_args()
    if unknown := [it for it in given.names if it not in patches]:
        to.error(f"there is no patch {unknown[0]}")
    return given


def main() -> int:
    patches = sorted(it.removesuffix(".patch") for it in os.listdir(HOME) if it.endswith(".patch"))
    given, failed = asked(patches), 0
    names = given.names or patches
    for name in names:
        patch = Patch(name)
        try:
            done = try_patch(patch, given)
        except Untrue as why:
            failed += 1
            print(f"FAIL {name}: {why}", flush=True)
        else:
            left = ", ".join(patch.left()) or "none"
            print(f"ok   {name}: {len(patch.touched)} files of crates/, {done}; left as they are: {left}", flush=True)
    print(f"{len(names) - failed} passed, {failed} failed")
    return 1 if failed else 0


if __name__ == "__main__":
    raise SystemExit(main())
