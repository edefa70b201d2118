"""Checks of a crate with wrong texts in it, and what they say of each edit."""
import os
import re
import shutil
import subprocess
import tempfile
import time
from collections.abc import Container, Mapping, Sequence
from dataclasses import dataclass
from functools import cached_property

from edit_files import Function, text_of

PARTS = ("src", "specs", "proofs")
# What is said where a proof file names what the edit took away, or cites such a file.
GONE = re.compile(r"has no field|is not in scope|has no `|was not admitted")
# A line that tells why a check is refused.
REASON = re.compile(r"(?:\./)?\S+:\d+:\d+: error\b|note: (?:\./)?\S+:\d+:\d+: it is not proved")
# What is said of a text that reads as no term at all, once the names in it are taken out.
UNREAD = re.compile(r"is not in scope|has no field|is no name|operand is missing|expected the end|cannot continue")


class Kit:
    """Where the toolchain lies."""

    def __init__(self) -> None:
        rt = shutil.which("rt")
        if not rt:
            raise SystemExit("edits: the toolchain's command rt is not on the path")
        self.rt, self.top = rt, os.path.dirname(os.path.dirname(os.path.realpath(rt)))
        self.rattle = f"{self.top}/bin/rattle"

    @cached_property
    def version(self) -> str:
        """What the toolchain calls itself."""
        return subprocess.run([self.rt, "version"], stdout=subprocess.PIPE, text=True, check=True).stdout.strip()


class Crate:
    """A crate as crates.txt has it, and the words that check it as rt does."""

    def __init__(self, name: str, crates: Mapping[str, Sequence[str]], kit: Kit) -> None:
        self.name, self.folder = name, os.path.abspath(f"crates/{name}")
        self.crates, self.kit = crates, kit

    def below(self) -> list[str]:
        """The crates of the repository below this one."""
        found: list[str] = []
        for name in self.crates[self.name]:
            if name in self.crates:
                lower = Crate(name, self.crates, self.kit)
                found += [it for it in [*lower.below(), name] if it not in found]
        return found

    def words(self) -> list[str]:
        kit, top = self.kit, "main" if os.path.isfile(f"{self.folder}/src/main.rt") else "lib"
        made = [kit.rattle, "check", "--crate-name", self.name, f"src/{top}.rt"]
        made += ["--extern", f"std={kit.top}/rlibs/std.rlib", "-L", f"dependency={kit.top}/rlibs"]
        for name in self.crates[self.name]:
            home = f"{os.getcwd()}/crates/{name}/out/rlib" if name in self.crates else f"{kit.top}/rlibs"
            made += ["--extern", f"{name}={home}/{name}.rlib"]
        for name in self.below():
            made += ["-L", f"dependency={os.getcwd()}/crates/{name}/out/rlib"]
        made += ["--antt-project", f"{kit.top}/rattle/logic/antt-project.json"]
        return [*made, "--logic-built", f"{kit.top}/logic_built", "--links", f"{self.name}=", "--jobs", "1"]


@dataclass
class Report:
    """What a check said."""

    status: int
    lines: list[str]
    seconds: float
    processor: float

    @property
    def last(self) -> str:
        return self.lines[-1]

    @property
    def is_proved(self) -> bool:
        return self.status == 0 and self.last.startswith("logic=proved")

    @property
    def is_refused(self) -> bool:
        return self.status == 1 and self.last.startswith("logic=not-proved")

    def proved(self) -> list[str]:
        """The names of the functions that are proved."""
        return [it[1] for it in (re.match(r"fn (\S+): proved", line) for line in self.lines) if it]

    def not_proved(self) -> dict[str, str]:
        """Why each other function is not, by its name."""
        found = (re.match(r"fn (\S+): ((?:not proved|no proof).*)", line) for line in self.lines)
        return {it[1]: it[2] for it in found if it}

    @property
    def misnamed(self) -> str | None:
        """The word of `--only` that names no function, or several."""
        found = re.match(r"rattle: error: .*(?:has no function|functions are named) `([^`]+)`", self.last)
        return found[1] if found else None

    def unread(self, files: Container[str]) -> list[str]:
        """The lines that tell of a text which the prover cannot read, as rt takes them: of these files, src/ or specs/."""
        found: list[str] = []
        for line in self.lines:
            at = re.match(r"(?:\./)?(\S+?):\d+:\d+: error: (?:(`[^`]*`): )?(.*)", line)
            if at and (at[1] in files or at[1].startswith(("src/", "specs/"))):
                if not at[2] or UNREAD.search(re.sub(r"`[^`]*`", "", at[3])):
                    found.append(line)
            if re.search(r"module .Rattle-\w+-.*Run the lower steps again", line):
                found.append(line)
        return found


def check(
    crate: Crate, texts: Mapping[str, str], kept: str | None, only: Sequence[str] = (), logs: str | None = None
) -> Report:
    """Checks a copy of the crate with these texts, from nothing or over what is kept, which stays as it is where `only` names
    functions or texts are given: rattle replaces the files that it keeps, so hard links to them serve a copy."""
    began = time.time()
    with tempfile.TemporaryDirectory(prefix="edits-") as room:
        for part in PARTS:
            if os.path.isdir(f"{crate.folder}/{part}"):
                shutil.copytree(f"{crate.folder}/{part}", f"{room}/{part}")
        for file, text in texts.items():
            with open(f"{room}/{file}", "w", encoding="utf-8") as it:
                it.write(text)
        if texts and kept:
            kept = shutil.copytree(kept, f"{room}/kept", copy_function=os.link)
        words = [*crate.words(), *(["--incremental", kept] if kept else [])]
        for name in only:
            words += ["--only", name]
        ran = subprocess.Popen(
            words, cwd=room, stdin=subprocess.DEVNULL, stdout=subprocess.PIPE, stderr=subprocess.STDOUT, errors="replace"
        )
        assert ran.stdout
        said = ran.stdout.read()
        _, status, used = os.wait4(ran.pid, 0)
        ran.returncode = os.waitstatus_to_exitcode(status)
    if logs:
        handle, _ = tempfile.mkstemp(prefix=f"{crate.name}-", suffix=".log", dir=logs)
        os.write(handle, said.encode())
        os.close(handle)
    lines = said.rstrip("\n").split("\n")
    return Report(ran.returncode, lines, time.time() - began, used.ru_utime + used.ru_stime)


@dataclass(frozen=True)
class Fault:
    """Why a function is not proved, of its own."""

    text: str
    # A goal that the search did not prove; else an answer by hand that does not fit.
    is_searched: bool


def home_of(function: Function, crate: str) -> str:
    """The function's name behind that of the module it stands in."""
    module = function.file.removeprefix("src/").removesuffix(".rt").replace("/", "::")
    return "::".join([crate, *([] if module in ("lib", "main") else [module]), function.name])


def word_of(function: Function, crate: str) -> str:
    """What asks a check for the function: its name, and of what stands in an impl the end of it, since it is named by the
    module of its type."""
    return function.name if "::" in function.name else home_of(function, crate)


def path_of(function: Function, crate: str, names: set[str]) -> str | None:
    """The name by which a check reports the function, or None where that is not plain."""
    own = home_of(function, crate)
    if own in names:
        return own
    ends = [it for it in names if "::" in function.name and it.endswith(f"::{function.name}")]
    return ends[0] if len(ends) == 1 else None


def fault_of(function: Function, path: str, report: Report) -> Fault | None:
    """What a report tells of a fault in a function's own proof or in that of a closure in it, if anything: not what it
    tells of a function that it calls, and not that a proof file names what is gone."""
    closures = f"{path[: -len(function.name)]}fn::{function.name}::"
    own = {it: why for it, why in report.not_proved().items() if it == path or it.startswith(closures)}
    if own:
        for line in report.lines:
            at = re.match(r"note: (?:\./)?(src/\S+?):(\d+):\d+: it is not proved", line)
            if at and function.spans(at[1], int(at[2])):
                return Fault(line, True)
    searched = [why for why in own.values() if "`search` did not prove" in why]
    if searched:
        return Fault(searched[0], True)
    homes = tuple(f"proofs/{it.partition('::')[2].replace('::', '/')}/" for it in own)
    for line in report.lines:
        at = re.match(r"(?:\./)?(proofs/\S+?):\d+:\d+: error: ", line)
        if at and at[1].startswith(homes) and not GONE.search(line):
            return Fault(line, False)
    return None


def told(report: Report) -> tuple[str, bool]:
    """The first line of a whole check that tells why it is refused, and whether that is more than a proof file that
    names what is gone. Other notes, as on how large a proof became, are no reason."""
    lines = [it for it in report.lines if REASON.match(it)]
    lines = lines or [f"fn {name}: {why}" for name, why in report.not_proved().items()]
    is_gone = re.compile(rf"(\./)?proofs/.*(?:{GONE.pattern})")
    first = next((it for it in lines if not is_gone.match(it)), None)
    return (first, True) if first else (lines[0], False) if lines else ("no reason is told", False)


def crates_of(path: str = "crates.txt") -> dict[str, list[str]]:
    """Each crate of crates.txt with what it stands on, as written."""
    rows = [it.partition("#")[0].partition(":") for it in text_of(path).splitlines()]
    return {name.split()[0]: rest.split() for name, _, rest in rows if name.strip()}
