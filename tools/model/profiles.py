"""The profile of a link, plainly: the sixteen numbers and choices on which both ends agree, and the text that holds them. It asks the program nothing."""
import re
from collections.abc import Callable
from dataclasses import dataclass, replace
from typing import Optional, Union

Value = Union[int, bool, None]

LONGEST_TEXT = 4096
FIRST_EPOCH, LAST_MOMENT = -378_691_200, 4_102_444_799  # 1 January 1958, 31 December 2099
WHOLE = re.compile(r"0|[1-9][0-9]*")


@dataclass(frozen=True)
class Profile:
    """The settings of a link, in the order in which they are printed."""
    scid: int = 1
    tc_vcid: int = 3
    tc_map: Optional[int] = None
    tc_window: int = 20
    tc_fecf: bool = True
    tc_randomizer: bool = False
    tc_idle: int = 0
    tc_correct: bool = False
    tm_length: int = 1115
    tm_vcid: int = 0
    tm_fecf: bool = True
    apid: int = 1
    source: int = 0
    time_epoch: int = 0
    time_fine: int = 0
    rehearsal: bool = True


class BadProfile(Exception):
    """A text is no profile: the first faulty line, 0 for the text as a whole, and the word that says why."""

    def __init__(self, line: int, word: str) -> None:
        """Its line and word."""
        super().__init__(f"{line} {word}")
        self.line, self.word = line, word


def between(least: int, most: int, step: int = 1) -> Callable[[str], Value]:
    """Returns a reader of the numbers from `least` to `most`, in steps."""
    def read(text: str) -> int:
        digits = text[1:] if text.startswith("-") else text
        if not WHOLE.fullmatch(digits) or text == "-0" or not least <= int(text) <= most or (int(text) - least) % step:
            raise ValueError(text)
        return int(text)
    return read


def choice(**values: Value) -> Callable[[str], Value]:
    """Returns a reader of the words that are named here."""
    def read(text: str) -> Value:
        if text not in values:
            raise ValueError(text)
        return values[text]
    return read


def none_or(read: Callable[[str], Value]) -> Callable[[str], Value]:
    """Returns a reader of `none`, or of what another one reads."""
    return lambda text: None if text == "none" else read(text)


YES_OR_NO = choice(yes=True, no=False)
READERS: dict[str, Callable[[str], Value]] = {
    "scid": between(0, 1023),
    "tc.vcid": between(0, 63),
    "tc.map": none_or(between(0, 63)),
    "tc.window": between(2, 254, 2),
    "tc.fecf": YES_OR_NO,
    "tc.randomizer": YES_OR_NO,
    "tc.idle": between(0, 255),
    "tc.correct": YES_OR_NO,
    "tm.length": between(32, 2048),
    "tm.vcid": between(0, 7),
    "tm.fecf": YES_OR_NO,
    "apid": between(1, 2046),
    "source": between(0, 65_535),
    "time.epoch": between(FIRST_EPOCH, LAST_MOMENT),
    "time.fine": between(0, 2, 2),
    "rehearsal": YES_OR_NO,
}


def field_of(key: str) -> str:
    """Returns the field of `Profile` that a key sets."""
    return key.replace(".", "_")


def lines_of(text: bytes) -> list[bytes]:
    """Splits a text into lines. Each ends with LF or CR LF; the last LF may be missing."""
    *ended, last = text.split(b"\n")
    return [it.removesuffix(b"\r") for it in ended] + ([last] if last else [])


def read_line(line: bytes, found: dict[str, Value]) -> None:
    """Reads one line into what was found before it. Raises ValueError with the word if it is faulty."""
    if any(not 0x20 <= octet <= 0x7e for octet in line):
        raise ValueError("BadText")
    words = line.decode("ascii").strip(" ")
    if not words or words.startswith("#"):
        return
    key, equals, value = words.partition("=")
    key = key.rstrip(" ")
    if not equals:
        raise ValueError("BadText")
    if key not in READERS:
        raise ValueError("UnknownKey")
    if key in found:
        raise ValueError("KeyTwice")
    try:
        found[key] = READERS[key](value.lstrip(" "))
    except ValueError:
        raise ValueError("BadValue") from None


def read_profile(text: bytes) -> Profile:
    """Reads a profile; an absent key has its default. Raises BadProfile for the first faulty line."""
    if len(text) > LONGEST_TEXT:
        raise BadProfile(0, "TooLong")
    found: dict[str, Value] = {}
    for number, line in enumerate(lines_of(text), 1):
        try:
            read_line(line, found)
        except ValueError as fault:
            raise BadProfile(number, str(fault)) from None
    profile = replace(Profile(), **{field_of(key): value for key, value in found.items()})
    if profile.tc_correct and not profile.tc_fecf:
        raise BadProfile(0, "Clash")
    return profile


def spelled(value: Value) -> str:
    """Spells a value as a profile's text has it."""
    if value is None:
        return "none"
    return {True: "yes", False: "no"}[value] if isinstance(value, bool) else str(value)


def profile_text(profile: Profile) -> str:
    """Prints a profile: all sixteen keys in their order, each with LF."""
    return "".join(f"{key} = {spelled(getattr(profile, field_of(key)))}\n" for key in READERS)


def profile_of(text: str) -> Profile:
    """Reads a profile from the keys in which it differs from the defaults: `scid = 42; tc.fecf = no`."""
    return read_profile(b"" if text == "defaults" else text.replace(";", "\n").encode())
