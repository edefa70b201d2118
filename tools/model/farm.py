"""FARM-1 and the control word as their tables have them: what a spacecraft does with each frame of the uplink, and what it
reports. It is written from the requirements, and asks the program nothing.
"""
from collections import Counter
from typing import Mapping, NamedTuple, Optional

from model.facts import CHANNEL

OPEN, WAIT, LOCKOUT = "Open", "Wait", "Lockout"
STATES = (OPEN, WAIT, LOCKOUT)
ACCEPTABLE, UNLOCK, SET_VR = "AD", "unlock", "set V(R)"

# What is done with a frame of type AD: by its case, in Open, in Wait and in Lockout.
FRAMES = {
    "next, buffer free": ("accept", "discard", "discard"),
    "next, no buffer":   ("discard, Retransmit 1, Wait 1, to Wait", "discard", "discard"),
    "ahead":             ("discard, Retransmit 1", "discard", "discard"),
    "behind":            ("discard", "discard", "discard"),
    "outside":           ("discard, Lockout 1, to Lockout", "discard, Lockout 1, to Lockout", "discard"),
}
# The same of the control frames, and of a buffer that is free again.
CONTROLS = {
    UNLOCK:     ("B + 1, Lockout 0, Wait 0, Retransmit 0, to Open",) * 3,
    SET_VR:     ("B + 1, Retransmit 0, Wait 0, V(R) = v, to Open", "B + 1, Retransmit 0, Wait 0, V(R) = v, to Open", "B + 1"),
    "release":  ("Wait 0", "Wait 0, to Open", "Wait 0"),
}
# A buffer is never free in Wait: what frees it is told at once.
NEVER = {("next, buffer free", WAIT)}
CELLS = [(case, state) for table in (FRAMES, CONTROLS) for case in table for state in STATES if (case, state) not in NEVER]

# The control word: what of it has to be so, and where the channel, the flags, FARM-B and V(R) stand.
TYPE, VERSION, COP, COP_IN_EFFECT, CHANNEL_MASK, CHANNEL_SHIFT = 0x80000000, 0x60000000, 0x03000000, 0x01000000, 0x00fc0000, 18
FLAG_BITS = {"Lockout": 0x2000, "Wait": 0x1000, "Retransmit": 0x0800}
FARM_B_SHIFT, REPORT_VALUE = 9, 0xff


class Frame(NamedTuple):
    """What flies on the uplink: a frame of type AD with its number and its request, or a control frame, whose number is its V(R)."""
    kind: str
    number: int = 0
    request: int = 0


class Word(NamedTuple):
    """A control word on the downlink."""
    value: int


class Reading(NamedTuple):
    """What a valid control word tells."""
    is_lockout: bool
    is_wait: bool
    is_retransmit: bool
    report: int


def distance(number: int, behind: int) -> int:
    """How far a number is ahead of another, modulo 256."""
    return (number - behind) % 256


def read_word(word: int, channel: int) -> Optional[Reading]:
    """What a control word tells; none where it is invalid."""
    if word & TYPE or word & VERSION or word & COP != COP_IN_EFFECT or (word & CHANNEL_MASK) >> CHANNEL_SHIFT != channel:
        return None
    lockout, wait, retransmit = (word & bit != 0 for bit in FLAG_BITS.values())
    return Reading(lockout, wait, retransmit, word & REPORT_VALUE)


class Farm:
    """FARM-1 with its window, on its channel; `visits` counts the cells that were met."""

    def __init__(self, window: int, channel: int = CHANNEL) -> None:
        """Open, all counters 0."""
        self.window, self.channel, self.state, self.vr, self.b = window, channel, OPEN, 0, 0
        self.flags = dict.fromkeys(FLAG_BITS, False)
        self.visits: Counter[tuple[str, str]] = Counter()

    def case_of(self, number: int, has_room: bool) -> str:
        """The case of a frame of type AD."""
        d, half = distance(number, self.vr), self.window // 2
        if d == 0:
            return "next, buffer free" if has_room else "next, no buffer"
        if 1 <= d <= half - 1:
            return "ahead"
        return "behind" if 256 - half <= d <= 255 else "outside"

    def does(self, table: Mapping[str, tuple[str, ...]], case: str, value: int = 0) -> bool:
        """What a cell says is done. Answers whether a frame was accepted."""
        self.visits[case, self.state] += 1
        is_accepted = False
        for words in table[case][STATES.index(self.state)].split(", "):
            name, _, number = words.rpartition(" ")
            if words == "accept":
                is_accepted, self.vr, self.flags["Retransmit"] = True, (self.vr + 1) % 256, False
            elif words == "B + 1":
                self.b = (self.b + 1) % 4
            elif words == "V(R) = v":
                self.vr = value
            elif name == "to":
                self.state = number
            elif name:
                self.flags[name] = number == "1"
            else:
                assert words == "discard", words
        return is_accepted

    def frame(self, number: int, has_room: bool) -> bool:
        """A frame of type AD. Answers whether it was accepted."""
        return self.does(FRAMES, self.case_of(number, has_room))

    def control(self, frame: Frame) -> None:
        """A control frame."""
        self.does(CONTROLS, frame.kind, frame.number)

    def release(self) -> None:
        """A buffer is free."""
        self.does(CONTROLS, "release")

    def word(self) -> Word:
        """The control word."""
        flags = sum(bit for name, bit in FLAG_BITS.items() if self.flags[name])
        return Word(COP_IN_EFFECT + (self.channel << CHANNEL_SHIFT) + flags + (self.b << FARM_B_SHIFT) + self.vr)

    def line(self) -> str:
        """How it stands, as it is printed."""
        flags = "".join(name[0] if is_set else "-" for name, is_set in self.flags.items())
        return f"farm {self.state} vr {self.vr} b {self.b} flags {flags} w {self.window}"
