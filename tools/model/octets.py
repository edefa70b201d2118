"""The octets of a link over the air, plainly: codes, telecommand and telemetry transfer frames, CLTUs and sync markers. It is written from the public
standards (CCSDS 232.0-B, 231.0-B, 132.0-B, 131.0-B), and asks the program nothing.
"""
from collections.abc import Iterable
from typing import NamedTuple, Optional, Union

from model.profiles import Profile

START, TAIL, MARKER, FILL = bytes.fromhex("eb90"), bytes.fromhex("c5c5c5c5c5c5c579"), bytes.fromhex("1acffc1d"), 0x55
MOST_FRAME, MOST_CODEBLOCKS = 1024, 147


class Refused(Exception):
    """The refusal of octets: the word that says why."""


def bits(octets: bytes) -> list[int]:
    """Returns the bits of octets, the most significant first."""
    return [octet >> place & 1 for octet in octets for place in range(7, -1, -1)]


def remainder(octets: bytes, width: int, generator: int, register: int) -> int:
    """Returns a register of `width` bits after it read the bits of these octets."""
    for bit in bits(octets):
        out = register >> width - 1 ^ bit
        register = register << 1 & (1 << width) - 1
        register ^= generator if out else 0
    return register


def crc(octets: bytes) -> int:
    """Returns the CRC-16 of octets: x^16 + x^12 + x^5 + 1, preset to ones."""
    return remainder(octets, 16, 0x1021, 0xffff)


def closed(octets: bytes, fecf: bool) -> bytes:
    """Returns octets with their CRC-16 after them if `fecf`, else as they are."""
    return octets + crc(octets).to_bytes(2, "big") if fecf else octets


def codeblock(information: bytes) -> bytes:
    """Returns 7 octets with their error control octet: the parity bits turned, and the filler bit 0."""
    return information + bytes([(remainder(information, 7, 0x45, 0) ^ 0x7f) << 1])


def syndrome_of_bit(place: int) -> int:
    """Returns the syndrome of one wrong bit of 63: x^(62 - place) modulo the generator."""
    value = 1
    for _ in range(62 - place):
        value = (value << 1) ^ (0xc5 if value & 0x40 else 0)
    return value


SYNDROMES = {syndrome_of_bit(place): place for place in range(63)}


def information(block: bytes, correct: bool) -> Optional[bytes]:
    """Decodes a codeblock by its syndrome and its filler bit. Returns None if it fails."""
    syndrome = remainder(block[:7], 7, 0x45, 0) ^ 0x7f ^ block[7] >> 1
    filler = block[7] & 1
    if syndrome == 0:
        return block[:7] if correct or not filler else None
    place = SYNDROMES.get(syndrome)
    if not correct or filler or place is None:
        return None
    mended = bytearray(block)
    mended[place // 8] ^= 0x80 >> place % 8
    return bytes(mended[:7])


def sequence(length: int) -> bytes:
    """Returns the first octets of the randomizer's sequence, by its recurrence."""
    made = [1] * 8
    while len(made) < 8 * length:
        n = len(made) - 8
        made.append(sum(made[n + tap] for tap in (6, 4, 3, 2, 1, 0)) % 2)
    return bytes(int("".join(map(str, made[8 * k:8 * k + 8])), 2) for k in range(length))


def randomized(octets: bytes) -> bytes:
    """Xors octets with the sequence; twice gives them back."""
    return bytes(a ^ b for a, b in zip(octets, sequence(len(octets))))


class Ad(NamedTuple):
    """A type-AD frame: N(S), 0 to 255, and a packet."""
    ns: int
    packet: bytes


class Unlock(NamedTuple):
    """The control command Unlock."""


class SetVr(NamedTuple):
    """The control command Set V(R), to 0 to 255."""
    vr: int


Up = Union[Ad, Unlock, SetVr]


def tc_frame(profile: Profile, frame: Up) -> bytes:
    """Writes a telecommand transfer frame."""
    if isinstance(frame, Ad):
        kind, number = 0, frame.ns
        field = (b"" if profile.tc_map is None else bytes([0xc0 + profile.tc_map])) + frame.packet
    else:
        kind, number = 3, 0
        field = b"\0" if isinstance(frame, Unlock) else bytes([0x82, 0, frame.vr])
    length = 5 + len(field) + 2 * profile.tc_fecf
    head = (kind << 12 | profile.scid).to_bytes(2, "big") + (profile.tc_vcid << 10 | length - 1).to_bytes(2, "big") + bytes([number])
    return closed(head + field, profile.tc_fecf)


def read_tc_frame(profile: Profile, octets: bytes) -> Up:
    """Reads a telecommand transfer frame. Raises Refused with the first word that applies."""
    check = 2 * profile.tc_fecf
    if not 6 + check <= len(octets) <= MOST_FRAME or (int.from_bytes(octets[2:4], "big") & 0x3ff) + 1 != len(octets):
        raise Refused("Length")
    if profile.tc_fecf and crc(octets) != 0:
        raise Refused("Check")
    first, second = int.from_bytes(octets[:2], "big"), int.from_bytes(octets[2:4], "big")
    if first & 0xcc00:
        raise Refused("Version")
    if first & 0x3ff != profile.scid:
        raise Refused("Spacecraft")
    if second >> 10 != profile.tc_vcid:
        raise Refused("Channel")
    field, kind, number = octets[5:len(octets) - check], first >> 12 & 3, octets[4]
    if kind not in (0, 3):
        raise Refused("Kind")
    found: Optional[Up] = None
    if kind == 0:
        header = b"" if profile.tc_map is None else bytes([0xc0 + profile.tc_map])
        if field.startswith(header) and len(field) > len(header):
            found = Ad(number, field[len(header):])
    elif number == 0 and field == b"\0":
        found = Unlock()
    elif number == 0 and field[:2] == b"\x82\0" and len(field) == 3:
        found = SetVr(field[2])
    if found is None:
        raise Refused("Content")
    return found


def cltu(frame: bytes, randomizer: bool) -> bytes:
    """Writes a frame as a CLTU."""
    octets = randomized(frame) if randomizer else frame
    octets += bytes([FILL]) * (-len(octets) % 7)
    return START + b"".join(codeblock(octets[at:at + 7]) for at in range(0, len(octets), 7)) + TAIL


def candidates(stream: bytes, correct: bool) -> list[bytes]:
    """Finds the CLTUs of a whole stream that ended. Returns the information of each, in order."""
    found, at = [], 0
    while (begun := stream.find(START, at)) >= 0:
        at, taken, blocks = begun + 2, b"", 0
        while len(stream) - at >= 8:
            read = information(stream[at:at + 8], correct) if blocks < MOST_CODEBLOCKS else None
            if read is None:
                found.append(taken)
                break
            taken, blocks, at = taken + read, blocks + 1, at + 8
        else:
            return found
    return found


class CltuReader:
    """A receiver of CLTUs octet by octet: SEARCH until the start sequence, then DECODE until a block fails."""

    def __init__(self, correct: bool) -> None:
        """It searches, and nothing waits."""
        self.correct, self.waiting = correct, b""
        self.taken: Optional[bytes] = None
        self.blocks = 0

    def take(self, piece: bytes) -> list[bytes]:
        """Returns the candidates that a piece ends."""
        return [found for octet in piece for found in self.octet(octet)]

    def octet(self, octet: int) -> list[bytes]:
        """Takes one octet. A block that fails is searched again from its first octet on, so its octets are taken once more."""
        self.waiting += bytes([octet])
        if self.taken is None:
            if self.waiting == START:
                self.taken, self.blocks, self.waiting = b"", 0, b""
            elif not START.startswith(self.waiting):
                self.waiting = START[:1] if octet == START[0] else b""
            return []
        if len(self.waiting) < 8:
            return []
        block, self.waiting = self.waiting, b""
        read = information(block, self.correct) if self.blocks < MOST_CODEBLOCKS else None
        if read is not None:
            self.taken, self.blocks = self.taken + read, self.blocks + 1
            return []
        ended, self.taken = self.taken, None
        return [ended] + self.take(block)


def sent_up(profile: Profile, frames: Iterable[bytes]) -> bytes:
    """Writes the stream of frames that goes up by TCP: idle octets, then a CLTU, for each."""
    return b"".join(bytes([FILL]) * profile.tc_idle + cltu(it, profile.tc_randomizer) for it in frames)


def frame_in(candidate: bytes, randomizer: bool) -> Optional[bytes]:
    """Takes the frame out of the information of a CLTU: at most 6 octets of fill follow it. Returns None if there is none."""
    octets = randomized(candidate) if randomizer else candidate
    length = (int.from_bytes(octets[2:4], "big") & 0x3ff) + 1 if len(octets) >= 5 else 0
    return octets[:length] if len(octets) >= 5 and length <= len(octets) <= length + 6 else None


class Down(NamedTuple):
    """A telemetry transfer frame: its channel, counts and data field status, its data, and its control word if it has one."""
    vcid: int
    master_count: int
    channel_count: int
    status: int
    data: bytes
    word: Optional[int]


def tm_frame(profile: Profile, frame: Down) -> bytes:
    """Writes a telemetry transfer frame."""
    first = profile.scid << 4 | frame.vcid << 1 | (frame.word is not None)
    head = first.to_bytes(2, "big") + bytes([frame.master_count, frame.channel_count]) + frame.status.to_bytes(2, "big")
    return closed(head + frame.data + (b"" if frame.word is None else frame.word.to_bytes(4, "big")), profile.tm_fecf)


def read_tm_frame(profile: Profile, octets: bytes) -> Down:
    """Reads a telemetry transfer frame. Raises Refused with the first word that applies."""
    if len(octets) != profile.tm_length:
        raise Refused("Length")
    if profile.tm_fecf and crc(octets) != 0:
        raise Refused("Check")
    first = int.from_bytes(octets[:2], "big")
    if first >> 14:
        raise Refused("Version")
    if first >> 4 & 0x3ff != profile.scid:
        raise Refused("Spacecraft")
    body = octets[:len(octets) - 2 * profile.tm_fecf]
    word = int.from_bytes(body[-4:], "big") if first & 1 else None
    return Down(first >> 1 & 7, octets[2], octets[3], int.from_bytes(octets[4:6], "big"), body[6:-4] if first & 1 else body[6:], word)


def our_word(profile: Profile, word: int) -> Optional[int]:
    """Returns a control word if it is a CLCW of our channel, else None."""
    return word if word >> 31 == 0 and word >> 18 & 0x3f == profile.tc_vcid else None


def marked(frames: Iterable[bytes]) -> bytes:
    """Writes frames as a stream: each after its sync marker."""
    return b"".join(MARKER + it for it in frames)


def marked_frames(profile: Profile, stream: bytes) -> list[bytes]:
    """Finds the good frames of a stream after their sync markers."""
    return MarkerReader(profile).take(stream)


class MarkerReader:
    """A reader of frames from a stream that comes in pieces."""

    def __init__(self, profile: Profile) -> None:
        """Nothing waits yet."""
        self.profile, self.waiting = profile, b""

    def take(self, piece: bytes) -> list[bytes]:
        """Returns the frames that a piece completes. A marker and a frame less one octet wait at most."""
        self.waiting += piece
        found: list[bytes] = []
        size = len(MARKER) + self.profile.tm_length
        while (at := self.marker()) >= 0:
            self.waiting = self.waiting[at:]
            if len(self.waiting) < size:
                return found
            octets, used = self.waiting[len(MARKER):size], size
            try:
                read_tm_frame(self.profile, octets)
                found.append(octets)
            except Refused:
                used = 1
            self.waiting = self.waiting[used:]
        self.waiting = self.waiting[max(len(self.waiting) - len(MARKER) + 1, 0):]
        return found

    def marker(self) -> int:
        """Finds the first marker in what waits; -1 if there is none."""
        return self.waiting.find(MARKER)
