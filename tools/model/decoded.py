"""What octets of a link mean, plainly: the lines that `tcdesk octets` prints, field by field, or what is wrong and where. It is written from the public
standards (CCSDS 232.0-B, 231.0-B, 132.0-B) over the plain octets, and asks the program nothing.
"""
from collections.abc import Callable, Iterator
from typing import NamedTuple

from model.carriers import IDLE_DATA, NO_START
from model.decoded_packets import packet_lines, telecommand_lines
from model.decoded_rows import (Item, Part, Row, at_least, between, error_control, exactly, field, flag, given, heading, lines_of, octets_word, refused, sequence_word,
                                value_of, word_of)
from model.octets import MOST_CODEBLOCKS, MOST_FRAME, START, TAIL, frame_in, information, randomized, read_tc_frame, read_tm_frame
from model.packets import whole_length
from model.profiles import Profile

LAYERS = ("frame", "cltu", "packet", "tm")
MOST_OCTETS, MOST_CHARACTERS = 65_542, 262_168


# ---- telecommand transfer frames

def frame_lines(profile: Profile, part: Part) -> list[str]:
    """Returns the lines of a telecommand transfer frame."""
    word = word_of(lambda: read_tc_frame(profile, part.octets))
    return lines_of(frame_items(profile, part, word), word)


def frame_items(profile: Profile, part: Part, word: str) -> Iterator[Item]:
    """Returns the lines of a frame that is taken, or refused with a word."""
    octets, number = part.octets, len(part.octets)
    whole = heading(part, 0, "transfer frame", number)
    yield whole._replace(word="Length", must=between(6 + 2 * profile.tc_fecf, MOST_FRAME, octets_word)(number))
    yield field(part, "version", 0, 2, word="Version", must=exactly(0))
    bypass, control = value_of(octets, 2, 1), value_of(octets, 3, 1)
    yield field(part, "bypass flag", 2, 1, flag)
    yield field(part, "control command flag", 3, 1, flag, "Kind", exactly(bypass, flag))
    yield field(part, "spare", 4, 2, word="Version", must=exactly(0))
    yield field(part, "spacecraft id", 6, 10, word="Spacecraft", must=exactly(profile.scid))
    yield field(part, "virtual channel", 16, 6, word="Channel", must=exactly(profile.tc_vcid))
    yield field(part, "frame length", 22, 10, word="Length", must=lambda value: "" if value + 1 == number else given(number))
    yield field(part, "frame sequence number", 32, 8, word="Content", must=exactly(0) if control else lambda value: "")
    yield from command_items(profile, part) if control else data_items(profile, part, word)
    if profile.tc_fecf:
        yield error_control(part, "frame error control")
    yield from refused(word, whole)


def data_items(profile: Profile, part: Part, word: str) -> Iterator[Item]:
    """Returns the lines of the data field of a frame that brings a packet."""
    begin = 5
    if profile.tc_map is not None:
        yield field(part, "segment sequence flags", 40, 2, sequence_word, "Content", exactly(3, sequence_word))
        yield field(part, "MAP", 42, 6, word="Content", must=exactly(profile.tc_map))
        begin = 6
    length = len(part.octets) - begin - 2 * profile.tc_fecf
    if word:
        yield heading(part, begin, "packet", length, "Content", at_least(length, 1))
    else:
        yield telecommand_lines(profile, part.from_octet(begin, length))


def command_word(value: int) -> str:
    """Shows the first octet of a control command."""
    return {0: "Unlock", 0x82: "Set V(R)"}.get(value, f"0x{value:02x}")


def command_items(profile: Profile, part: Part) -> Iterator[Item]:
    """Returns the lines of the data field of a frame that brings a control command."""
    data = part.octets[5:len(part.octets) - 2 * profile.tc_fecf]
    fits = data == b"\0" or data[:2] == b"\x82\0" and len(data) == 3
    yield field(part, "control command", 40, 8, command_word, "Content", lambda value: "" if fits else "must be Unlock (00) or Set V(R) (82 00 V)")
    if len(data) == 3 and data[0] == 0x82:
        yield field(part, "V(R)", 56, 8)


# ---- CLTUs

def cltu_lines(profile: Profile, part: Part) -> list[str]:
    """Returns the lines of each CLTU that ends in octets, in order."""
    found: list[str] = []
    stream, at = part.octets, 0
    while (begun := stream.find(START, at)) >= 0:
        taken, at = b"", begun + 2
        while len(stream) - at >= 8:
            read = information(stream[at:at + 8], profile.tc_correct) if len(taken) < 7 * MOST_CODEBLOCKS else None
            if read is None:
                found += one_cltu(profile, part, begun, taken, stream[at:at + 8])
                break
            taken, at = taken + read, at + 8
        else:
            break
    return found or [f"octet 1, octets: {octets_word(len(stream))}, but no CLTU ends in them"]


def one_cltu(profile: Profile, part: Part, begun: int, taken: bytes, ended: bytes) -> list[str]:
    """Returns the lines of a CLTU that begins at an index: its parts, and the frame in its information."""
    blocks = len(taken) // 7
    last = "tail sequence" if ended == TAIL else "block that ends it"
    outer = [Row(part.place(begun), "start sequence", "0xeb90"), Row(part.place(begun + 2), "codeblocks", str(blocks)),
             heading(part, begun + 2 + 8 * blocks, last, 8)]
    inner = Part(randomized(taken) if profile.tc_randomizer else taken, lambda index: part.place(begun + 2 + index // 7 * 8 + index % 7))
    frame = frame_in(taken, profile.tc_randomizer)
    if frame is not None:
        return lines_of(iter(outer), "") + frame_lines(profile, inner.from_octet(0, len(frame)))
    return lines_of(iter(outer), "") + lines_of(no_frame(inner), "Length")


def no_frame(part: Part) -> Iterator[Item]:
    """Returns the lines of information in which no frame stands."""
    number = len(part.octets)
    yield heading(part, 0, "transfer frame", number, "Length", at_least(number, 5))
    yield field(part, "frame length", 22, 10, word="Length", must=lambda value: "" if value + 1 == number else given(number))


# ---- telemetry transfer frames

def tm_lines(profile: Profile, part: Part) -> list[str]:
    """Returns the lines of a telemetry transfer frame."""
    word = word_of(lambda: read_tm_frame(profile, part.octets))
    return lines_of(tm_items(profile, part, word), word)


def tm_items(profile: Profile, part: Part, word: str) -> Iterator[Item]:
    """Returns the lines of a telemetry transfer frame that is taken, or refused with a word."""
    number = len(part.octets)
    whole = heading(part, 0, "transfer frame", number)
    yield whole._replace(word="Length", must=exactly(profile.tm_length, octets_word)(number))
    yield field(part, "version", 0, 2, word="Version", must=exactly(0))
    yield field(part, "spacecraft id", 2, 10, word="Spacecraft", must=exactly(profile.scid))
    yield field(part, "virtual channel", 12, 3)
    yield field(part, "control field flag", 15, 1, flag)
    yield field(part, "master channel frame count", 16, 8)
    yield field(part, "virtual channel frame count", 24, 8)
    for bit, name in enumerate(("secondary header flag", "synchronization flag", "packet order flag"), 32):
        yield field(part, name, bit, 1, flag)
    yield field(part, "segment length id", 35, 2)
    yield field(part, "first header pointer", 37, 11)
    end, has_word = number - 2 * profile.tm_fecf, value_of(part.octets, 15, 1)
    if word == "":
        yield from field_items(profile, part, part.from_octet(6, end - 6 - 4 * has_word))
        if has_word:
            yield from control_word_items(part.from_octet(end - 4, 4))
    if profile.tm_fecf:
        yield error_control(part, "frame error control")
    yield from refused(word, whole)


def field_items(profile: Profile, part: Part, data: Part) -> Iterator[Item]:
    """Returns the lines of the data field: the packets that begin in it, and what stands around them."""
    length, status, pointer = len(data.octets), value_of(part.octets, 32, 5), value_of(part.octets, 37, 11)
    is_skipped = status != 3 or length <= pointer < IDLE_DATA
    if value_of(part.octets, 12, 3) != profile.tm_vcid or is_skipped or pointer == IDLE_DATA:
        yield heading(data, 0, "data field", length)
        return
    at = length if pointer == NO_START else pointer
    if at:
        yield heading(data, 0, "packet in progress", at)
    while at < length:
        left = data.octets[at:]
        whole = whole_length(left)
        if left[0] >> 5 or whole is None or whole > len(left):
            yield heading(data, at, "octets between packets" if left[0] >> 5 else "packet in progress", len(left))
            return
        yield packet_lines(profile, data.from_octet(at, whole))
        at += whole


CONTROL_WORD: tuple[tuple[str, int, Callable[[int], str]], ...] = (
    ("control word type", 1, str), ("control word version", 2, str), ("status field", 3, str), ("COP in effect", 2, str), ("virtual channel", 6, str), ("spare", 2, str),
    ("no RF available", 1, flag), ("no bit lock", 1, flag), ("lockout", 1, flag), ("wait", 1, flag), ("retransmit", 1, flag), ("FARM-B counter", 2, str), ("spare", 1, str),
    ("report value", 8, str))


def control_word_items(part: Part) -> Iterator[Item]:
    """Returns the lines of the control word of a frame."""
    bit = 0
    for name, bits, shown in CONTROL_WORD:
        yield field(part, name, bit, bits, shown)
        bit += bits


# ---- texts of octets

LINES: dict[str, Callable[[Profile, Part], list[str]]] = {"frame": frame_lines, "cltu": cltu_lines, "packet": packet_lines, "tm": tm_lines}


class Answer(NamedTuple):
    """What a text of octets is answered: its lines, and the exit status."""
    lines: list[str]
    status: int


def decoded(profile: Profile, layer: str, octets: bytes) -> Answer:
    """Returns what octets mean in a layer."""
    lines = LINES[layer](profile, Part(octets, lambda index: index + 1))
    return Answer(lines, int(any(", but " in it for it in lines)))


def answer(profile: Profile, layer: str, text: bytes) -> Answer:
    """Returns the answer of a text: pairs of hexadecimal digits with spaces between pairs, in front of the first or after the last."""
    if len(text) > MOST_CHARACTERS:
        return Answer([f"not octets: more than {MOST_OCTETS} octets, or than {MOST_CHARACTERS} characters"], 1)
    octets, at = bytearray(), 0
    while at < len(text):
        if text[at:at + 1] == b" ":
            at += 1
            continue
        pair = text[at:at + 2]
        if len(pair) < 2 or any(it not in b"0123456789abcdefABCDEF" for it in pair):
            return Answer([f"not octets: no pair of hexadecimal digits at character {at + 1}"], 1)
        octets.append(int(pair, 16))
        at += 2
    if len(octets) > MOST_OCTETS:
        return Answer([f"not octets: more than {MOST_OCTETS} octets, or than {MOST_CHARACTERS} characters"], 1)
    return decoded(profile, layer, bytes(octets))


def answers(profile: Profile, layer: str, text: bytes) -> Answer:
    """Returns the answers of all lines of a text in turn, with an empty line between two."""
    *ended, last = text.split(b"\n")
    found = [answer(profile, layer, it.removesuffix(b"\r")) for it in ended] + ([answer(profile, layer, last)] if last else [])
    lines = [line for number, it in enumerate(found) for line in ([""] if number else []) + it.lines]
    return Answer(lines, max((it.status for it in found), default=0))
