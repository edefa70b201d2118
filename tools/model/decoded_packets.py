"""What packets mean, plainly: the lines of telecommands and of telemetry packets, field by field, or what is wrong and where. It is written from the public
standards (CCSDS 133.0-B; ECSS-E-ST-70-41C) over the plain octets, and asks the program nothing.
"""
from collections.abc import Callable, Iterator

from model.decoded_rows import (Item, Part, at_least, at_most, between, error_control, exactly, field, flag, given, heading, hex4, lines_of, octets_word, refused,
                                sequence_word, type_word, value_of, word_of)
from model.packets import (BARE, DELETE, FAILURES, IDLE_APID, INSERT, LAST_COUNT, MOST_DATA, MOST_INSERTED, MOST_SUMMARIZED, SCHEDULE, SHIFT, SHIFT_ALL, STEPS, SUCCESSES,
                           SUMMARY, first_moment, last_moment, read_report, read_telecommand)
from model.profiles import Profile

SCHEDULE_SUBTYPES = (*BARE, INSERT, DELETE, SHIFT, SHIFT_ALL)
OUTCOME_WORDS = ("completes", "completes in steps", "refuses", "start fails", "halts", "fails")
COMPLETES, IN_STEPS, HALTS = 0, 1, 4


# ---- packets

def packet_lines(profile: Profile, part: Part) -> list[str]:
    """Returns the lines of a packet, of the kind that its type bit says."""
    if part.octets and part.octets[0] & 0x10:
        return telecommand_lines(profile, part)
    return report_lines(profile, part)


def request_id(part: Part, kind: int, version_word: str, word: str, most_apid: int) -> Iterator[Item]:
    """Returns the lines of the first four octets of a packet of a kind, with the reader's words for its version and for the other fields."""
    yield field(part, "packet version", 0, 3, word=version_word, must=exactly(0))
    yield field(part, "packet type", 3, 1, type_word, word, exactly(kind, type_word))
    yield field(part, "secondary header flag", 4, 1, flag, word, exactly(1, flag))
    yield field(part, "APID", 5, 11, word=word, must=between(0, most_apid))
    yield field(part, "sequence flags", 16, 2, sequence_word, word, exactly(3, sequence_word))
    yield field(part, "sequence count", 18, 14)


def primary_header(part: Part, least: int, kind: int, version_word: str, most_apid: int) -> Iterator[Item]:
    """Returns the lines of the primary header of a packet of a kind, which has a least number of octets."""
    number = len(part.octets)
    yield heading(part, 0, "packet", number, "Length", at_least(number, least))
    yield from request_id(part, kind, version_word, "Header", most_apid)
    yield field(part, "packet data length", 32, 16, word="Length", must=lambda value: "" if value + 7 == number else given(number))


def telecommand_lines(profile: Profile, part: Part) -> list[str]:
    """Returns the lines of a telecommand packet."""
    word = word_of(lambda: read_telecommand(profile, part.octets))
    return lines_of(telecommand_items(profile, part, word, False), word)


def activity_lines(profile: Profile, part: Part) -> list[str]:
    """Returns the lines of the packet of an activity, which is a plain request's."""
    word = word_of(lambda: read_telecommand(profile, part.octets))
    return lines_of(telecommand_items(profile, part, word, True), word)


def subtype_must(service: int) -> Callable[[int], str]:
    """Returns the test of a message subtype."""
    if service != SCHEDULE:
        return between(1, 255)
    return lambda value: "" if value in SCHEDULE_SUBTYPES else "must be 1, 2, 3, 4, 5, 7, 15 or 17"


def telecommand_items(profile: Profile, part: Part, word: str, is_plain: bool) -> Iterator[Item]:
    """Returns the lines of a telecommand packet that is taken, or refused with a word. One that has to be plain has the lines of a plain request."""
    yield from primary_header(part, 13, 1, "Header", IDLE_APID - 1)
    yield field(part, "PUS version", 48, 4, word="Header", must=exactly(2))
    for bit, name in enumerate(("completion", "progress", "start", "acceptance"), 52):
        yield field(part, f"{name} acknowledgement", bit, 1, flag)
    service, subtype = value_of(part.octets, 56, 8), value_of(part.octets, 64, 8)
    yield field(part, "service type", 56, 8, word="Subtype", must=between(1, 255))
    yield field(part, "message subtype", 64, 8, word="Subtype", must=subtype_must(service))
    yield field(part, "source id", 72, 16, word="Header", must=exactly(profile.source))
    data = Part(part.octets[11:], lambda index: part.place(11 + index))
    number = len(part.octets) - 13
    if is_plain or service != SCHEDULE:
        yield from plain_items(profile, data, number)
    else:
        yield from schedule_items(profile, data, number, subtype, word)
    yield error_control(part, "packet error control")
    yield from refused(word, heading(data, 0, "application data", number))


def outcome_word(value: int) -> str:
    """Shows the kind of an outcome."""
    return OUTCOME_WORDS[value] if value < len(OUTCOME_WORDS) else str(value)


def plain_items(profile: Profile, data: Part, number: int) -> Iterator[Item]:
    """Returns the lines of so many octets of application data of a plain request."""
    if profile.rehearsal and number < 3:
        yield heading(data, 0, "outcome", number, "Data", at_least(number, 3))
        return
    length = number - 3 * profile.rehearsal
    yield heading(data, 0, "application data", length, "Data", at_most(length, MOST_DATA))
    if profile.rehearsal:
        kind, bit = value_of(data.octets, 8 * length, 8), 8 * length
        yield field(data, "outcome", bit, 8, outcome_word, "Data", between(COMPLETES, len(OUTCOME_WORDS) - 1, outcome_word))
        yield field(data, "steps", bit + 8, 8, word="Data", must=between(1, 9) if kind in (IN_STEPS, HALTS) else exactly(0))
        yield field(data, "failure code", bit + 16, 8, word="Data", must=exactly(0) if kind in (COMPLETES, IN_STEPS) else between(16, 255))


def number_word(value: int) -> str:
    """Shows a number."""
    return str(value)


def offset_word(value: int) -> str:
    """Shows an offset, in two's complement."""
    return str(value - (value >> 31 << 32))


def time_items(profile: Profile, data: Part, index: int, name: str) -> Iterator[Item]:
    """Returns the lines of a time or an offset, with its fraction if the profile has one. A release time has to be one of those that the desk has."""
    may = between(first_moment(profile) - profile.time_epoch, last_moment(profile) - profile.time_epoch)
    shown = offset_word if name == "time offset" else number_word
    yield field(data, name, 8 * index, 32, shown, "Data", may if name == "release time" else lambda value: "")
    if profile.time_fine:
        yield field(data, "fraction", 8 * index + 32, 16, hex4)


def name_items(profile: Profile, data: Part, index: int, is_ours: bool) -> Iterator[Item]:
    """Returns the lines of the name of an activity."""
    bit = 8 * index
    yield field(data, "source id", bit, 16, word="Data", must=exactly(profile.source) if is_ours else lambda value: "")
    yield field(data, "APID", bit + 16, 16, word="Data", must=between(0, IDLE_APID - 1))
    yield field(data, "sequence count", bit + 32, 16, word="Data", must=between(0, LAST_COUNT))


def schedule_items(profile: Profile, data: Part, number: int, subtype: int, word: str) -> Iterator[Item]:
    """Returns the lines of so many octets of application data of a command of the schedule."""
    if subtype == INSERT:
        yield heading(data, 0, "application data", number, "Data", at_least(number, 1))
        yield field(data, "number of activities", 0, 8, word="Data", must=between(1, MOST_INSERTED))
        if word in ("", "Data"):
            yield from insert_items(profile, data.from_octet(0, number), word)
        return
    length = {DELETE: 7, SHIFT: 11 + profile.time_fine, SHIFT_ALL: 4 + profile.time_fine}.get(subtype, 0)
    yield heading(data, 0, "application data", number, "Data", exactly(length, octets_word)(number))
    if subtype in (SHIFT, SHIFT_ALL):
        yield from time_items(profile, data, 0, "time offset")
    if subtype in (DELETE, SHIFT):
        begin = length - 7
        yield field(data, "number of names", 8 * begin, 8, word="Data", must=exactly(1))
        yield from name_items(profile, data, begin + 1, True)


def insert_items(profile: Profile, data: Part, word: str) -> Iterator[Item]:
    """Returns the lines of the activities of an insert. One that is cut is a fault, and the last; a release time and a packet are judged by themselves."""
    octets, head, at = data.octets, 4 + profile.time_fine, 1
    for _ in range(octets[0]):
        length = head + value_of(octets, 8 * (at + head + 4), 16) + 7
        if len(octets) < at + length:
            yield lines_of(iter([heading(data, at, "activity", len(octets) - at, "Data", at_least(len(octets) - at, length))]), "Data")
            return
        yield lines_of(time_items(profile, data, at, "release time"), word)
        yield activity_lines(profile, data.from_octet(at + head, length - head))
        at += length


# ---- telemetry packets

def report_lines(profile: Profile, part: Part) -> list[str]:
    """Returns the lines of a telemetry packet."""
    word = word_of(lambda: read_report(profile, part.octets))
    return lines_of(report_items(profile, part, word), word)


def report_items(profile: Profile, part: Part, word: str) -> Iterator[Item]:
    """Returns the lines of a telemetry packet that is taken, or refused with a word."""
    number, head = len(part.octets), 17 + profile.time_fine
    is_idle = value_of(part.octets, 5, 11) == IDLE_APID
    yield from primary_header(part, 7 if is_idle else head + 2, 0, "Version", IDLE_APID)
    if is_idle:
        yield heading(part, 6, "idle data", number - 6)
        yield from refused(word, heading(part, 0, "packet", number))
        return
    yield field(part, "PUS version", 48, 4, word="Header", must=exactly(2))
    yield field(part, "time reference status", 52, 4)
    yield field(part, "service type", 56, 8)
    yield field(part, "message subtype", 64, 8)
    yield field(part, "message type counter", 72, 16)
    yield field(part, "destination id", 88, 16)
    yield from time_items(profile, part, 13, "time")
    data = Part(part.octets[head:], lambda index: part.place(head + index))
    yield from source_items(profile, part, data, number - head - 2)
    yield error_control(part, "packet error control")
    yield from refused(word, heading(data, 0, "source data", number - head - 2))


def source_items(profile: Profile, part: Part, data: Part, number: int) -> Iterator[Item]:
    """Returns the lines of so many octets of source data: those of a report that the desk reads, or that they are there."""
    service, subtype = value_of(part.octets, 56, 8), value_of(part.octets, 64, 8)
    is_ours = value_of(part.octets, 88, 16) == profile.source
    if is_ours and service == 1 and subtype in (*SUCCESSES, *FAILURES):
        yield from verification_items(data, number, subtype)
    elif is_ours and (service, subtype) == (SCHEDULE, SUMMARY):
        yield from summary_items(profile, data, number)
    else:
        yield heading(data, 0, "source data", number)


def verification_items(data: Part, number: int, subtype: int) -> Iterator[Item]:
    """Returns the lines of so many octets of source data of a report of service 1. Octets after the code of a failure are ignored."""
    length = 4 + (subtype in STEPS) + (subtype in FAILURES)
    yield heading(data, 0, "source data", number, "Data", at_least(number, length) if subtype in FAILURES else exactly(length, octets_word)(number))
    yield from request_id(data, 1, "Data", "Data", IDLE_APID - 1)
    if subtype in STEPS:
        yield field(data, "step", 32, 8)
    if subtype in FAILURES:
        yield field(data, "failure code", 32 + 8 * (subtype in STEPS), 8)


def status_word(value: int) -> str:
    """Shows whether the schedule is enabled."""
    return ("disabled", "enabled")[value] if value < 2 else str(value)


def summary_items(profile: Profile, data: Part, number: int) -> Iterator[Item]:
    """Returns the lines of so many octets of source data of a summary."""
    size, count = 10 + profile.time_fine, value_of(data.octets, 0, 8)
    length = 1 + count * size
    yield heading(data, 0, "source data", number, "Data", between(length, length + 1, octets_word)(number))
    yield field(data, "number of activities", 0, 8, word="Data", must=between(0, MOST_SUMMARIZED))
    for at in range(1, length, size):
        yield from time_items(profile, data, at, "release time")
        yield from name_items(profile, data, at + size - 6, False)
    if number == length + 1:
        yield field(data, "schedule status", 8 * length, 8, status_word, "Data", between(0, 1, status_word))
