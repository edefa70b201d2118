"""The packets of a link, plainly: space packets, telecommands and reports (CCSDS 133.0-B, 301.0-B; ECSS-E-ST-70-41C). It is written from the public
standards, and asks the program nothing.
"""
from typing import NamedTuple, Optional, TypeVar, Union

from model.octets import Refused, closed, crc
from model.profiles import LAST_MOMENT, Profile
from model.request import Identity

Item = TypeVar("Item")

IDLE_APID, LAST_COUNT = 2047, 16_383
MOST_DATA, MOST_INSERTED, MOST_SUMMARIZED = 96, 8, 64
SCHEDULE = 11
INSERT, DELETE, SHIFT, SHIFT_ALL, SUMMARY = 4, 5, 7, 15, 13
BARE = (1, 2, 3, 17)  # enable, disable, reset, summarize: no application data
ACK_BITS = {"a": 1, "s": 2, "p": 4, "c": 8}  # acceptance, start, progress, completion
OUTCOMES = {"ok": 0, "refuse": 2, "nostart": 3, "halt": 4, "fail": 5}
OK_STEPS = 1  # `ok` with steps
REJECTIONS = {"Length": 8, "Check": 9, "Header": 10, "Subtype": 11, "Data": 12}
SUCCESSES, STEPS, FAILURES = (1, 3, 5, 7), (5, 6), (2, 4, 6, 8)  # subtypes of service 1


# ---- space packets

class SpacePacket(NamedTuple):
    """A space packet: its type (1 for a telecommand), whether a secondary header follows, its APID, sequence flags and count, and its data field."""
    kind: int
    secondary: int
    apid: int
    flags: int
    sequence: int
    data: bytes


def space_packet(packet: SpacePacket) -> bytes:
    """Writes a space packet. Its data field has 1 to 65,536 octets."""
    first = packet.kind << 12 | packet.secondary << 11 | packet.apid
    head = [first, packet.flags << 14 | packet.sequence, len(packet.data) - 1]
    return b"".join(it.to_bytes(2, "big") for it in head) + packet.data


def whole_length(octets: bytes) -> Optional[int]:
    """Returns how long a packet says that it is, by its first 6 octets; None if there are fewer."""
    return int.from_bytes(octets[4:6], "big") + 7 if len(octets) >= 6 else None


def read_space_packet(octets: bytes) -> SpacePacket:
    """Reads a space packet. Raises Refused with Length or Version."""
    if len(octets) < 7 or whole_length(octets) != len(octets):
        raise Refused("Length")
    first, second = int.from_bytes(octets[:2], "big"), int.from_bytes(octets[2:4], "big")
    if first >> 13:
        raise Refused("Version")
    return SpacePacket(first >> 12 & 1, first >> 11 & 1, first & 0x7ff, second >> 14, second & 0x3fff, octets[6:])


def idle_packet(length: int) -> bytes:
    """Writes an idle packet of `length` octets, 7 or more."""
    return space_packet(SpacePacket(0, 0, IDLE_APID, 3, 0, bytes([0x55]) * (length - 6)))


# ---- what a telecommand asks for

class Plain(NamedTuple):
    """A request of any service but 11: its application data, and the outcome that a rehearsal spacecraft plays, as the desk spells it."""
    service: int
    subtype: int
    data: bytes = b""
    outcome: Optional[str] = None


class Bare(NamedTuple):
    """A command of the schedule without data: enable, disable, reset or summarize, by its subtype."""
    subtype: int


class Insert(NamedTuple):
    """A command that puts 1 to 8 activities into the schedule, each with its release time in Unix seconds."""
    activities: "tuple[tuple[int, Flight], ...]"


class Delete(NamedTuple):
    """A command that takes an activity out of the schedule."""
    target: Identity


class Shift(NamedTuple):
    """A command that shifts an activity by an offset in seconds."""
    target: Identity
    offset: int


class ShiftAll(NamedTuple):
    """A command that shifts all activities by an offset in seconds."""
    offset: int


Task = Union[Plain, Bare, Insert, Delete, Shift, ShiftAll]


class Flight(NamedTuple):
    """A request as it flies: its identity, the reports that it asks for, such as `a--c`, and its task."""
    identity: Identity
    ack: str
    task: Task


def first_moment(profile: Profile) -> int:
    """Returns the earliest Unix second that has octets."""
    return max(0, profile.time_epoch)


def last_moment(profile: Profile) -> int:
    """Returns the latest Unix second that has octets."""
    return min(LAST_MOMENT, profile.time_epoch + (1 << 32) - 1)


def fits(profile: Profile, flight: Flight) -> bool:
    """Returns whether a request can fly."""
    task = flight.task
    if flight.identity.apid >= IDLE_APID:
        return False
    if isinstance(task, Plain):
        return len(task.data) <= MOST_DATA and (task.outcome is not None) == profile.rehearsal
    if isinstance(task, Insert):
        return all(first_moment(profile) <= at <= last_moment(profile) and fits(profile, it) for at, it in task.activities)
    if isinstance(task, (Delete, Shift)) and task.target.apid >= IDLE_APID:
        return False
    return not isinstance(task, (Shift, ShiftAll)) or -1 << 31 <= task.offset < 1 << 31


# ---- fields

class Fields:
    """A reader of fields from the front of octets. It raises Refused with Data if they do not suffice."""

    def __init__(self, profile: Profile, octets: bytes) -> None:
        """All octets are left."""
        self.profile, self.left = profile, octets

    def octets(self, length: int) -> bytes:
        """Takes so many octets."""
        need(length <= len(self.left))
        taken, self.left = self.left[:length], self.left[length:]
        return taken

    def number(self, length: int) -> int:
        """Takes an unsigned number of so many octets."""
        return int.from_bytes(self.octets(length), "big")

    def seconds(self, signed: bool) -> int:
        """Takes seconds and ignores their fraction."""
        seconds = int.from_bytes(self.octets(4), "big", signed=signed)
        self.octets(self.profile.time_fine)
        return seconds

    def time(self) -> int:
        """Takes an absolute time, as Unix seconds."""
        moment = self.seconds(False) + self.profile.time_epoch
        need(0 <= moment <= LAST_MOMENT)
        return moment

    def name(self) -> tuple[int, Identity]:
        """Takes the name of an activity: its source, and its identity."""
        source, apid, count = (self.number(2) for _ in range(3))
        need(apid < IDLE_APID and count <= LAST_COUNT)
        return source, Identity(apid, count)

    def our_name(self) -> Identity:
        """Takes the name of an activity of our source."""
        source, identity = self.name()
        need(source == self.profile.source)
        return identity

    def request_id(self) -> Identity:
        """Takes the first four octets of a telecommand."""
        first, second = self.number(2), self.number(2)
        need(first >> 11 == 0b00011 and second >> 14 == 0b11 and first & 0x7ff != IDLE_APID)
        return Identity(first & 0x7ff, second & 0x3fff)

    def whole(self, made: Item) -> Item:
        """Returns what was made, as no octet may be left."""
        need(not self.left)
        return made


def need(holds: bool) -> None:
    """Refuses the data of a packet unless something holds."""
    if not holds:
        raise Refused("Data")


def seconds(profile: Profile, number: int) -> bytes:
    """Writes seconds in four octets, in two's complement if negative, with a fraction of 0."""
    return (number % (1 << 32)).to_bytes(4, "big") + bytes(profile.time_fine)


def time(profile: Profile, moment: int) -> bytes:
    """Writes an absolute time."""
    return seconds(profile, moment - profile.time_epoch)


def name(profile: Profile, identity: Identity) -> bytes:
    """Writes the name of an activity."""
    return b"".join(it.to_bytes(2, "big") for it in (profile.source, *identity))


def request_id(identity: Identity) -> bytes:
    """Writes the first four octets of a telecommand."""
    return (0x1800 | identity.apid).to_bytes(2, "big") + (0xc000 | identity.sequence).to_bytes(2, "big")


def outcome_octets(outcome: str) -> bytes:
    """Writes an outcome: kind, steps and code."""
    kind, *numbers = outcome.split("/")
    if kind == "ok":
        return bytes([OK_STEPS, int(numbers[0]), 0]) if numbers else bytes(3)
    return bytes([OUTCOMES[kind], int(numbers[0]) if kind == "halt" else 0, int(numbers[-1])])


def read_outcome(octets: bytes) -> str:
    """Reads an outcome."""
    need(len(octets) == 3)
    kind, steps, code = octets
    if kind == OK_STEPS:
        need(1 <= steps <= 9 and code == 0)
        return f"ok/{steps}"
    word = next((word for word, number in OUTCOMES.items() if number == kind), "")
    need(word != "" and (1 <= steps <= 9 if word == "halt" else steps == 0) and (code == 0 if word == "ok" else code >= 16))
    return word if word == "ok" else f"halt/{steps}/{code}" if word == "halt" else f"{word}/{code}"


# ---- telecommands

def kind_of(task: Task) -> tuple[int, int]:
    """Returns the service and the subtype of a task."""
    if isinstance(task, Plain):
        return task.service, task.subtype
    if isinstance(task, Bare):
        return SCHEDULE, task.subtype
    return SCHEDULE, {Insert: INSERT, Delete: DELETE, Shift: SHIFT, ShiftAll: SHIFT_ALL}[type(task)]


def application_data(profile: Profile, task: Task) -> bytes:
    """Writes what follows the secondary header."""
    if isinstance(task, Plain):
        return task.data + (b"" if task.outcome is None else outcome_octets(task.outcome))
    if isinstance(task, Insert):
        return bytes([len(task.activities)]) + b"".join(time(profile, at) + telecommand(profile, it) for at, it in task.activities)
    if isinstance(task, Delete):
        return b"\1" + name(profile, task.target)
    if isinstance(task, Shift):
        return seconds(profile, task.offset) + b"\1" + name(profile, task.target)
    return seconds(profile, task.offset) if isinstance(task, ShiftAll) else b""


def telecommand(profile: Profile, flight: Flight) -> bytes:
    """Writes the telecommand packet of a request that fits."""
    acks = sum(ACK_BITS[it] for it in flight.ack if it != "-")
    header = bytes([2 << 4 | acks, *kind_of(flight.task)]) + profile.source.to_bytes(2, "big")
    data = header + application_data(profile, flight.task)
    packet = SpacePacket(1, 1, flight.identity.apid, 3, flight.identity.sequence, data + bytes(2))
    return closed(space_packet(packet)[:-2], True)


def read_telecommand(profile: Profile, octets: bytes) -> Flight:
    """Reads a telecommand packet. Raises Refused with the first word that applies."""
    if len(octets) < 13 or whole_length(octets) != len(octets):
        raise Refused("Length")
    if crc(octets) != 0:
        raise Refused("Check")
    first, second = int.from_bytes(octets[:2], "big"), int.from_bytes(octets[2:4], "big")
    version, source = octets[6] >> 4, int.from_bytes(octets[9:11], "big")
    if first >> 11 != 0b00011 or second >> 14 != 3 or first & 0x7ff == IDLE_APID or version != 2 or source != profile.source:
        raise Refused("Header")
    service, subtype = octets[7], octets[8]
    if service == 0 or subtype == 0 or service == SCHEDULE and subtype not in (*BARE, INSERT, DELETE, SHIFT, SHIFT_ALL):
        raise Refused("Subtype")
    ack = "".join(letter if octets[6] & bit else "-" for letter, bit in ACK_BITS.items())
    return Flight(Identity(first & 0x7ff, second & 0x3fff), ack, read_task(profile, service, subtype, octets[11:-2]))


def read_task(profile: Profile, service: int, subtype: int, data: bytes) -> Task:
    """Reads what follows the secondary header."""
    left = Fields(profile, data)
    if service != SCHEDULE:
        plain = data[:-3] if profile.rehearsal else data
        need(len(plain) <= MOST_DATA)
        return Plain(service, subtype, plain, read_outcome(data[-3:]) if profile.rehearsal else None)
    if subtype == INSERT:
        number = left.number(1)
        need(1 <= number <= MOST_INSERTED)
        return left.whole(Insert(tuple((left.time(), read_activity(profile, left)) for _ in range(number))))
    if subtype == DELETE:
        need(left.number(1) == 1)
        return left.whole(Delete(left.our_name()))
    if subtype == SHIFT:
        offset = left.seconds(True)
        need(left.number(1) == 1)
        return left.whole(Shift(left.our_name(), offset))
    last: Task = ShiftAll(left.seconds(True)) if subtype == SHIFT_ALL else Bare(subtype)
    return left.whole(last)


def read_activity(profile: Profile, left: Fields) -> Flight:
    """Reads the packet of an activity, which says itself where it ends. It is a plain request's."""
    length = whole_length(left.left)
    need(length is not None)
    try:
        flight = read_telecommand(profile, left.octets(length or 0))
    except Refused:
        raise Refused("Data") from None
    need(isinstance(flight.task, Plain))
    return flight


def rejection(octets: bytes, word: str) -> Optional[tuple[Identity, int]]:
    """Returns the identity and the code that the rehearsal spacecraft reports for a packet that it refused, or None if it cannot name it."""
    try:
        return Fields(Profile(), octets).request_id(), REJECTIONS[word]
    except Refused:
        return None


# ---- reports

class Verification(NamedTuple):
    """A report of service 1, by its subtype: on a request, at a step if it has one, with a code if it is a failure."""
    subtype: int
    request: Identity
    step: Optional[int] = None
    code: Optional[int] = None


class Summary(NamedTuple):
    """The summary of the schedule: whether it is enabled, if that is told, and the time and identity of each activity."""
    enabled: Optional[bool]
    activities: tuple[tuple[int, Identity], ...]


Told = Union[Verification, Summary]


class Heard(NamedTuple):
    """A report as it was read: the APID and the count of its packet, and how many activities of other sources were passed over."""
    apid: int
    sequence: int
    told: Told
    passed: int = 0


class Idle(NamedTuple):
    """An idle packet."""


class Other(NamedTuple):
    """A sound packet that is not for the desk: its service and subtype."""
    service: int
    subtype: int


def source_data(profile: Profile, told: Told) -> bytes:
    """Writes what follows the secondary header of a report."""
    if isinstance(told, Verification):
        return request_id(told.request) + bytes(it for it in (told.step, told.code) if it is not None)
    rows = b"".join(time(profile, at) + name(profile, it) for at, it in told.activities)
    return bytes([len(told.activities)]) + rows + (b"" if told.enabled is None else bytes([told.enabled]))


def report(profile: Profile, count: int, now: int, told: Told) -> bytes:
    """Writes the packet of a report; `now` is the Unix second on board."""
    service, subtype = (1, told.subtype) if isinstance(told, Verification) else (SCHEDULE, SUMMARY)
    header = bytes([2 << 4, service, subtype, 0, 0]) + profile.source.to_bytes(2, "big") + time(profile, now)
    packet = SpacePacket(0, 1, profile.apid, 3, count, header + source_data(profile, told) + bytes(2))
    return closed(space_packet(packet)[:-2], True)


def read_report(profile: Profile, octets: bytes) -> Union[Heard, Idle, Other]:
    """Reads a telemetry packet. Raises Refused with the first word that applies."""
    packet = read_space_packet(octets)
    if packet.apid == IDLE_APID:
        return Idle()
    if (packet.kind, packet.secondary, packet.flags) != (0, 1, 3):
        raise Refused("Header")
    head = 11 + profile.time_fine
    if len(packet.data) < head + 2:
        raise Refused("Length")
    if crc(octets) != 0:
        raise Refused("Check")
    version, service, subtype = packet.data[0] >> 4, packet.data[1], packet.data[2]
    if version != 2:
        raise Refused("Header")
    is_known = service == 1 and subtype in (*SUCCESSES, *FAILURES) or (service, subtype) == (SCHEDULE, SUMMARY)
    if int.from_bytes(packet.data[5:7], "big") != profile.source or not is_known:
        return Other(service, subtype)
    left = Fields(profile, packet.data[head:-2])
    if service == 1:
        return Heard(packet.apid, packet.sequence, read_verification(left, subtype))
    return read_summary(left, packet)


def read_verification(left: Fields, subtype: int) -> Verification:
    """Reads the source data of a report of service 1. Octets after the code of a failure are ignored."""
    request = left.request_id()
    step = left.number(1) if subtype in STEPS else None
    if subtype in FAILURES:
        return Verification(subtype, request, step, left.number(1))
    return left.whole(Verification(subtype, request, step))


def read_summary(left: Fields, packet: SpacePacket) -> Heard:
    """Reads the source data of a summary."""
    number = left.number(1)
    need(number <= MOST_SUMMARIZED)
    rows = [(left.time(), left.name()) for _ in range(number)]
    status = left.number(1) if left.left else None
    need(status in (None, 0, 1))
    ours = tuple((at, identity) for at, (source, identity) in rows if source == left.profile.source)
    return left.whole(Heard(packet.apid, packet.sequence, Summary(None if status is None else status == 1, ours), len(rows) - len(ours)))
