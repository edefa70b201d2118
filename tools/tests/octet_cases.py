"""The worked cases of tools/cases/octets, which were written from the public standards: what the plain octets answer to each, and what stands there."""
import pathlib
import re
from collections.abc import Callable, Iterator
from typing import NamedTuple

from generate.octet_values import settings_of
from model import octets, packets
from model.carriers import Receiver, Sender
from model.octets import Ad, Down, Refused, SetVr, Unlock, Up
from model.packets import (BARE, DELETE, INSERT, SCHEDULE, SHIFT, Bare, Delete, Flight, Heard, Idle, Insert, Other, Plain, Shift, ShiftAll, SpacePacket, Summary, Task, Told,
                           Verification, fits)
from model.profiles import BadProfile, Profile, profile_of, profile_text, read_profile
from model.request import Identity

CASES = pathlib.Path(__file__).parents[1] / "cases" / "octets"
Case = dict[str, str]


class Answer(NamedTuple):
    """An answer of the plain octets, beside the one that is wanted."""
    title: str
    got: object
    wanted: object


def cases(name: str) -> list[Case]:
    """Reads the cases of a file: lines `key: value` after a line `[number] what it is of`."""
    found = []
    for part in re.split(r"^\[\d+\] ", (CASES / name).read_text(encoding="ascii"), flags=re.M)[1:]:
        what, *lines = part.splitlines()
        found.append({"what": what} | {key: value.strip() for key, _, value in (line.partition(":") for line in lines if line)})
    return found


def hexes(text: str) -> bytes:
    """Reads octets, which may end with ` x TIMES`."""
    octets_text, _, times = text.partition(" x ")
    return bytes.fromhex(octets_text) * int(times or 1)


def read_or_word(read: Callable[[], object]) -> object:
    """Returns what is read, or the word of refusal."""
    try:
        return read()
    except Refused as refused:
        return str(refused)


# ---- values as the cases spell them

def up_of(text: str) -> Up:
    """Reads a telecommand frame."""
    words = text.split()
    if words[0] == "ad":
        return Ad(int(words[1]), hexes(" ".join(words[2:])))
    return Unlock() if words[0] == "unlock" else SetVr(int(words[1]))


def identity_of(text: str) -> Identity:
    """Reads an identity."""
    return Identity(*map(int, text.split("/")))


def task_of(service: int, subtype: int, rest: str) -> Task:
    """Reads what follows the service and the subtype of a request."""
    words = rest.split()
    if service != SCHEDULE:
        return Plain(service, subtype, hexes(words[1].replace("-", "")), words[3] if len(words) > 2 else None)
    if subtype == INSERT:
        return Insert(tuple((int(at), flight_of(it)) for at, it in re.findall(r"\[(\d+): ([^]]+)\]", rest)))
    if subtype == DELETE:
        return Delete(identity_of(words[0]))
    if subtype in BARE:
        return Bare(subtype)
    return Shift(identity_of(words[0]), int(words[1])) if subtype == SHIFT else ShiftAll(int(words[0]))


def flight_of(text: str) -> Flight:
    """Reads a request."""
    identity, ack, kind, *rest = text.split(" ", 3)
    service, subtype = map(int, kind.split("/"))
    return Flight(identity_of(identity), ack, task_of(service, subtype, "".join(rest)))


def told_of(text: str) -> Told:
    """Reads a report."""
    kind, *words = text.split()
    if kind == "11/13":
        rows = [(int(at), identity_of(it)) for at, it in re.findall(r"\[(\d+) (\d+/\d+)\]", text)]
        return Summary({"enabled": True, "disabled": False, "-": None}[words[0]], tuple(rows))
    numbers = {key: int(value) for key, value in zip(words[1::2], words[2::2])}
    return Verification(int(kind.removeprefix("1/")), identity_of(words[0]), numbers.get("step"), numbers.get("code"))


def heard_of(text: str) -> object:
    """Reads what a packet is, or the word of refusal."""
    words = text.split()
    if words[0] == "report":
        return Heard(*identity_of(words[1]), told_of(" ".join(words[2:])))
    return Idle() if words[0] == "idle" else Other(int(words[1]), int(words[2])) if words[0] == "other" else text


# ---- the answers, a function for each file

def of_crc(case: Case) -> Iterator[tuple[object, object]]:
    """A check."""
    yield octets.crc(hexes(case["of"])), int(case["crc"], 16)


def of_codeblocks(case: Case) -> Iterator[tuple[object, object]]:
    """A codeblock, written or read in both modes."""
    if "info" in case:
        yield octets.codeblock(hexes(case["info"])).hex(), case["block"]
        return
    for mode, correct in (("detecting", False), ("correcting", True)):
        read = octets.information(hexes(case["block"]), correct)
        yield "fails" if read is None else read.hex(), case[mode]


def of_randomizer(case: Case) -> Iterator[tuple[object, object]]:
    """Randomized octets, or a part of the sequence."""
    if "octets" in case:
        yield octets.randomized(hexes(case["octets"])).hex(), case["randomized"]
        return
    begin = 250 if "250" in case["what"] else 0
    yield octets.sequence(begin + len(hexes(case["sequence"])))[begin:].hex(), case["sequence"]


def of_tc_frames(case: Case) -> Iterator[tuple[object, object]]:
    """A telecommand frame, written and read, or refused."""
    profile = profile_of(case["profile"])
    if case["frame"].split()[0] not in ("ad", "unlock", "setvr"):
        yield read_or_word(lambda: octets.read_tc_frame(profile, hexes(case["octets"]))), case["frame"]
        return
    frame = up_of(case["frame"])
    made = octets.tc_frame(profile, frame)
    shown = f"first 8 {made[:8].hex()}, last 4 {made[-4:].hex()}, length {len(made)}" if "first" in case["octets"] else made.hex()
    yield shown, case["octets"]
    yield read_or_word(lambda: octets.read_tc_frame(profile, made)), frame


def of_cltus(case: Case) -> Iterator[tuple[object, object]]:
    """A CLTU of a frame."""
    is_greatest = case["frame"].startswith("the greatest")
    frame = octets.tc_frame(Profile(), Ad(1, bytes(1017))) if is_greatest else hexes(case["frame"])
    made = octets.cltu(frame, case["randomizer"] == "yes")
    yield f"first 18 {made[:18].hex()}, last 16 {made[-16:].hex()}" if is_greatest else made.hex(), case["cltu"]
    if is_greatest:
        yield len(made), 1186
    found = octets.candidates(made, False)
    yield [octets.frame_in(it, case["randomizer"] == "yes") for it in found], [frame]


def of_streams(case: Case) -> Iterator[tuple[object, object]]:
    """The candidates and frames of a stream, at once and octet by octet."""
    found = octets.candidates(hexes(case["stream"]), case["mode"] == "correcting")
    yield " ".join(it.hex() or "empty" for it in found), case["candidates"]
    frames = [octets.frame_in(it, False) for it in found]
    yield " ".join("none" if it is None else it.hex() for it in frames), case["frames"]
    yield octets.CltuReader(case["mode"] == "correcting").take(hexes(case["stream"])), found


def of_space_packets(case: Case) -> Iterator[tuple[object, object]]:
    """A space packet, written and read, or refused."""
    read = read_or_word(lambda: packets.read_space_packet(hexes(case["octets"])))
    if "refused" in case:
        yield read, case["refused"]
        return
    *numbers, data = case["fields"].split()
    kind, secondary, apid, flags, sequence = map(int, numbers)
    packet = SpacePacket(kind, secondary, apid, flags, sequence, hexes(data))
    yield packets.space_packet(packet).hex(), case["octets"]
    yield read, packet


def of_tc_packets(case: Case) -> Iterator[tuple[object, object]]:
    """A telecommand packet, written and read, or refused."""
    profile = profile_of(case["profile"])
    read = read_or_word(lambda: packets.read_telecommand(profile, hexes(case["octets"])))
    if "refused" in case:
        yield read, case["refused"]
        return
    flight = flight_of(case["request"])
    yield fits(profile, flight), True
    yield packets.telecommand(profile, flight).hex(), case["octets"]
    yield read, flight


def of_tm_packets(case: Case) -> Iterator[tuple[object, object]]:
    """A telemetry packet, written and read, or only read."""
    profile = profile_of(case["profile"])
    read = read_or_word(lambda: packets.read_report(profile, hexes(case["octets"])))
    if "read" in case:
        yield read, heard_of(case["read"])
        return
    told = told_of(case["report"])
    yield packets.report(profile, int(case["count"]), int(case["now"]), told).hex(), case["octets"]
    yield read, Heard(1, int(case["count"]), told)


def of_words(case: Case) -> Iterator[tuple[object, object]]:
    """A control word, handed on or passed over."""
    word = octets.our_word(Profile(), int(case["ocf"], 16))
    yield "-" if word is None else f"{word:08x}", case["word"]


def of_tm_frames(case: Case) -> Iterator[tuple[object, object]]:
    """A telemetry frame, written and read, or refused."""
    profile, words = profile_of(case["profile"]), case["frame"].split()
    read = read_or_word(lambda: octets.read_tm_frame(profile, hexes(case["octets"])))
    if len(words) == 1:
        yield read, words[0]
        return
    word = None if words[5] == "-" else int(words[5], 16)
    frame = Down(int(words[0]), int(words[1]), int(words[2]), int(words[3], 16), hexes(words[4]), word)
    yield octets.tm_frame(profile, frame).hex(), case["octets"]
    yield read, frame


def of_packets_over_frames(case: Case) -> Iterator[tuple[object, object]]:
    """Packets over frames: sent, or received."""
    profile, frames = profile_of(case["profile"]), [hexes(it) for it in case["frames"].split()]
    if "packets" in case:
        sent = [hexes(it) for it in case["packets"].split() if it != "-"]
        yield [it.hex() for it in Sender(profile).send(0x010c0000, sent)], case["frames"].split()
        return
    receiver = Receiver()
    items = [item for it in frames for item in receiver.frame(octets.read_tm_frame(profile, it))]
    yield " ".join(it if isinstance(it, str) else it.hex() for it in items), case["out"]


def of_markers(case: Case) -> Iterator[tuple[object, object]]:
    """The frames of a stream after their markers."""
    found = octets.marked_frames(profile_of(case["profile"]), hexes(case["stream"]))
    yield " ".join(it.hex() for it in found), case["frames"]


def of_profiles(case: Case) -> Iterator[tuple[object, object]]:
    """A profile's text, read and printed, or refused."""
    try:
        read = read_profile(case["text"].replace("\\n", "\n").encode())
    except BadProfile as fault:
        yield str(fault), case["read"]
        return
    yield settings_of(read), case["read"]
    yield read_profile(profile_text(read).encode()), read


def of_layers(case: Case) -> Iterator[tuple[object, object]]:
    """A request through all layers, there and back."""
    profile, flight = profile_of(case["profile"]), flight_of(case["request"])
    packet = packets.telecommand(profile, flight)
    frame = octets.tc_frame(profile, Ad(int(case["ns"]), packet))
    cltu = octets.cltu(frame, profile.tc_randomizer)
    yield [it.hex() for it in (packet, frame, cltu)], [case["packet"], case["frame"], case["cltu"]]
    found = [octets.frame_in(it, profile.tc_randomizer) for it in octets.candidates(cltu, profile.tc_correct)]
    yield found, [frame]
    yield octets.read_tc_frame(profile, frame), Ad(int(case["ns"]), packet)
    yield packets.read_telecommand(profile, packet), flight


OF_FILES: dict[str, Callable[[Case], Iterator[tuple[object, object]]]] = {
    "crc.txt": of_crc, "codeblocks.txt": of_codeblocks, "randomizer.txt": of_randomizer, "tc_frames.txt": of_tc_frames, "cltus.txt": of_cltus,
    "streams.txt": of_streams, "space_packets.txt": of_space_packets, "tc_packets.txt": of_tc_packets, "tm_packets.txt": of_tm_packets, "words.txt": of_words,
    "tm_frames.txt": of_tm_frames, "packets_over_frames.txt": of_packets_over_frames, "markers.txt": of_markers, "profiles.txt": of_profiles,
    "layers.txt": of_layers}


def case_answers(name: str) -> Iterator[Answer]:
    """Returns the answers to the cases of a file, each beside what is wanted."""
    for number, case in enumerate(cases(name), 1):
        for got, wanted in OF_FILES[name](case):
            yield Answer(f"{name} [{number}] {case['what']}", got, wanted)
