"""What holds of the octets of a link, whatever is sent: laws on random values, and on what a line makes of them. Each answer stands beside what is wanted."""
from collections.abc import Callable, Iterator, Sequence
from random import Random
from typing import Optional

from generate.octet_values import (cut, damaged, edge, settings_of, some_down, some_flight, some_octets, some_packet, some_plain, some_profile, some_settings, some_told,
                                   some_up, some_value, turned)
from model import octets, packets
from model.carriers import GAP, Item, Receiver, Sender, data_length
from model.octets import Ad, CltuReader, MarkerReader, Up
from model.packets import Heard, Idle, fits
from model.profiles import READERS, BadProfile, Profile, profile_text, read_profile
from tests.octet_cases import Answer, read_or_word

IDLE = bytes([0x55]) * 15  # what brings every receiver back to its search
Pairs = Iterator[tuple[object, object]]


def sealed(data: bytes) -> bytes:
    """Puts the right check in place of the last two octets."""
    return octets.closed(data[:-2], True)


def profile_or_word(text: bytes) -> object:
    """Returns the profile that a text is, or its line and word."""
    try:
        return read_profile(text)
    except BadProfile as fault:
        return str(fault)


# ---- the profile

BAD_LINES = {"BadText": ["scid", "# \t", "scid = 5\r ", "tc.fecf : yes", "\x7f", "# \xe9"], "UnknownKey": ["SCID = 1", "= 1", "tc = 1", "scid. = 1"],
             "BadValue": ["scid = 1024", "scid = -1", "scid = +1", "scid = 01", "scid =", "scid = 1 0", "scid = 1 # one", "tc.vcid = 64", "tc.map = 64", "tc.map = no",
                          "tc.window = 0", "tc.window = 21", "tc.window = 256", "tc.fecf = Yes", "tc.idle = 256", "tm.length = 2049", "tm.length = 31", "tm.vcid = 8",
                          "apid = 0", "apid = 2047", "source = 65536", "time.epoch = -0", "time.epoch = -378691201", "time.epoch = 4102444800", "time.fine = 1",
                          "rehearsal = none", "scid = 1=1", "tc.idle = 1.0", "tm.length = --40"]}


def profile_lines(dice: Random, settings: dict[str, str]) -> list[str]:
    """Draws lines of these settings, in any order, with comments and spaces."""
    lines = [f"{dice.choice(['', '  '])}{key}{dice.choice(['=', ' = ', '  ='])}{value}{dice.choice(['', ' '])}" for key, value in settings.items()]
    lines += [it for it in ("", "   ", "# scid = 2000", "  #") if dice.random() < 0.3]
    dice.shuffle(lines)
    return lines


def a_profile_comes_back(dice: Random) -> Pairs:
    """A text in any spelling is read; what is printed reads back; a faulty line is told, the first one, with the first word that applies."""
    settings = some_settings(dice)
    lines = profile_lines(dice, settings)
    text = dice.choice(["\n", "\r\n"]).join(lines) + dice.choice(["\n", "\r\n", ""])
    read = read_profile(text.encode())
    yield {key: settings.get(key) for key in READERS if key in settings}, {key: value for key, _, value in printed(read) if key in settings}
    yield read_profile(profile_text(read).encode()), read
    yield settings_of(read).count("=") <= len(settings), True
    word = dice.choice([*BAD_LINES])
    line = dice.choice(BAD_LINES[word])
    if line.partition("=")[0].strip() not in settings:
        at = dice.randint(0, len(lines))
        later = [dice.choice(["scid", "none = 0", "tm.vcid = 9"])] if dice.random() < 0.5 else []
        yield profile_or_word("\n".join([*lines[:at], line, *lines[at:], *later, ""]).encode("latin-1")), f"{at + 1} {word}"
    if settings:
        key = dice.choice([*settings])
        yield profile_or_word("\n".join([*lines, f"{key} = {dice.choice([some_value(dice, key), 'x'])}"]).encode()), f"{len(lines) + 1} KeyTwice"
    room = 4096 - sum(len(it) + 1 for it in lines)
    filler = "\n".join([*lines, " " * room])
    yield profile_or_word(filler.encode()), read
    yield profile_or_word(filler.encode() + b" "), "0 TooLong"
    yield profile_or_word(b"tc.fecf = no\ntc.correct = yes\n"), "0 Clash"


def printed(profile: Profile) -> list[list[str]]:
    """Returns the words of the lines that a profile prints."""
    return [it.split(" ") for it in profile_text(profile).splitlines()]


# ---- codes

def a_check_finds(dice: Random) -> Pairs:
    """The check finds up to three wrong bits, any odd number of them, and a burst of up to 16 bits; it is linear."""
    data = some_octets(dice, 1, 60)
    whole = octets.closed(data, True)
    yield octets.crc(whole), 0
    yield octets.crc(damaged(dice, whole, dice.choice([1, 2, 3, 5, 7]))) != 0, True
    begin = dice.randrange(8 * len(whole) - 15)
    burst = [begin + it for it in range(16) if dice.random() < 0.5] or [begin]
    yield octets.crc(turned(whole, burst)) != 0, True
    error = dice.randbytes(len(data))
    moved = bytes(a ^ b for a, b in zip(data, error))
    yield octets.crc(moved), octets.crc(data) ^ octets.remainder(error, 16, 0x1021, 0)


def a_codeblock_bears(dice: Random) -> Pairs:
    """A codeblock comes back; up to three wrong bits are found, one is mended, two are not taken; the tail bears two."""
    data = some_octets(dice, 7, 7)
    block = octets.codeblock(data)
    for correct in (False, True):
        yield octets.information(block, correct), data
        yield octets.information(damaged(dice, block, 2), correct), None
        yield octets.information(damaged(dice, octets.TAIL, dice.randrange(3)), correct), None
    place = dice.choice([dice.randrange(64), 62, 63])
    yield octets.information(turned(block, [place]), True), data
    yield octets.information(damaged(dice, block, dice.choice([1, 2, 3])), False), None
    some = some_octets(dice, 0, 300)
    yield octets.randomized(octets.randomized(some)), some
    length = dice.randint(0, 300)
    yield octets.sequence(length + 255)[255:], octets.sequence(length)


# ---- frames

def tc_fault(dice: Random, profile: Profile, word: str, octets_of: bytes) -> bytes:
    """Makes a telecommand frame faulty, by the word for it. Its check is made right afterwards."""
    made = bytearray(octets_of)
    if word in ("Version", "Spacecraft", "Channel"):
        first, bits = {"Version": (0, (0, 1, 4, 5)), "Spacecraft": (6, range(10)), "Channel": (16, range(6))}[word]
        return turned(octets_of, [first + dice.choice(list(bits))])
    if word == "Kind":
        made[0] = made[0] & 0xcf | dice.choice([1, 2]) << 4
    elif made[0] >> 4 & 3 == 0:
        made[5] ^= 1 << dice.randrange(8)
    elif dice.random() < 0.5:
        made[4] = dice.randint(1, 255)
    else:
        made[5] ^= dice.choice([1, 2, 4, 8, 16])
    return bytes(made)


def a_tc_frame_comes_back(dice: Random) -> Pairs:
    """A telecommand frame comes back; wrong bits and lengths are found; of several faults the first is told; nothing else is taken."""
    profile = some_profile(dice)
    frame = some_up(dice, profile)
    made = octets.tc_frame(profile, frame)
    yield octets.read_tc_frame(profile, made), frame
    if profile.tc_fecf:
        yield read_or_word(lambda: octets.read_tc_frame(profile, damaged(dice, made, dice.choice([1, 2, 3])))) in ("Length", "Check"), True
    words = [it for it in ("Version", "Spacecraft", "Channel", "Kind") if dice.random() < 0.3]
    if (not isinstance(frame, Ad) or profile.tc_map is not None) and dice.random() < 0.5:
        words.append("Content")
    faulty = made
    for it in reversed(words):
        faulty = tc_fault(dice, profile, it, faulty)
    faulty = sealed(faulty) if profile.tc_fecf else faulty
    yield read_or_word(lambda: octets.read_tc_frame(profile, faulty)), words[0] if words else frame
    if profile.tc_fecf:
        yield read_or_word(lambda: octets.read_tc_frame(profile, faulty[:-1] + bytes([faulty[-1] ^ 1]))), "Check"
    longer = dice.choice([faulty + b"\0", faulty[:-1], faulty[:dice.randrange(len(faulty))]])
    yield read_or_word(lambda: octets.read_tc_frame(profile, longer)), "Length"
    any_octets = bytearray(some_octets(dice, 4, 40))
    any_octets[:4] = made[:2] + bytes([profile.tc_vcid << 2, len(any_octets) - 1])
    any_octets[0] = dice.choice([any_octets[0], 0x30 | any_octets[0] & 3, dice.randrange(256)])
    yield from nothing_else(lambda: octets.read_tc_frame(profile, bytes(any_octets)), lambda it: octets.tc_frame(profile, it), bytes(any_octets))


def nothing_else(read: Callable[[], object], write: Callable[..., bytes], given: bytes) -> Pairs:
    """Octets are refused, or are exactly those that are written for what is read."""
    found = read_or_word(read)
    if not isinstance(found, str):
        yield write(found), given


def a_tm_frame_comes_back(dice: Random) -> Pairs:
    """The same of a telemetry frame, whose control word is handed on if it is ours."""
    profile = some_profile(dice, dice.choice([32, 40, 64]))
    frame = some_down(dice, profile)
    made = octets.tm_frame(profile, frame)
    yield (len(made), octets.read_tm_frame(profile, made)), (profile.tm_length, frame)
    words = [it for it in ("Version", "Spacecraft") if dice.random() < 0.5]
    faulty = turned(made, [{"Version": dice.randrange(2), "Spacecraft": dice.randint(2, 11)}[it] for it in words])
    faulty = sealed(faulty) if profile.tm_fecf else faulty
    yield read_or_word(lambda: octets.read_tm_frame(profile, faulty)), words[0] if words else frame
    yield read_or_word(lambda: octets.read_tm_frame(profile, dice.choice([faulty + b"\0", faulty[:-1]]))), "Length"
    if profile.tm_fecf:
        yield read_or_word(lambda: octets.read_tm_frame(profile, damaged(dice, faulty, dice.choice([1, 2, 3])))), "Check"
    word = dice.getrandbits(32) & 0x7f03ffff | profile.tc_vcid << 18
    other = dice.choice([word ^ 1 << 31, word ^ 1 << dice.randint(18, 23)])
    yield (octets.our_word(profile, word), octets.our_word(profile, other)), (word, None)


# ---- CLTUs in streams

def some_stream(dice: Random, profile: Profile, frames: Sequence[Up]) -> list[bytes]:
    """Draws the CLTUs of frames, each after idle octets."""
    return [IDLE + octets.cltu(octets.tc_frame(profile, it), profile.tc_randomizer) for it in frames]


def frames_of(profile: Profile, found: Sequence[bytes]) -> list[Up]:
    """Returns the frames of candidates that are taken."""
    made = [octets.frame_in(it, profile.tc_randomizer) for it in found]
    read = [read_or_word(lambda it=it: octets.read_tc_frame(profile, it)) for it in made if it is not None]  # type: ignore[misc]
    return [it for it in read if not isinstance(it, str)]  # type: ignore[misc]


def cltus_come_back(dice: Random) -> Pairs:
    """CLTUs come back whole after any noise and 15 idle octets, one after the other without idle octets, and in any pieces."""
    profile = some_profile(dice)
    frames = [some_up(dice, profile, 30) for _ in range(dice.randint(1, 4))]
    first = octets.tc_frame(profile, frames[0])
    made = octets.cltu(first, profile.tc_randomizer)
    yield len(made), 10 + 8 * -(-len(first) // 7)
    noise = some_octets(dice, 0, 40) if dice.random() < 0.5 else octets.START + octets.codeblock(some_octets(dice, 7, 7)) + some_octets(dice, 0, 9)
    before = octets.candidates(noise + IDLE, profile.tc_correct)
    stream = noise + b"".join(some_stream(dice, profile, frames))
    found = octets.candidates(stream, profile.tc_correct)
    yield found[:len(before)], before
    yield frames_of(profile, found[len(before):]), frames
    close = octets.sent_up(profile, [octets.tc_frame(profile, it) for it in frames])
    yield frames_of(profile, octets.candidates(close, profile.tc_correct)), frames
    yield len(close), sum(profile.tc_idle + len(octets.cltu(octets.tc_frame(profile, it), False)) for it in frames)
    pieces, reader = cut(dice, stream + noise), CltuReader(profile.tc_correct)
    yield [it for piece in pieces for it in reader.take(piece)], octets.candidates(stream + noise, profile.tc_correct)


def damaged_cltus_are_lost(dice: Random) -> Pairs:
    """Of CLTUs with 1 to 4 wrong bits, cut ones, and noise between, what is taken is what was sent; those that are whole are taken. A mended one is taken, too."""
    profile = some_profile(dice)
    frames = [some_up(dice, profile, 30) for _ in range(dice.randint(1, 4))]
    parts, whole = [], []
    for cltu, frame in zip(some_stream(dice, profile, frames), frames):
        hurt = dice.choice(["no", "bits", "cut", "noise", "one"])
        whole += [frame] if hurt in ("no", "noise") or hurt == "one" and profile.tc_correct else []
        if hurt == "bits":
            cltu = IDLE + damaged(dice, cltu[len(IDLE):], dice.choice([1, 2, 3, 4]) if profile.tc_fecf else 1)
        elif hurt == "one":
            cltu = cltu[:17] + damaged(dice, cltu[17:25], 1) + cltu[25:]
        elif hurt == "cut":
            cltu = cltu[:dice.randint(len(IDLE), len(cltu) - 1)]
        parts.append(cltu if hurt != "noise" else dice.randbytes(dice.randrange(30)) + cltu)
    stream = b"".join(parts)
    taken = frames_of(profile, octets.candidates(stream, profile.tc_correct))
    if profile.tc_fecf:
        yield is_within(taken, frames), True
    yield is_within(whole, taken), True
    reader = CltuReader(profile.tc_correct)
    yield [it for piece in cut(dice, stream) for it in reader.take(piece)], octets.candidates(stream, profile.tc_correct)


def is_within(some: Sequence[object], all_of: Sequence[object]) -> bool:
    """Returns whether a list is left of another when some of that are taken out."""
    rest = iter(all_of)
    return all(any(it == other for other in rest) for it in some)


# ---- packets, carried down

def lists_of(dice: Random) -> list[list[bytes]]:
    """Draws lists of packets."""
    return [[some_packet(dice, dice.choice([8, 40, 200])) for _ in range(dice.choice([0, 0, 1, 2, 5]))] for _ in range(dice.randint(1, 5))]


def packets_come_down(dice: Random) -> Pairs:
    """Packets over frames come out without a mark. If whole frames are lost, those come out all of whose octets came."""
    profile = some_profile(dice, dice.choice([32, 40, 64, 300]))
    sender = Sender(profile, edge(dice, 0, 255), edge(dice, 0, 255))
    sent, frames, needed = [], list[bytes](), list[tuple[bytes, set[int]]]()
    for packs in lists_of(dice):
        at, made = 0, sender.send(dice.getrandbits(32), packs)
        for it in packs:
            needed.append((it, {len(frames) + place // data_length(profile) for place in range(at, at + len(it))}))
            at += len(it)
        frames += made
        sent += packs
    read = [octets.read_tm_frame(profile, it) for it in frames]
    yield {it.vcid for it in read}, {profile.tm_vcid}
    receiver = Receiver()
    items = [item for it in read for item in receiver.frame(it)]
    yield [it for it in items if not is_idle(it)], sent
    lost = {it for it in range(len(frames)) if dice.random() < 0.3}
    receiver = Receiver()
    items = [item for at, it in enumerate(read) if at not in lost for item in receiver.frame(it)]
    yield [it for it in items if isinstance(it, bytes) and not is_idle(it)], [it for it, places in needed if not places & lost]
    came = [it for it in range(len(frames)) if it not in lost]
    yield items.count(GAP), sum(two - one > 1 for one, two in zip(came, came[1:]))
    if came:
        yield receiver.expected, (read[came[-1]].channel_count + 1) % 256


def is_idle(item: Item) -> bool:
    """Returns whether an item is an idle packet."""
    return isinstance(item, bytes) and item[0] & 7 == 7 and item[1] == 255


def any_frames_are_borne(dice: Random) -> Pairs:
    """Frames of any content give whole packets and marks, and no more is kept than a packet."""
    profile = some_profile(dice, 40)
    receiver = Receiver()
    count = dice.randrange(256)
    for _ in range(10):
        pointer = dice.choice([0, 5, 27, 28, 40, 2045, 2046, 2047, dice.randrange(2048)])
        down = some_down(dice, profile)._replace(channel_count=count, status=dice.choice([3, 3, 3, 3, 0, 7, 31]) << 11 | pointer)
        data = bytes(dice.choice([0, 0, 0, 8, 32, 255]) for _ in down.data)
        for it in receiver.frame(down._replace(data=data)):
            if isinstance(it, bytes):
                yield packets.read_space_packet(it).data, it[6:]
        yield len(receiver.part) <= 65_541 and (not receiver.part or receiver.part[0] < 32), True
        count = (count + dice.choice([1, 1, 1, 2])) % 256


def marked_frames_come_down(dice: Random) -> Pairs:
    """Frames after markers come out of a stream in any pieces, with noise between. Damaged and cut ones do not."""
    profile = some_profile(dice, dice.choice([32, 40]))
    parts, good = [], []
    for _ in range(dice.randint(1, 5)):
        frame = octets.tm_frame(profile, some_down(dice, profile))
        hurt = dice.choice(["no", "no", "bits", "cut"]) if profile.tm_fecf else "no"
        good += [frame] if hurt == "no" else []
        sent = {"no": frame, "bits": damaged(dice, frame, dice.choice([1, 2, 3])), "cut": frame[:dice.randrange(len(frame))]}[hurt]
        noise = bytes(dice.choice([0x00, 0x1a, 0xcf, 0xfc]) for _ in range(dice.randrange(6)))
        parts.append(noise + octets.marked([sent]))
    stream = b"".join(parts)
    whole = octets.marked_frames(profile, stream + bytes(profile.tm_length + 4))
    yield whole, good
    reader = MarkerReader(profile)
    found = []
    for piece in cut(dice, stream):
        found += reader.take(piece)
        yield len(reader.waiting) < profile.tm_length + 4, True
    yield found + reader.take(bytes(profile.tm_length + 4)), whole


# ---- requests and reports

def a_request_comes_back(dice: Random) -> Pairs:
    """A request that fits comes back through all layers; wrong bits are found; what is read fits, and is written so."""
    profile = some_profile(dice)
    flight = some_flight(dice, profile)
    packet = packets.telecommand(profile, flight)
    frame = octets.tc_frame(profile, Ad(edge(dice, 0, 255), packet))
    yield (fits(profile, flight), len(packet) <= 958, len(frame) <= 966), (True, True, True)
    yield packets.read_telecommand(profile, packet), flight
    found = octets.candidates(octets.cltu(frame, profile.tc_randomizer), profile.tc_correct)
    yield [it.packet for it in frames_of(profile, found) if isinstance(it, Ad)], [packet]
    yield read_or_word(lambda: packets.read_telecommand(profile, damaged(dice, packet, dice.choice([1, 2, 3])))) in ("Length", "Check"), True
    places = [dice.randrange(88, 8 * len(packet) - 16) for _ in range(dice.randint(1, 3))] if len(packet) > 13 else []
    changed = sealed(turned(packet, places))
    read = read_or_word(lambda: packets.read_telecommand(profile, changed))
    if isinstance(read, packets.Flight):
        yield fits(profile, read), True
        yield packets.telecommand(profile, read) == changed or profile.time_fine > 0, True
    else:
        yield read, "Data"
    yield from first_words(dice, profile, packet)
    yield from misfits(dice, profile)


def first_words(dice: Random, profile: Profile, packet: bytes) -> Pairs:
    """Of several faults of a telecommand the first is told, and the rehearsal spacecraft names the request if it can."""
    made, words = bytearray(packet), [it for it in ("Header", "Subtype", "Data") if dice.random() < 0.5]
    if "Data" in words:
        made += bytes(98)
        made[4:6] = (len(made) - 7).to_bytes(2, "big")
    if "Subtype" in words:
        made[7:9] = dice.choice([b"\0\1", b"\1\0", bytes([11, dice.choice([0, 6, 8, 13, 16, 18, 255])])])
    head = dice.choice(["version", "type", "secondary", "flags", "idle", "pus", "source"]) if "Header" in words else "none"
    places = {"version": [dice.randrange(3)], "type": [3], "secondary": [4], "flags": [dice.choice([16, 17])], "pus": [dice.randint(48, 51)],
              "source": [dice.randint(72, 87)]}.get(head, [])
    made[:] = turned(bytes(made), places)
    if head == "idle":
        made[0:2] = b"\x1f\xff"
    made[:] = sealed(bytes(made))
    if words:
        yield read_or_word(lambda: packets.read_telecommand(profile, bytes(made))), words[0]
        first, second = int.from_bytes(made[:2], "big"), int.from_bytes(made[2:4], "big")
        is_named = head in ("none", "pus", "source")
        code = {"Header": 10, "Subtype": 11, "Data": 12}[words[0]]
        yield packets.rejection(bytes(made), words[0]), ((first & 0x7ff, second & 0x3fff), code) if is_named else None
    wrong = bytes(made[:-1]) + bytes([made[-1] ^ 1 << dice.randrange(8)])
    yield read_or_word(lambda: packets.read_telecommand(profile, wrong)), "Check"
    yield read_or_word(lambda: packets.read_telecommand(profile, dice.choice([wrong + b"\0", wrong[:-1], wrong[:12]]))), "Length"
    short = bytes(made[:4]) + bytes([0, 5]) + bytes(made[6:12])
    yield read_or_word(lambda: packets.read_telecommand(profile, short)), "Length"
    yield packets.rejection(packet[:dice.randrange(4)], "Length"), None
    yield packets.rejection(packet[:dice.randint(4, 12)], "Length"), (packets.Identity(int.from_bytes(packet[:2], "big") & 0x7ff, int.from_bytes(packet[2:4], "big") & 0x3fff), 8)


def misfits(dice: Random, profile: Profile) -> Pairs:
    """Requests that are just past what can fly do not fit."""
    plain = some_plain(dice, profile)
    task = plain.task
    assert isinstance(task, packets.Plain)
    idle, first, last = packets.Identity(2047, 0), packets.first_moment(profile), packets.last_moment(profile)
    bad = [plain._replace(identity=idle), plain._replace(task=task._replace(data=bytes(97))),
           plain._replace(task=task._replace(outcome=None if profile.rehearsal else "ok")), plain._replace(task=packets.Delete(idle)),
           plain._replace(task=packets.Shift(idle, 0)), plain._replace(task=packets.Shift(plain.identity, 1 << 31)),
           plain._replace(task=packets.ShiftAll((-1 << 31) - 1))]
    inserts: list[Sequence[tuple[int, packets.Flight]]] = [[(first - 1, plain)], [(first, plain), (last + 1, plain)], *([(first, it)] for it in bad[:3])]
    bad += [plain._replace(task=packets.Insert(tuple(it))) for it in inserts]
    yield [fits(profile, it) for it in bad], [False] * len(bad)
    edges: list[packets.Task] = [packets.Insert(((first, plain), (last, plain))), packets.ShiftAll((1 << 31) - 1), packets.Shift(plain.identity, -1 << 31)]
    yield [fits(profile, plain._replace(task=it)) for it in edges], [True] * 3


def a_report_comes_back(dice: Random) -> Pairs:
    """A report comes back, whatever stands in the fields that are ignored; wrong bits are found; of several faults the first is told."""
    profile = some_profile(dice)
    told, count = some_told(dice, profile), edge(dice, 0, 16_383)
    made = packets.report(profile, count, edge(dice, packets.first_moment(profile), packets.last_moment(profile)), told)
    heard = Heard(profile.apid, count, told)
    yield packets.read_report(profile, made), heard
    ignored = bytearray(made)
    ignored[6] |= dice.randrange(16)
    ignored[9:11], ignored[13:17 + profile.time_fine] = dice.randbytes(2), dice.randbytes(4 + profile.time_fine)
    yield packets.read_report(profile, sealed(bytes(ignored))), heard
    hurt = read_or_word(lambda: packets.read_report(profile, damaged(dice, made, dice.choice([1, 2, 3]))))
    yield hurt == Idle() or hurt in ("Length", "Version", "Header", "Check"), True
    yield from report_words(dice, profile, made)
    yield from report_data(dice, profile, made, told)


def report_words(dice: Random, profile: Profile, made: bytes) -> Pairs:
    """Of several faults of a report the first is told."""
    read: Callable[[bytes], object] = lambda it: read_or_word(lambda: packets.read_report(profile, it))
    steps: dict[str, list[int]] = {"Version": [dice.randrange(3)], "idle": [], "Header": [dice.choice([3, 4, 16, 17])], "Check": [], "PUS": [dice.randint(48, 51)],
             "other": [dice.choice([dice.randint(88, 103), 60])], "Data": [104 + 8 * (profile.time_fine + 4)]}
    chosen = [it for it in steps if dice.random() < 0.4]
    if "other" in chosen and "Data" in chosen:
        chosen.remove("Data")
    faulty = turned(made, [place for it in chosen for place in steps[it]])
    faulty = bytes([faulty[0] | 7, 255]) + faulty[2:] if "idle" in chosen else faulty
    faulty = sealed(faulty)
    if "Check" in chosen:
        faulty = faulty[:-1] + bytes([faulty[-1] ^ 4])
    wanted = {"idle": Idle(), "PUS": "Header", "other": packets.Other(faulty[7], faulty[8])}
    if chosen:
        yield read(faulty), wanted.get(chosen[0], chosen[0])
    yield read(faulty + b"\0"), "Length"
    short = bytearray(made[:dice.randint(7, 14 + profile.time_fine + 3)])
    short[4:6] = (len(short) - 7).to_bytes(2, "big")
    yield read(bytes(short)), "Length"


def report_data(dice: Random, profile: Profile, made: bytes, told: packets.Told) -> Pairs:
    """Data are told that are one octet off, or of another source; octets after the code of a failure are ignored."""
    begin = 17 + profile.time_fine
    longer, shorter = (made[:4] + (len(it) - 7).to_bytes(2, "big") + it[6:] for it in (made[:-2] + b"\2" + made[-2:], made[:-3] + made[-2:]))
    is_failure = isinstance(told, packets.Verification) and told.code is not None
    is_silent = isinstance(told, packets.Summary) and told.enabled is not None
    read: Callable[[bytes], object] = lambda it: read_or_word(lambda: packets.read_report(profile, sealed(it)))
    one, two = read(longer), read(shorter)
    yield one if not is_failure else getattr(one, "told", None), told if is_failure else "Data"
    yield two if not is_silent else getattr(two, "told", None), told._replace(enabled=None) if isinstance(told, packets.Summary) and is_silent else "Data"
    if isinstance(told, packets.Summary) and told.activities:
        at = begin + 1 + dice.randrange(len(told.activities)) * (10 + profile.time_fine) + 4 + profile.time_fine
        other = bytearray(made)
        other[at] ^= 1
        passed = read(bytes(other))
        assert isinstance(passed, Heard) and isinstance(passed.told, packets.Summary)
        yield (passed.passed, len(passed.told.activities)), (1, len(told.activities) - 1)
        for place, value in ((at + 2, b"\x07\xff"), (at + 4, b"\x40\0")):
            other = bytearray(made)
            other[place:place + 2] = value
            yield read(bytes(other)), "Data"
        yield read(made[:begin] + b"\x41" + made[begin + 1:]), "Data"


LAWS: tuple[Callable[[Random], Pairs], ...] = (
    a_profile_comes_back, a_check_finds, a_codeblock_bears, a_tc_frame_comes_back, a_tm_frame_comes_back, cltus_come_back, damaged_cltus_are_lost, packets_come_down,
    any_frames_are_borne, marked_frames_come_down, a_request_comes_back, a_report_comes_back)


def law_answers(law: Callable[[Random], Pairs], seed: int, stop: Optional[int] = None) -> Iterator[Answer]:
    """Returns the answers of a law on values drawn by a seed, or on those of the seeds up to `stop`."""
    for number in range(seed, seed + 1 if stop is None else stop):
        for at, (got, wanted) in enumerate(law(Random(f"{law.__name__} {number}"))):
            yield Answer(f"{law.__name__}, seed {number}, {at}", got, wanted)
