"""Random values of a link: profiles, requests, reports and frames, and what a line makes of octets."""
from collections.abc import Sequence
from random import Random
from typing import Optional

from model.octets import Ad, Down, SetVr, Unlock, Up
from model.packets import (BARE, FAILURES, LAST_COUNT, MOST_DATA, MOST_INSERTED, STEPS, SUCCESSES, Bare, Delete, Flight, Insert, Plain, Shift, ShiftAll, SpacePacket,
                           Summary, Task, Told, Verification, first_moment, last_moment, space_packet)
from model.profiles import FIRST_EPOCH, LAST_MOMENT, READERS, Profile, field_of, profile_of, spelled
from model.request import Identity

LIMITS = {"scid": (0, 1023), "tc.vcid": (0, 63), "tc.map": (0, 63), "tc.idle": (0, 255), "tm.length": (32, 2048), "tm.vcid": (0, 7), "apid": (1, 2046),
          "source": (0, 65_535), "time.epoch": (FIRST_EPOCH, LAST_MOMENT)}


def edge(dice: Random, least: int, most: int) -> int:
    """Draws a number, and its limits often."""
    return dice.choice([least, most, dice.randint(least, most), dice.randint(least, most), dice.randint(least, min(least + 8, most))])


def some_octets(dice: Random, least: int, most: int) -> bytes:
    """Draws octets, `least` to `most` of them; at times all the same, as idle octets are."""
    length = edge(dice, least, most)
    return bytes([dice.choice([0, 0x55, 0xff])]) * length if dice.random() < 0.1 else dice.randbytes(length)


def some_value(dice: Random, key: str) -> str:
    """Draws a value of a key, as it is spelled."""
    if key == "tc.window":
        return str(2 * edge(dice, 1, 127))
    if key == "time.fine":
        return dice.choice(["0", "2"])
    if key not in LIMITS or key == "tc.map" and dice.random() < 0.5:
        return "none" if key == "tc.map" else dice.choice(["yes", "no"])
    return str(edge(dice, *LIMITS[key]))


def some_settings(dice: Random) -> dict[str, str]:
    """Draws settings that fit together, of some keys."""
    found = {key: some_value(dice, key) for key in READERS if dice.random() < 0.5}
    if found.get("tc.correct") == "yes":
        found.pop("tc.fecf", None)
    return found


def some_profile(dice: Random, length: Optional[int] = None) -> Profile:
    """Draws a profile; its frames come down with so many octets if they are given."""
    found = some_settings(dice) | ({} if length is None else {"tm.length": str(length)})
    return profile_of("; ".join(f"{key} = {value}" for key, value in found.items()) or "defaults")


def settings_of(profile: Profile) -> str:
    """Spells the keys in which a profile differs from the defaults."""
    keys = [it for it in READERS if getattr(profile, field_of(it)) != getattr(Profile(), field_of(it))]
    return "; ".join(f"{it} = {spelled(getattr(profile, field_of(it)))}" for it in keys) or "defaults"


# ---- requests and reports

def some_identity(dice: Random) -> Identity:
    """Draws an identity that can fly."""
    return Identity(edge(dice, 0, 2046), edge(dice, 0, LAST_COUNT))


def some_ack(dice: Random) -> str:
    """Draws which reports are asked for."""
    return "".join(dice.choice([it, "-"]) for it in "aspc")


def some_outcome(dice: Random) -> str:
    """Draws an outcome."""
    steps, code = edge(dice, 1, 9), edge(dice, 16, 255)
    return dice.choice(["ok", f"ok/{steps}", f"refuse/{code}", f"nostart/{code}", f"halt/{steps}/{code}", f"fail/{code}"])


def some_plain(dice: Random, profile: Profile) -> Flight:
    """Draws a plain request that fits."""
    service = edge(dice, 1, 255)
    data = some_octets(dice, 0, MOST_DATA)
    task = Plain(service if service != 11 else 8, edge(dice, 1, 255), data, some_outcome(dice) if profile.rehearsal else None)
    return Flight(some_identity(dice), some_ack(dice), task)


def some_moment(dice: Random, profile: Profile) -> int:
    """Draws a moment that has octets."""
    return edge(dice, first_moment(profile), last_moment(profile))


def some_offset(dice: Random) -> int:
    """Draws an offset that has octets."""
    return edge(dice, -1 << 31, (1 << 31) - 1)


def some_flight(dice: Random, profile: Profile) -> Flight:
    """Draws a request that fits."""
    kind = dice.randrange(6)
    if kind == 0:
        return some_plain(dice, profile)
    number = dice.choice([1, 2, 3, MOST_INSERTED])
    tasks: list[Task] = [Bare(dice.choice(BARE)), Delete(some_identity(dice)), Shift(some_identity(dice), some_offset(dice)), ShiftAll(some_offset(dice)),
                         Insert(tuple((some_moment(dice, profile), some_plain(dice, profile)) for _ in range(number)))]
    return Flight(some_identity(dice), some_ack(dice), tasks[kind - 1])


def some_told(dice: Random, profile: Profile) -> Told:
    """Draws a report."""
    if dice.random() < 0.3:
        rows = [(some_moment(dice, profile), some_identity(dice)) for _ in range(dice.choice([0, 1, 2, 5, 64]))]
        return Summary(dice.choice([None, True, False]), tuple(rows))
    subtype = dice.choice([*SUCCESSES, *FAILURES])
    step, code = dice.randrange(256), dice.randrange(256)
    return Verification(subtype, some_identity(dice), step if subtype in STEPS else None, code if subtype in FAILURES else None)


def some_packet(dice: Random, most: int = 200) -> bytes:
    """Draws a packet that is no idle one, of 7 to `most` octets."""
    return space_packet(SpacePacket(0, 1, edge(dice, 0, 2046), dice.randrange(4), edge(dice, 0, LAST_COUNT), some_octets(dice, 1, most - 6)))


# ---- frames

def some_up(dice: Random, profile: Profile, most: int = 60) -> Up:
    """Draws a telecommand frame; one with a packet has 1 to `most` octets of it, and at times the greatest number."""
    number = edge(dice, 0, 255)
    greatest = 1019 - 2 * profile.tc_fecf - (profile.tc_map is not None)
    length = greatest if dice.random() < 0.03 else edge(dice, 1, most)
    frames: list[Up] = [Ad(number, some_octets(dice, length, length)), Unlock(), SetVr(number)]
    return frames[dice.choice([0, 0, 1, 2])]


def some_down(dice: Random, profile: Profile) -> Down:
    """Draws a telemetry frame."""
    word = None if dice.random() < 0.2 else dice.getrandbits(32)
    length = profile.tm_length - 6 - 2 * profile.tm_fecf - (0 if word is None else 4)
    return Down(dice.randrange(8), edge(dice, 0, 255), edge(dice, 0, 255), dice.getrandbits(16), some_octets(dice, length, length), word)


# ---- what a line makes of octets

def turned(octets: bytes, places: Sequence[int]) -> bytes:
    """Turns the bits at these places."""
    made = bytearray(octets)
    for it in places:
        made[it // 8] ^= 0x80 >> it % 8
    return bytes(made)


def damaged(dice: Random, octets: bytes, errors: int) -> bytes:
    """Turns so many bits."""
    return turned(octets, dice.sample(range(8 * len(octets)), errors))


def cut(dice: Random, octets: bytes) -> list[bytes]:
    """Cuts octets into pieces, some of them empty."""
    ends = sorted(dice.randint(0, len(octets)) for _ in range(dice.randrange(8)))
    return [octets[begin:end] for begin, end in zip([0, *ends], [*ends, len(octets)])]
