#!/usr/bin/env python3
"""Prints lines for the program of crates/tc_octets_tests: tools/generate/octet_lines.py COUNT [SEED]

Each has random octets of a layer, as the plain writers of tools/model make them. The program reads them and writes them again, so it has to print the
same lines. Every ninth line sets a random profile for the eight after it, one of each layer.
"""
import sys
from binascii import crc_hqx
from collections.abc import Callable, Iterator
from functools import cache
from pathlib import Path
from random import Random

sys.path.insert(0, str(Path(__file__).resolve().parent.parent))
from generate.octet_values import edge, some_down, some_flight, some_identity, some_moment, some_octets, some_packet, some_profile, some_told, some_up
from model import octets as plain
from model.carriers import Sender
from model.octets import Ad, cltu, tc_frame, tm_frame
from model.packets import SpacePacket, report, space_packet, telecommand
from model.profiles import Profile, profile_text

plain_remainder = plain.remainder


@cache
def table(width: int, generator: int) -> list[int]:
    """Returns what the plain code leaves of each octet."""
    return [plain_remainder(bytes([octet]), width, generator, 0) for octet in range(256)]


def quick_remainder(octets: bytes, width: int, generator: int, register: int) -> int:
    """Returns what the plain code leaves of octets: by Python's own CRC, or by the plain code's table, an octet at a time."""
    if (width, generator) == (16, 0x1021):
        return crc_hqx(octets, register)
    left, shift = table(width, generator), width - 8
    for octet in octets:
        first = register >> shift if shift >= 0 else register << -shift
        register = (register << 8 & (1 << width) - 1) ^ left[first & 0xff ^ octet]
    return register


def some_space(dice: Random) -> bytes:
    """Draws a space packet of any header."""
    apid, count = edge(dice, 0, 2047), some_identity(dice).sequence
    return space_packet(SpacePacket(dice.randrange(2), dice.randrange(2), apid, dice.randrange(4), count, some_octets(dice, 1, dice.choice([8, 300]))))


def some_request(dice: Random, profile: Profile) -> bytes:
    """Draws the CLTU of a request."""
    frame = tc_frame(profile, Ad(edge(dice, 0, 255), telecommand(profile, some_flight(dice, profile))))
    return cltu(frame, profile.tc_randomizer)


def some_cltus(dice: Random, profile: Profile) -> bytes:
    """Draws one to three CLTUs, one after the other."""
    return b"".join(cltu(tc_frame(profile, some_up(dice, profile)), profile.tc_randomizer) for _ in range(dice.choice([1, 1, 2, 3])))


def some_carriers(dice: Random, profile: Profile) -> bytes:
    """Draws packets over telemetry frames, none of them idle."""
    sender = Sender(profile, edge(dice, 0, 255), edge(dice, 0, 255))
    packets = [some_packet(dice, dice.choice([20, 200])) for _ in range(dice.choice([0, 1, 2, 5]))]
    return b"".join(sender.send(dice.getrandbits(32), packets))


LAYERS: dict[str, Callable[[Random, Profile], bytes]] = {
    "frame": lambda dice, profile: tc_frame(profile, some_up(dice, profile)),
    "cltu": some_cltus,
    "request": some_request,
    "space": lambda dice, profile: some_space(dice),
    "telecommand": lambda dice, profile: telecommand(profile, some_flight(dice, profile)),
    "report": lambda dice, profile: report(profile, some_identity(dice).sequence, some_moment(dice, profile), some_told(dice, profile)),
    "tm": lambda dice, profile: tm_frame(profile, some_down(dice, profile)),
    "carriers": some_carriers,
}


def lines(count: int, seed: int) -> Iterator[str]:
    """Returns so many lines of layers, and those of their profiles."""
    dice, profile, names = Random(seed), Profile(), [*LAYERS]
    for number in range(count):
        if number % len(names) == 0:
            profile = some_profile(dice)
            yield f"profile {profile_text(profile).encode().hex()}"
        name = names[number % len(names)]
        yield f"{name} {LAYERS[name](dice, profile).hex()}"


def main() -> int:
    """Prints the lines."""
    plain.remainder, plain.sequence = quick_remainder, cache(plain.sequence)
    for line in lines(int(sys.argv[1]), int(sys.argv[2]) if len(sys.argv) > 2 else 1):
        print(line)
    return 0


if __name__ == "__main__":
    sys.exit(main())
