"""Random texts of octets: frames, CLTUs, packets and telemetry frames of a link, sound or with a fault in one field, as a person may write them."""
from collections.abc import Callable
from random import Random

from generate.octet_values import damaged, edge, some_down, some_flight, some_octets, some_packet, some_told, some_up
from model.carriers import Sender
from model.octets import Ad, cltu, closed, sent_up, tc_frame, tm_frame
from model.packets import idle_packet, report, telecommand
from model.profiles import Profile

IDLE = bytes([0x55])


def changed(dice: Random, octets: bytes, first: int) -> bytes:
    """Gives one octet another value, often one of the first so many."""
    made = bytearray(octets)
    made[dice.randrange(min(first, len(made))) if dice.random() < 0.7 else dice.randrange(len(made))] = dice.choice([0, 1, 0xff, dice.randrange(256)])
    return bytes(made)


def spoiled(dice: Random, octets: bytes, has_check: bool, first: int) -> bytes:
    """Leaves octets as they are, or spoils them: bits that are turned, octets that lack or are left over, or another value under a right check."""
    kind = dice.randrange(8)
    if kind < 3 or len(octets) < 4:
        return octets
    if kind == 3:
        return damaged(dice, octets, dice.randint(1, 3))
    if kind == 4:
        return octets[:dice.randrange(len(octets))] if dice.random() < 0.5 else octets + dice.randbytes(dice.randint(1, 4))
    made = changed(dice, octets[:-2] if has_check else octets, first)
    return closed(made, has_check)


def some_command(dice: Random, profile: Profile) -> bytes:
    """Draws a telecommand packet."""
    return spoiled(dice, telecommand(profile, some_flight(dice, profile)), True, 16)


def some_report(dice: Random, profile: Profile) -> bytes:
    """Draws a telemetry packet: a report, an idle packet, or one of another service."""
    kind = dice.randrange(6)
    if kind == 0:
        return idle_packet(edge(dice, 7, 40))
    if kind == 1:
        return some_packet(dice, 60)
    now = edge(dice, max(0, profile.time_epoch), min(4_102_444_799, profile.time_epoch + (1 << 32) - 1))
    return spoiled(dice, report(profile, edge(dice, 0, 16_383), now, some_told(dice, profile)), True, 24)


def a_packet(dice: Random, profile: Profile) -> bytes:
    """Draws a packet of either kind."""
    return some_command(dice, profile) if dice.random() < 0.5 else some_report(dice, profile)


def a_frame(dice: Random, profile: Profile) -> bytes:
    """Draws a telecommand frame, most often with a telecommand packet."""
    packet = some_command(dice, profile)
    up = Ad(edge(dice, 0, 255), packet) if 0 < len(packet) <= 1016 and dice.random() < 0.6 else some_up(dice, profile)
    return spoiled(dice, tc_frame(profile, up), profile.tc_fecf, 8)


def a_cltu(dice: Random, profile: Profile) -> bytes:
    """Draws a CLTU, or several with idle octets between, damaged at times."""
    frames = [it for it in (a_frame(dice, profile) for _ in range(dice.choice([1, 1, 1, 2, 3]))) if it]
    stream = IDLE * dice.randrange(4) + (sent_up(profile, frames) if dice.random() < 0.5 else b"".join(cltu(it, profile.tc_randomizer) for it in frames))
    return damaged(dice, stream, dice.randint(1, 4)) if stream and dice.random() < 0.3 else stream


def a_tm_frame(dice: Random, profile: Profile) -> bytes:
    """Draws a telemetry frame: one of those that carry some packets, or any."""
    if dice.random() < 0.3:
        return spoiled(dice, tm_frame(profile, some_down(dice, profile)), profile.tm_fecf, 6)
    packets = [it for it in (some_report(dice, profile) for _ in range(dice.randrange(5))) if len(it) >= 7]
    sent = Sender(profile, dice.randrange(256), dice.randrange(256)).send(dice.getrandbits(31), packets)
    return spoiled(dice, dice.choice(sent), profile.tm_fecf, 6)


DRAWN: dict[str, Callable[[Random, Profile], bytes]] = {"frame": a_frame, "cltu": a_cltu, "packet": a_packet, "tm": a_tm_frame}


def spelled(dice: Random, octets: bytes) -> str:
    """Writes octets as pairs of digits, of either case and with spaces between them at times."""
    pairs = [f"{it:02x}" if dice.random() < 0.8 else f"{it:02X}" for it in octets]
    return dice.choice(["", "", " ", "  "]).join(pairs)


def some_text(dice: Random, profile: Profile, layer: str) -> str:
    """Draws a line: octets of a layer, or any octets, or at times a text that spells none."""
    kind = dice.randrange(20)
    if kind == 0:
        text = spelled(dice, some_octets(dice, 1, 8))
        place = dice.randrange(len(text) + 1)
        return text[:place] + dice.choice(["g", " ", "0", "-", "x", "\t", "0x"]) + text[place:]
    if kind < 3:
        return spelled(dice, some_octets(dice, 0, 40))
    return spelled(dice, DRAWN[layer](dice, profile))
