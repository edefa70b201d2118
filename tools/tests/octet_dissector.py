"""Space packet headers as Debian's tshark dissects them (its `ccsds`, over UDP): a reading of the standard by others."""
import os
import struct
import subprocess
import tempfile
from collections.abc import Sequence
from random import Random
from shutil import which
from typing import NamedTuple, Optional

from generate.octet_values import edge, some_flight, some_packet, some_profile, some_told
from model.packets import SpacePacket, first_moment, idle_packet, read_space_packet, report, space_packet, telecommand

PORT = 27_200  # of the datagrams in the capture
RAW_IP = 101  # the link type of a capture whose records begin with IP
FIELDS = ("version", "type", "secheader", "apid", "seqflag", "seqnum", "length")


class Header(NamedTuple):
    """The fields of a primary header. The length is that of its last field."""
    version: int
    kind: int
    secondary: int
    apid: int
    flags: int
    sequence: int
    length: int


def tshark() -> Optional[str]:
    """Returns the path of tshark, or None where it is not installed."""
    return which("tshark")


def datagram(octets: bytes) -> bytes:
    """Writes a UDP datagram in an IP packet, from this machine to itself. Checksums are left out."""
    udp = struct.pack("!HHHH", PORT, PORT, 8 + len(octets), 0) + octets
    here = bytes([127, 0, 0, 1])
    return struct.pack("!BBHHHBBH", 0x45, 0, 20 + len(udp), 0, 0, 64, 17, 0) + here + here + udp


def capture(packets: Sequence[bytes]) -> bytes:
    """Writes a capture file of these datagrams."""
    made = struct.pack("<IHHiIII", 0xa1b2c3d4, 2, 4, 0, 0, 65_535, RAW_IP)
    for at, octets in enumerate(packets):
        record = datagram(octets)
        made += struct.pack("<IIII", at, 0, len(record), len(record)) + record
    return made


def number(word: str) -> int:
    """Returns the number that tshark prints: in decimal or in hex, and a flag as a word or a digit."""
    return {"True": 1, "False": 0}[word] if word in ("True", "False") else int(word, 0)


def dissected(program: str, packets: Sequence[bytes]) -> list[Header]:
    """Returns the headers that tshark sees in these packets."""
    with tempfile.TemporaryDirectory() as folder:
        path = os.path.join(folder, "packets.pcap")
        with open(path, "wb") as file:
            file.write(capture(packets))
        fields = [word for name in FIELDS for word in ("-e", f"ccsds.{name}")]
        words = [program, "-n", "-r", path, "-d", f"udp.port=={PORT},ccsds", "-T", "fields", *fields]
        printed = subprocess.run(words, stdin=subprocess.DEVNULL, stdout=subprocess.PIPE, stderr=subprocess.DEVNULL, check=True, text=True).stdout
    return [Header(*(number(word) for word in line.split("\t"))) for line in printed.splitlines()]


def header_of(octets: bytes) -> Header:
    """Returns the header of a packet by the plain reading."""
    packet = read_space_packet(octets)
    return Header(0, packet.kind, packet.secondary, packet.apid, packet.flags, packet.sequence, len(packet.data) - 1)


def some_packets(count: int, seed: int) -> list[bytes]:
    """Draws packets: of requests, of reports, idle ones, and any others."""
    made = []
    for at in range(count):
        dice = Random(f"dissector {seed + at}")
        profile = some_profile(dice)
        count_of, data = edge(dice, 0, 16_383), dice.randbytes(edge(dice, 1, 300))
        other = SpacePacket(dice.randrange(2), dice.randrange(2), edge(dice, 0, 2047), dice.randrange(4), count_of, data)
        down = report(profile, count_of, first_moment(profile), some_told(dice, profile))
        up = telecommand(profile, some_flight(dice, profile))
        made.append(dice.choice([up, down, idle_packet(edge(dice, 7, 300)), some_packet(dice), space_packet(other)]))
    return made
