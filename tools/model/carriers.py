"""Packets over telemetry frames, plainly (CCSDS 132.0-B): the sender that cuts them into frames, and the receiver that joins them again. It is written
from the public standards, and asks the program nothing.
"""
from collections.abc import Iterator, Sequence
from typing import Optional, Union

from model.octets import Down, tm_frame
from model.packets import idle_packet, whole_length
from model.profiles import Profile

NO_START, IDLE_DATA = 2047, 2046  # first header pointers
UNSEGMENTED = 3 << 11  # no flag, and a segment length id of 11
GAP, CUT, SKIPPED = "gap", "cut", "skipped"

Item = Union[bytes, str]


def data_length(profile: Profile) -> int:
    """Returns the length of the data field of a frame with a control word."""
    return profile.tm_length - 10 - 2 * profile.tm_fecf


def filled(packets: Sequence[bytes], length: int) -> list[bytes]:
    """Adds an idle packet if the packets do not end with a data field of this length."""
    left = -sum(map(len, packets)) % length
    if left == 0:
        return [*packets]
    return [*packets, idle_packet(left if left >= 7 else left + length)]


class Sender:
    """A sender of one virtual channel, which is the only one of its spacecraft: it keeps both frame counts."""

    def __init__(self, profile: Profile, master_count: int = 0, channel_count: int = 0) -> None:
        """Sets the counts of the next frame."""
        self.profile, self.master_count, self.channel_count = profile, master_count, channel_count

    def send(self, word: int, packets: Sequence[bytes]) -> list[bytes]:
        """Writes the frames that carry these packets, each with this control word; one frame of idle data if there are none."""
        length = data_length(self.profile)
        if not packets:
            return [self.frame(word, IDLE_DATA, bytes([0x55]) * length)]
        all_packets = filled(packets, length)
        joined, starts, at = b"".join(all_packets), set[int](), 0
        for it in all_packets:
            starts.add(at)
            at += len(it)
        frames = []
        for begin in range(0, len(joined), length):
            pointer = next((it for it in range(length) if begin + it in starts), NO_START)
            frames.append(self.frame(word, pointer, joined[begin:begin + length]))
        return frames

    def frame(self, word: int, pointer: int, data: bytes) -> bytes:
        """Writes a frame, and counts it."""
        made = tm_frame(self.profile, Down(self.profile.tm_vcid, self.master_count, self.channel_count, UNSEGMENTED | pointer, data, word))
        self.master_count, self.channel_count = (self.master_count + 1) % 256, (self.channel_count + 1) % 256
        return made


class Receiver:
    """A receiver of the packets of one virtual channel: it keeps the packet in progress and the frame count that it expects."""

    def __init__(self) -> None:
        """A new connection: no packet in progress, and any count is taken."""
        self.part = b""
        self.expected: Optional[int] = None

    def frame(self, frame: Down) -> list[Item]:
        """Takes a good frame of the channel. Returns packets and marks, in order."""
        return list(self.items(frame))

    def drop(self) -> Iterator[Item]:
        """Drops the packet in progress, with a mark if there was one."""
        if self.part:
            self.part = b""
            yield CUT

    def items(self, frame: Down) -> Iterator[Item]:
        """Returns what a frame gives."""
        if self.expected is not None and frame.channel_count != self.expected:
            yield GAP
            yield from self.drop()
        self.expected = (frame.channel_count + 1) % 256
        pointer, data = frame.status & 0x7ff, frame.data
        if frame.status & 0xf800 != UNSEGMENTED or len(data) <= pointer < IDLE_DATA:
            yield SKIPPED
            yield from self.drop()
        elif pointer != IDLE_DATA:
            yield from self.ended(data if pointer == NO_START else data[:pointer], pointer == NO_START)
            if pointer != NO_START:
                yield from self.begun(data[pointer:])

    def ended(self, data: bytes, may_go_on: bool) -> Iterator[Item]:
        """Goes on with the packet in progress, if there is one. It ends with these octets exactly, unless it may go on in the next frame."""
        if not self.part:
            return
        self.part += data
        length = whole_length(self.part)
        if length == len(self.part):
            yield self.part
            self.part = b""
        elif not may_go_on or length is not None and length < len(self.part):
            yield from self.drop()

    def begun(self, data: bytes) -> Iterator[Item]:
        """Takes packets from where one begins. The last may be cut: it is then the packet in progress."""
        while data:
            if data[0] >> 5:
                yield CUT
                return
            length = whole_length(data)
            if length is None or length > len(data):
                self.part = data
                return
            yield data[:length]
            data = data[length:]
