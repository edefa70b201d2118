"""The lines that say what octets mean: a line of a field or a count, in what place it stands, and what would fit. It asks the program nothing."""
from collections.abc import Callable, Iterator
from typing import NamedTuple, Union

from model.octets import Refused, crc

SEQUENCES = ("continuation", "first", "last", "unsegmented")


class Part(NamedTuple):
    """The octets of a layer, and the place of each in the whole text, from 1."""
    octets: bytes
    place: Callable[[int], int]

    def from_octet(self, begin: int, length: int) -> "Part":
        """Returns the octets of a layer inside."""
        return Part(self.octets[begin:begin + length], lambda index: self.place(begin + index))


class Row(NamedTuple):
    """A line about a field or a count. If the reader refuses the layer with `word`, it is the fault unless it fits: `must` says what would fit."""
    place: int
    name: str
    value: str
    word: str = ""
    must: str = ""


Item = Union[Row, list[str]]  # a line of the layer, or the lines of a layer inside


def lines_of(items: Iterator[Item], word: str) -> list[str]:
    """Returns the lines of a layer that is taken, if `word` is empty, or refused with a word: then its first fault of this word is the last line."""
    found: list[str] = []
    for it in items:
        if isinstance(it, list):
            found += it
            continue
        is_fault = it.must != "" and it.word == word
        found.append(f"octet {it.place}, {it.name}: {it.value}" + (f", but {it.must}" if is_fault else ""))
        if is_fault:
            return found
    return found


def word_of(read: Callable[[], object]) -> str:
    """Returns the word with which a reader refuses; none if it does not."""
    try:
        read()
    except Refused as refused:
        return str(refused)
    return ""


# ---- fields

def refused(word: str, row: Row) -> Iterator[Row]:
    """Returns the last row of a layer that its reader refuses: it is the fault if no row before it is."""
    if word:
        yield row._replace(word=word, must="must be as the link has them")


def octets_word(number: int) -> str:
    """Spells a count of octets."""
    return "1 octet" if number == 1 else f"{number} octets"


def given(number: int) -> str:
    """Spells how many octets there are, beside a length field that says otherwise."""
    return f"{octets_word(number)} {'is' if number == 1 else 'are'} given"


def flag(value: int) -> str:
    """Shows a flag."""
    return ("no", "yes")[value]


def type_word(value: int) -> str:
    """Shows the type of a packet."""
    return ("telemetry", "telecommand")[value]


def sequence_word(value: int) -> str:
    """Shows sequence flags."""
    return SEQUENCES[value]


def hex4(value: int) -> str:
    """Shows a number of 16 bits as hexadecimal digits."""
    return f"0x{value:04x}"


def value_of(octets: bytes, bit: int, bits: int) -> int:
    """Returns the number in some bits, of which the first has this index. Octets that lack are taken as 0."""
    end = bit + bits
    first, last = bit // 8, -(-end // 8)
    return int.from_bytes(octets[first:last].ljust(last - first, b"\0"), "big") >> (8 * last - end) & (1 << bits) - 1


def filled(bit: int, bits: int) -> int:
    """Returns the index of the first octet that a field fills, or of the one in which it begins if it fills none."""
    first = -(-bit // 8)
    return first if bit + bits >= 8 * first + 8 else bit // 8


def field(part: Part, name: str, bit: int, bits: int, shown: Callable[[int], str] = str, word: str = "",
          must: Callable[[int], str] = lambda value: "") -> Row:
    """Returns the line of a field. `must` says of its value what would fit, or nothing if it fits."""
    value = value_of(part.octets, bit, bits)
    return Row(part.place(filled(bit, bits)), name, shown(value), word, must(value))


def exactly(wanted: int, shown: Callable[[int], str] = str) -> Callable[[int], str]:
    """Returns the test of a field that has to have one value."""
    return lambda value: "" if value == wanted else f"must be {shown(wanted)}"


def between(least: int, most: int, shown: Callable[[int], str] = str) -> Callable[[int], str]:
    """Returns the test of a field that has to lie in a range."""
    return lambda value: "" if least <= value <= most else f"must be {shown(least)} to {shown(most)}"


def heading(part: Part, index: int, name: str, number: int, word: str = "", must: str = "") -> Row:
    """Returns the line of a count of octets from an index on."""
    return Row(part.place(index), name, octets_word(number), word, must)


def at_least(number: int, least: int) -> str:
    """Says what fits a count that has to be this at least."""
    return "" if number >= least else f"must be at least {octets_word(least)}"


def at_most(number: int, most: int) -> str:
    """Says what fits a count that has to be this at most."""
    return "" if number <= most else f"must be at most {octets_word(most)}"


def error_control(part: Part, name: str) -> Row:
    """Returns the line of the CRC-16 at the end of a layer."""
    number = len(part.octets)
    wanted = crc(part.octets[:-2])
    return field(part, name, 8 * (number - 2), 16, hex4, "Check", exactly(wanted, hex4))
