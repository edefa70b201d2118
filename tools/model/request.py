"""What a request is: what is entered of it, and what the desk adds."""
from typing import Iterable, NamedTuple, Optional

from model.facts import ACK_BITS, ACKS, SCHEDULE, TAKES_TARGET, TAKES_TIME, Subtype


class Identity(NamedTuple):
    """The name of a request on board: its application process, and its sequence count."""
    apid: int
    sequence: int

    def __str__(self) -> str:
        return f"{self.apid}/{self.sequence}"


class Form(NamedTuple):
    """What is entered of a request. An insert names 1 to 8 requests in `targets`, and in `times` a moment for each, in the same order. Of any other command
    `targets` has the one request that it names, `times` its offset; both are empty where it takes none."""
    apid: int
    ack: str
    is_critical: bool
    service: int
    subtype: int
    targets: tuple[int, ...]
    times: tuple[int, ...]
    outcome: str

    def is_plain(self) -> bool:
        """Whether it commands no schedule."""
        return self.service != SCHEDULE

    def command(self) -> Optional[Subtype]:
        """The command of the schedule that it is; none of a plain request."""
        return None if self.is_plain() else Subtype(self.subtype)

    @property
    def target(self) -> int:
        """The request that a command names that is no insert."""
        return self.targets[0]

    @property
    def offset(self) -> int:
        """By how much a command shifts."""
        return self.times[0]

    def activities(self) -> tuple[int, ...]:
        """The requests that an insert puts into the schedule, in its order; none of any other."""
        return self.targets if self.command() is Subtype.INSERT else ()

    def asks(self, letter: str) -> bool:
        """Whether a report of success is asked for."""
        return letter in self.ack


class Request(NamedTuple):
    """A request as it was entered; its line and the line before it are 0 where no stack brought it."""
    number: int
    identity: Identity
    form: Form
    author: str
    stack: str = ""
    line: int = 0
    after: int = 0


def ack_number(ack: str) -> int:
    """The reports that are asked for, as the tables have them."""
    return sum(bit for letter, bit in zip(ack, ACK_BITS) if letter != "-")


def ack_text(number: int) -> str:
    """The same, as it is spelled."""
    return "".join(letter if number & bit else "-" for letter, bit in zip(ACKS, ACK_BITS))


def list_text(items: Iterable[int]) -> str:
    """A list as it is spelled, parted by semicolons; a dash where nothing is in it."""
    return ";".join(map(str, items)) or "-"


def takes_target(service: int, subtype: int) -> bool:
    """Whether a command names a request, or several."""
    return service == SCHEDULE and subtype in TAKES_TARGET


def takes_time(service: int, subtype: int) -> bool:
    """Whether a command has a time, or an offset."""
    return service == SCHEDULE and subtype in TAKES_TIME
