"""A desk that comes to a reply of a length that was asked for: 127 inserts of up to eight activities are out as the service is ended, so that each of
them, and each of its activities, has a line of its own in one reply. Which activities the inserts name decides of its length, byte by byte.
"""
from typing import NamedTuple, Optional

from generate.http_words import Case, act, load
from model.facts import MOST_INSERTED, MOST_ROWS, STACK_HEADER

BY, OTHER, MOMENT = "z" * 16, "bob", 4_102_444_799  # of the longest names and moments that there are
WINDOW, OUT = 254, 127  # of the FARM; and K, which is half of it
GROUP = MOST_INSERTED + 1  # an insert behind its activities
INSERTS = OUT + 1  # the last one may wait
OF_STACK = MOST_ROWS // GROUP
TIMES = "2031-05-04T10:00:00Z"
FIRST_NUMBER = 101  # of the acts behind the loads
FIRST = "ok\nalert TERM\n"
# A line of an activity, and of an insert, but for the digits of its request: all rows that are told have numbers of four digits.
OF_ACTIVITY = len(f"move 1000 {MOMENT} {BY}  Riding Doubtful doubt\n")
OF_INSERT = len(f"move 1000 {MOMENT} {BY}  Sent Doubtful doubt\n")


def insert_number(at: int) -> int:
    """The request of an insert, by its place from 0."""
    return GROUP * (at + 1)


def whole_length() -> int:
    """How long the reply is where each insert has all of its activities, and none waits."""
    digits = sum(len(str(number)) for number in range(1, insert_number(OUT - 1) + 1))
    return len(FIRST) + OUT * (OF_INSERT + MOST_INSERTED * OF_ACTIVITY) + digits


def left_out(length: int) -> set[int]:
    """The activities that are left out of their inserts, so that the reply has this length: each insert keeps its first. They have three digits, but
    for as many of two digits, or of four, as make up the last bytes."""
    spare = whole_length() - length
    count, digits = divmod(spare, OF_ACTIVITY + 3)
    while digits > count:  # no line more, and as many digits more than three
        count, digits = count + 1, digits - OF_ACTIVITY - 3
    numbers: dict[int, list[int]] = {2: [], 3: [], 4: []}
    for number in range(10, insert_number(OUT - 1)):
        if number % GROUP not in (0, 1):
            numbers[len(str(number))].append(number)
    twos, fours = max(0, -digits), max(0, digits)
    return set(numbers[2][:twos] + numbers[3][:count - twos - fours] + numbers[4][:fours])


def stack_text(first: int, inserts: range, without: set[int]) -> str:
    """A stack of these inserts, each behind its activities, of which these are not named; its line 1 is this request."""
    lines = [STACK_HEADER]
    for at in inserts:
        for number in range(insert_number(at) - MOST_INSERTED, insert_number(at)):
            lines.append(f"{number - first + 1},{number % 5},8,1,,,a---,no,,ok")
        named = [it for it in range(insert_number(at) - MOST_INSERTED, insert_number(at)) if it not in without]
        targets, times = ";".join(str(it - first + 1) for it in named), ";".join([TIMES] * len(named))
        lines.append(f"{insert_number(at) - first + 1},6,11,4,{targets},{times},---c,no,,ok")
    return "".join(f"{it}\n" for it in lines)


class Long(NamedTuple):
    """The calls that lead to a long reply; the last of them has it."""
    cases: list[Case]

    @property
    def last(self) -> Case:
        """The call with the long reply."""
        return self.cases[-1]


def long_reply(length: Optional[int]) -> Long:
    """The calls that lead to a reply of this length; or to the longest, for which one more insert waits."""
    without, cases = left_out(length) if length else set[int](), list[Case]()

    def call(name: str, raw: bytes) -> None:
        cases.append(Case(name, raw, 0))

    for number, begin in enumerate(range(0, INSERTS, OF_STACK), 1):
        inserts = range(begin, min(begin + OF_STACK, INSERTS))
        text = stack_text(insert_number(begin) - MOST_INSERTED, inserts, without)
        call(f"stack {number}", load("stack", f"s{number}", text, BY, MOMENT, number))
        call(f"approval of stack {number}", act(f"approvestack s{number}", OTHER, MOMENT, number))
    releases = [f"release {insert_number(at)}" for at in range(OUT if length else INSERTS)]
    for number, text in enumerate((f"set k {OUT}", "initiate none", *releases, "terminate"), FIRST_NUMBER):
        call(text, act(text, BY, MOMENT, number))
    return Long(cases)
