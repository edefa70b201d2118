"""Long scripts that bring a desk to its limits by acts alone: a history of 990,000 rows of 65,535 requests in 1,000 stacks, and 58,248 activities
that ride at the same time.
"""
from typing import Iterator

from generate.http_posts import steps
from generate.limit_days import FULL, Line, plain
from model.facts import MOST_HISTORY, MOST_INSERTED, MOST_REQUESTS, MOST_ROWS, MOST_STACKS, MOST_STEPS, STACK_HEADER

GROUP = MOST_INSERTED + 1  # activities, and their insert behind them
OF_CYCLE = 2 * GROUP + 4  # the rows that a cycle makes
TIMES = ";".join(["2031-05-04T10:00:00Z"] * MOST_INSERTED)
AT_ONCE = 60_000  # lines of a script, which may have 1,048,576 bytes


def stack_text(count: int, apid: int, groups: int) -> bytes:
    """A stack of so many rows, which begins with so many groups of eight activities and their insert."""
    lines = [STACK_HEADER]
    for line in range(1, count + 1):
        if line % GROUP or line > groups * GROUP:
            lines.append(f"{line},{apid},8,1,,,a---,no,,ok")
        else:
            lines.append(f"{line},{apid},11,4,{';'.join(map(str, range(line - MOST_INSERTED, line)))},{TIMES},---c,no,,ok")
    return "".join(f"{it}\n" for it in lines).encode()


# ---- 990,000 rows

OTHERS, MORE = divmod(MOST_REQUESTS - MOST_ROWS, MOST_STACKS - 1)
SIZES = [MOST_ROWS, *[OTHERS + 1] * MORE, *[OTHERS] * (MOST_STACKS - 1 - MORE)]
MOVE_FILES = {f"{size}-{at}.csv": stack_text(size, at, int(size == MOST_ROWS)) for size in set(SIZES) for at in range(5)}
MOVE_FILES |= {"steps.csv": steps(MOST_STEPS).encode()}


def entry_day() -> list[Line]:
    """1,000 stacks of 65,535 requests are loaded and approved, and as many procedures; 10,000 executions are begun."""
    return [*plain(f"1 ann stack s{at} {size}-{at % 5}.csv" for at, size in enumerate(SIZES)),
            Line("1 ann places", f"places {MOST_REQUESTS}: {MOST_REQUESTS} "), Line("1 ann stack more 200-0.csv", FULL),
            *plain(f"2 bob approvestack s{at}" for at in range(MOST_STACKS)),
            *plain(f"3 ann procedure p{at} steps.csv" for at in range(MOST_STACKS)),
            *plain(f"4 ann begin p{at % MOST_STACKS}" for at in range(10_000)),
            Line("4 ann begin p1", FULL), Line("4 ann procedure more steps.csv", FULL), Line("5 ann set k 1", "ok"), Line("5 ann places")]


def cycle(number: int) -> list[Line]:
    """A request is sent, an insert waits behind it and is given back as the service ends, and the request is closed: 22 rows."""
    return plain(f"9 a {it}" for it in ("initiate none", f"release {number}", f"release {GROUP}", "terminate", f"close {number}"))


def move_days() -> Iterator[list[Line]]:
    """Cycles until the history is full, as scripts; each begins with the window that makes the insert wait."""
    rows, number, lines = 2 * MOST_REQUESTS, GROUP + 1, list[Line]()
    while rows < MOST_HISTORY:
        lines += cycle(number)
        rows, number = rows + OF_CYCLE, number + 1
        if len(lines) > AT_ONCE:
            yield [Line("8 a set k 1", "ok"), *lines]
            lines = []
    yield [Line("8 a set k 1", "ok"), *lines]


def full_day() -> list[Line]:
    """What is refused of that desk, and what is not."""
    refused = ("enter 1 ---- no 8 1 - - ok", "withdraw 65535", "release 65535", "close 12", "terminate", "tick", "down", "step 1 1 done -",
               "stack more 200-0.csv", "begin p1")
    asked = ("places", "moves 989950", f"history {GROUP} 980000", "history 65535 0", "standing Closed 39000", "log 10000", "link")
    first = {"close 12": "refused 3 WrongPlace", "release 65535": "refused 11 ServiceNotActive"}
    return [*(Line(f"10 ann {it}", first.get(it, FULL)) for it in refused), Line("10 ann initiate none", "ok"), Line("10 ann release 65535", FULL),
            Line("10 ann up", "ok nothing"), *plain(f"10 ann {it}" for it in asked)]


# ---- activities that ride

INSERTS = MOST_REQUESTS // GROUP
RIDE_GROUPS = MOST_ROWS // GROUP
RIDE_FILES = {f"ride{at}.csv": stack_text(RIDE_GROUPS * GROUP, at, RIDE_GROUPS) for at in range(5)}
RIDE_FILES |= {"last.csv": stack_text(INSERTS % RIDE_GROUPS * GROUP, 5, RIDE_GROUPS)}


def ride_entries() -> list[Line]:
    """All requests are inserts with their activities, and approved."""
    stacks = [f"ride{at % 5}.csv" for at in range(INSERTS // RIDE_GROUPS)] + ["last.csv"] * (INSERTS % RIDE_GROUPS > 0)
    return [*plain(f"1 ann stack s{at} {name}" for at, name in enumerate(stacks)),
            *plain(f"2 bob approvestack s{at}" for at in range(len(stacks))), Line("2 ann places")]


def ride_day(inserts: int) -> list[Line]:
    """So many inserts are released and confirmed, and what is reported of them is lost: their activities ride. Then each act of the link is
    answered."""
    sent = plain(f"3 a {it}" for at in range(1, inserts) for it in (f"release {at * GROUP}", "up", "work", "losedown 0", "clcw", "down"))
    last = inserts * GROUP
    acts = ("places", f"release {last}", "places", "tick", "up", "clcw", "down", "work", "down", f"close {GROUP}", f"withdraw {last + 1}",
            "initiate check", "set k 2", "losedown 0", "loseup 0", "clock 5", f"release {last}", "terminate", "places", "initiate none", "tick",
            "terminate", "link", "schedule", f"history {last} 0")
    return [Line("3 a initiate none", "ok"), *sent, *plain(f"4 ann {it}" for it in acts)]
