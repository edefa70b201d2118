"""Days at the limits of a desk: the lines of a script, and at each limit what is answered there and one past it, written by hand. The plain desk
says the rest. The limits are those of docs/manual/limits.md.
"""
from typing import Iterable, NamedTuple

from generate.http_posts import rows, steps
from model.facts import (LAST_MOMENT, LONGEST_ACT, LONGEST_STEP, LONGEST_TEXT, MOST_ACTIVITIES, MOST_EXECUTIONS, MOST_INSERTED, MOST_PROCEDURES,
                         MOST_ROWS, MOST_STACKS, MOST_STEPS, PROCEDURE_HEADER)

FULL, USED, UNREAD, TOO_LONG = "refused 18 DeskFull", "refused 8 IdentityInUse", "refused 1 BadText", "refused 17 TooLong"
OF_APID = 16_384  # requests of one application process, each with a count of its own
STACKS_OF_APID = -(-OF_APID // MOST_ROWS)
LAST_ROWS = OF_APID % MOST_ROWS


class Line(NamedTuple):
    """A line of a script, and the first line of its answer; none where the plain desk alone says it."""
    text: str
    first: str = ""


def plain(texts: Iterable[str]) -> list[Line]:
    """Lines whose answers the plain desk says."""
    return [Line(it) for it in texts]


def step_of(request: int) -> bytes:
    """A procedure of one step, which releases this request."""
    return f"{PROCEDURE_HEADER}\n1,look,no,{request}\n".encode()


# ---- 65,535 requests

REQUEST_FILES = {f"{apid}-{count}.csv": rows(count, apid).encode() for apid in range(4) for count in (1, 2, LAST_ROWS - 2, LAST_ROWS, MOST_ROWS)}
REQUEST_FILES |= {"last.csv": step_of(65_535), "past.csv": step_of(65_536)}


def request_stacks() -> list[tuple[str, str]]:
    """The stacks of 65,534 requests, by their names and files: 16,384 of each of three application processes, and two fewer of a fourth."""
    sizes = {apid: [MOST_ROWS] * (STACKS_OF_APID - 1) + [LAST_ROWS - 2 if apid == 3 else LAST_ROWS] for apid in range(4)}
    return [(f"s{apid}x{at}", f"{apid}-{size}.csv") for apid, them in sizes.items() for at, size in enumerate(them)]


def request_day() -> list[Line]:
    """65,535 requests are entered, and no more; all are approved, and the last ones released."""
    stacks = request_stacks()
    return [
        *plain(f"100 ann stack {name} {file}" for name, file in stacks),
        Line("101 ann places", "places 65534: 65534 0 0 0 0 0 0 0 0 0 0 0 0 0 0"),
        Line("101 ann enter 0 ---- no 8 1 - - ok", USED), Line("101 ann stack two 3-2.csv", FULL), Line("101 ann stack two 0-2.csv", USED),
        Line("101 ann enter 3 a--c no 8 1 - - ok", "ok request 65535 3/16382"), Line("101 ann enter 3 a--c no 8 1 - - ok", FULL),
        Line("101 ann stack one 3-1.csv", FULL), Line("101 ann enter 2 ---- no 8 1 - - ok", USED), Line("101 ann waiting"),
        *plain(f"102 bob approvestack {name}" for name, _ in stacks),
        Line("103 bob approve 65535", "ok approvals 1 of 1"), Line("103 bob approve 65536", "refused 2 UnknownRequest"),
        Line("104 ann withdraw 1", "ok"), Line("104 ann enter 0 ---- no 8 1 - - ok", FULL),
        Line("105 ann procedure last last.csv", "ok procedure last 1"), Line("105 ann procedure past past.csv", "refused 2 UnknownRequest"),
        Line("106 ann begin last", "ok execution 1"), Line("106 ann initiate none", "ok"), Line("107 ann release 65534", "ok"),
        Line("107 ann step 1 1 done -", "ok"), Line("107 ann release 65536", "refused 2 UnknownRequest"),
        *plain(f"108 ann {it}" for it in ("up", "up", "clcw", "work", *["down"] * 4, "release 2", "withdraw 65533")),
        Line("109 ann places", "places 65535: 0 65530 0 1 0 0 0 1 0 1 0 0 2 0 0"), *request_questions(109)]


def request_questions(moment: int) -> list[Line]:
    """What is asked of that desk."""
    return plain(f"{moment} ann {it}" for it in (
        "places", "request 65535", "history 65535 0", "request 65536", "moves 131060", "standing Approved 65480", "standing Completed 0", "waiting",
        "log 1", f"report {moment - 2} {moment}"))


def request_next_day() -> list[Line]:
    """The desk is opened again, and no more are entered."""
    return [Line("201 ann enter 3 a--c no 8 1 - - ok", FULL), Line("201 ann enter 1 a--c no 8 1 - - ok", USED),
            Line("201 ann stack one 3-1.csv", FULL), Line("202 ann close 2", "ok"), Line("202 ann initiate check", "ok"), *request_questions(203)]


# ---- stacks and procedures

HELD_FILES = {"one.csv": rows(1, 5).encode(), "most.csv": rows(MOST_ROWS, 6).encode(), "past.csv": rows(MOST_ROWS + 1, 6).encode(),
              "step.csv": steps(1).encode(), "steps.csv": steps(MOST_STEPS).encode(), "paststeps.csv": steps(MOST_STEPS + 1).encode()}


def held_day() -> list[Line]:
    """1,000 stacks, of which one has 200 rows, and 1,000 procedures, of which one has 100 steps; and no more."""
    assert MOST_STACKS == MOST_PROCEDURES
    return [
        Line("1 ann stack past past.csv", TOO_LONG), Line("1 ann procedure past paststeps.csv", TOO_LONG),
        *plain(f"1 ann stack s{at} one.csv" for at in range(1, MOST_STACKS)), Line("2 ann stack most most.csv", "ok stack most 200 1000"),
        Line("3 ann stack more one.csv", FULL), Line("3 ann stack s1 one.csv", "refused 9 NameUsed"),
        Line("3 ann enter 5 ---- no 8 1 - - ok", "ok request 1200 5/999"),
        *plain(f"4 ann procedure p{at} step.csv" for at in range(1, MOST_PROCEDURES)),
        Line("4 ann procedure most steps.csv", "ok procedure most 100"),
        Line("5 ann procedure more step.csv", FULL), Line("5 ann procedure p1 step.csv", "refused 9 NameUsed"), Line("5 ann waiting"),
        *plain(f"6 bob approvestack s{at}" for at in range(1, MOST_STACKS, 9)), Line("7 bob approvestack most", "ok approvals 1 of 1"),
        Line("7 bob approvestack more", "refused 13 UnknownStack"), Line("8 ann steps most", "procedure most author ann steps 100"),
        *held_end(9)]


def held_end(moment: int) -> list[Line]:
    """The last of each is used, and one more is refused."""
    asked = (("begin most", ""), ("begin p999", ""), ("begin more", "refused 16 UnknownProcedure"), ("stack more one.csv", FULL),
             ("procedure more step.csv", FULL), ("initiate none", "ok"), ("release 1199", ""), ("waiting", ""), ("places", ""))
    return [Line(f"{moment} ann {text}", first) for text, first in asked]


# ---- executions

EXECUTION_FILES = {"look.csv": steps(2).encode()}


def execution_day() -> list[Line]:
    """10,000 executions, and no more; the first and the last are recorded."""
    return [Line("1 ann procedure look look.csv", "ok procedure look 2"), *plain(f"{at} ann begin look" for at in range(2, MOST_EXECUTIONS + 1)),
            Line("10001 ann begin look", "ok execution 10000"), Line("10002 ann begin look", FULL), Line("10002 ann waiting"),
            *execution_end(10_003, 1)]


def execution_end(moment: int, step: int) -> list[Line]:
    """This step of the first and of the last is recorded, and no more are begun."""
    asked = ((f"step 1 {step} done -", "ok"), (f"step 10000 {step} done -", "ok"), ("step 10001 1 done -", "refused 16 UnknownProcedure"),
             ("log 10000", f"execution 10000 look next {2 if step == 1 else 0}"), ("log 10001", "refused 16 UnknownProcedure"), ("begin look", FULL),
             ("waiting", ""), ("places", ""))
    return [Line(f"{moment} ann {text}", first) for text, first in asked]


# ---- on board

def listed(numbers: range, times: Iterable[int]) -> str:
    """The entry of an insert of these requests at these times."""
    return f"enter 7 ---c no 11 4 {';'.join(map(str, numbers))} {';'.join(map(str, times))} ok"


def board_day() -> list[Line]:
    """Eight inserts of eight fill the schedule; one of nine is none, and one more finds no place until one has left. Then all leave at a moment."""
    inserts = MOST_ACTIVITIES // MOST_INSERTED
    count = inserts + 3  # the inserts are of 8 each, of 9 activities, of one, and of one again
    last = MOST_ACTIVITIES + 2
    groups = [range(MOST_INSERTED * at + 1, MOST_INSERTED * (at + 1) + 1) for at in range(inserts)]
    asked = [Line(f"3 ann {listed(range(1, 10), range(9000, 9009))}", UNREAD),
             *(Line(f"3 ann {listed(it, [9000] * MOST_INSERTED)}", f"ok request {last + at} 7/{at - 1}") for at, it in enumerate(groups, 1)),
             Line(f"3 ann {listed(range(last - 1, last), [9000])}"), Line(f"3 ann enter 7 ---c no 11 5 {MOST_ACTIVITIES} - ok"),
             Line(f"3 ann {listed(range(last, last + 1), [9000])}")]
    sent = [Line(f"5 ann {act}") for at in range(1, count + 1) for act in (f"release {last + at}", "up", "work", "down", "clcw", "down", "schedule")]
    told = last + count  # then the schedule is reported, and enabled
    return [Line("1 ann clock 1000"), *plain(f"2 ann enter 5 aspc no 8 1 - - ok/{1 + at % 9}" for at in range(last)), *asked,
            *plain(f"4 bob approve {at}" for at in range(1, told + 1)), Line("5 ann initiate none"), *sent,
            Line("6 ann enter 7 ---c no 11 17 - - ok"), Line("6 ann enter 7 ---c no 11 1 - - ok"),
            *plain(f"6 bob approve {told + at}" for at in (1, 2)),
            *plain(f"7 ann {act}" for at in (1, 2) for act in (f"release {told + at}", "up", "work", "down", "down", "clcw", "down")),
            Line("8 ann schedule", "mirror enabled 64"), Line("9 ann clock 9000", "ok now 9000"), *plain(["9 ann down"] * 900),
            Line("9 ann schedule", "mirror enabled 0"), Line("9 ann places")]


# ---- 990,000 rows of the history

ROWS_LEFT = 989_990  # as that desk is left: its opening writes four more, since four requests are on their way
HISTORY_FILES = {"look.csv": steps(3).encode(), "one.csv": rows(1, 5).encode()}


def history_day() -> list[Line]:
    """Rows come until 989,999 stand, and an act writes two more; from then on only what writes none is taken."""
    return [
        Line("1000 ann procedure look look.csv", "ok procedure look 3"), Line("1000 ann begin look", "ok execution 1"),
        Line("1000 ann step 1 1 done -", "ok"), *(Line(f"1001 ann withdraw {number}", "ok") for number in range(65_532, 65_536)),
        Line("1001 ann close 3", "ok"), Line("1001 ann moves 989998", "moves 1"), Line("1002 ann initiate none", "ok"),
        Line("1003 ann release 5", "ok"), Line("1003 ann moves 989999", "moves 2"), *history_end(1004, 2)]


def history_end(moment: int, step: int) -> list[Line]:
    """What is refused where the history is full, and what is not; this step comes next."""
    refused = ("withdraw 65531", "approve 65531", "release 6", "close 4", f"step 1 {step} done -", "terminate", "tick", "down",
               "enter 5 ---- no 8 1 - - ok", "stack one one.csv")
    first = {"approve 65531": "refused 3 WrongPlace"}
    taken = ("up", "work", "clcw", "clock 2000", "loseup 0", "losedown 1", "set k 3", "set t1 4", "set limit 1", "begin look",
             f"procedure l{moment} look.csv")
    asked = ("places", "link", "history 5 989900", "history 3 989900", "moves 989940", "moves 990000", "standing Withdrawn 0", "standing Doubtful 0",
             "log 1", f"report {moment - 4} {moment}")
    return [*(Line(f"{moment} ann {it}", first.get(it, FULL)) for it in refused), *(Line(f"{moment} ann {it}", "ok") for it in taken),
            *plain(f"{moment} ann {it}" for it in asked)]


def history_next_day() -> list[Line]:
    """The desk is opened again, which moves the request that was sent; all is as before, but that the service has to begin."""
    return [Line("20000 ann initiate none", "ok"), Line("20000 ann history 5 989999", "history 5: 3"), *history_end(20_000, 2)]


# ---- texts and lines

STEP_LENGTHS = (1, 60, 61, 79, LONGEST_STEP)
LONG_BY, LONG_MOMENT, LONG_NAME = "z" * 16, LAST_MOMENT, "n" * 16


def sized(text: str, size: int) -> bytes:
    """This text with so many empty lines behind it that it has this size."""
    return text.encode() + b"\n" * (size - len(text))


def said(lengths: Iterable[int]) -> str:
    """A procedure whose steps have texts of these lengths."""
    return "".join(f"{it}\n" for it in (PROCEDURE_HEADER, *(f"{step},{'x' * length},yes," for step, length in enumerate(lengths, 1))))


TEXT_FILES = {f"{kind}{size}.csv": sized(text, LONGEST_TEXT + size) for kind, text in (("stack", rows(3, 5)), ("procedure", steps(3)))
              for size in (-1, 0, 1)}
TEXT_FILES |= {"said.csv": said(STEP_LENGTHS).encode(), "past.csv": said((*STEP_LENGTHS, LONGEST_STEP + 1)).encode()}


def long_act(size: int) -> str:
    """The text of an act that has so many bytes: the entry of an insert that names nobody who is there."""
    others = ";".join(["4294967295"] * (MOST_INSERTED - 1))
    fixed = f"enter 2047 aspc yes 11 4 ;{others} {';'.join([str(LAST_MOMENT)] * MOST_INSERTED)} ok"
    return fixed.replace("4 ;", f"4 {'1' * (size - len(fixed))};")


def long_lines(before: int = 0) -> list[Line]:
    """Lines of acts that are as long as they may be, and longer by one, of the longest person and moment, where so many requests were entered
    before; then some are carried out."""
    front, first = f"{LONG_MOMENT} {LONG_BY}", before + 1
    acts = [Line(f"{front} {long_act(LONGEST_ACT + more)}", TOO_LONG if more > 0 else "refused 2 UnknownRequest") for more in (-1, 0, 1)]
    entered = [Line(f"{front} enter 2047 a--c yes 8 255 - - halt/9/255", f"ok request {first + at} 2047/{at}") for at in range(MOST_INSERTED)]
    named, times = (";".join(map(str, it)) for it in (range(first, first + MOST_INSERTED), [LAST_MOMENT] * MOST_INSERTED))
    insert = Line(f"{front} enter 2047 aspc yes 11 4 {named} {times} ok", f"ok request {first + MOST_INSERTED} 2047/8")
    return [*acts, *entered, insert, Line(f"{front} places")]


def text_day() -> list[Line]:
    """Texts of stacks and procedures that are as long as they may be, and longer by one; steps too."""
    loads = [Line(f"1 ann {kind} {kind[0]}{size + 1} {kind}{size}.csv", TOO_LONG if size > 0 else f"ok {kind} {kind[0]}{size + 1} 3")
             for kind in ("stack", "procedure") for size in (-1, 0, 1)]
    return [*loads, Line(f"1 ann procedure {LONG_NAME} said.csv", f"ok procedure {LONG_NAME} 5"), Line("1 ann procedure past past.csv", UNREAD),
            Line(f"2 ann steps {LONG_NAME}", f"procedure {LONG_NAME} author ann steps 5"), Line(f"2 ann begin {LONG_NAME}", "ok execution 1"),
            *(Line(f"3 {LONG_BY} step 1 {step} done bob", "ok") for step in range(1, 6)), Line("4 ann log 1"), *long_lines(6)]
