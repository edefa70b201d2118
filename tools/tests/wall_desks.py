"""Plain desks whose pages are looked at: quiet, busy, empty, in doubt, in trouble, with long stacks, and full. Their scripts are written by hand, and no line of them is refused."""
from typing import Optional, Sequence

from model.desk import Desk
from model.facts import MOST_REQUESTS

BEGIN = 1_795_680_000  # 2026-11-26 08:00:00
STEP_TEXT = '<img src=x onerror=alert(1)>&"'
HEADER = "line,apid,service,subtype,target,time,ack,critical,after,outcome\n"
FILES = {
    "aocs.csv": HEADER + "1,100,8,21,,,a--c,no,,ok\n2,100,8,22,,,a--c,yes,1,ok\n3,100,8,23,,,a--c,no,,ok\n",
    "payload.csv": HEADER + "1,7,8,31,,,a--c,no,,ok\n2,7,8,32,,,a--c,no,,ok\n",
    "heater.csv": HEADER + "1,9,8,1,,,a--c,no,,ok\n2,9,8,2,,,a--c,no,1,ok\n3,9,8,3,,,a--c,no,2,ok\n",
    "warm.csv": f'step,text,second,request\n1,check the battery,no,\n2,"{STEP_TEXT.replace(chr(34), chr(34) * 2)}",yes,\n3,look again,no,\n'}
SHORT = ("ann", "bob", "eve", "dan")
LONG = ("alexandrasmith01", "bartholomew00002", "evangelinabrow03", "dominikusmeier04")


class Noted(Desk):
    """A plain desk that has the lines that it was told."""

    def __init__(self, files: Optional[dict[str, bytes]] = None) -> None:
        """It was told none."""
        super().__init__(files=files)
        self.lines: list[str] = []

    def line(self, line: str) -> list[str]:
        """One more, and what it prints."""
        self.lines.append(line)
        return super().line(line)


class Scene:
    """A plain desk that is told one act after the other; the moment goes on between them."""

    def __init__(self, persons: Sequence[str] = SHORT) -> None:
        self.desk = Noted({name: text.encode("ascii") for name, text in FILES.items()})
        self.moment = BEGIN
        self.ann, self.bob, self.eve, self.dan = persons

    def says(self, *acts: str, by: str = "", after: int = 5) -> None:
        """These acts of a person, each so many seconds behind the one before."""
        for act in acts:
            self.moment += after
            told = self.desk.line(f"{self.moment} {by or self.ann} {act}")
            assert not told[0].startswith("refused"), (act, told)

    def waits(self, seconds: int) -> None:
        """Nothing is done for a while."""
        self.moment += seconds

    @property
    def last(self) -> int:
        """The number of the last request."""
        return len(self.desk.book.requests)

    def enters(self, *forms: str, by: str = "", approved: bool = True) -> list[int]:
        """These requests are entered, and approved by as many as are wanted; their numbers."""
        first = self.last + 1
        self.says(*(f"enter {it}" for it in forms), by=by)
        for number in range(first, self.last + 1) if approved else ():
            self.says(f"approve {number}", by=self.bob, after=20)
            if self.desk.book.requests[number - 1].form.is_critical:
                self.says(f"approve {number}", by=self.eve, after=20)
        return list(range(first, self.last + 1))

    def flies(self, number: int, *acts: str) -> None:
        """A request is released and comes on board, and this is done then."""
        self.says(f"release {number}", "up", *acts, after=3)

    def all_down(self) -> None:
        """All that flies comes down."""
        while self.desk.link.down:
            self.says("down", after=2)


def empty() -> Noted:
    """A desk on which nothing was done."""
    return Noted()


def quiet() -> Noted:
    """A desk with few requests, none of them in doubt."""
    it = Scene()
    it.says("initiate none")
    for number in it.enters("5 a--c no 17 1 - - ok", "5 a--c no 3 5 - - ok"):
        it.flies(number, "work", "clcw")
        it.all_down()
    it.enters("7 a--c yes 8 41 - - ok", by=it.ann, approved=False)
    it.says(f"approve {it.last}", by=it.bob, after=300)
    it.enters("5 a--c no 8 42 - - ok", by=it.dan, approved=False)
    it.waits(1500)
    one, other = it.enters("5 a--c no 8 43 - - ok", "5 a--c no 8 44 - - ok")
    it.flies(other)
    it.waits(100)
    it.says("stack payload payload.csv", by=it.dan)
    assert one
    return it.desk


def put_on_board(it: Scene, count: int) -> None:
    """So many activities are laid in."""
    forms = [f"5 a--c no 8 {20 + at} - - ok" for at in range(count)]
    first, *_, last = it.enters(*forms)
    times = [str(BEGIN + 9000 + 600 * at) for at in range(count)]
    insert, = it.enters(f"41 ---c no 11 4 {';'.join(map(str, range(first, last + 1)))} {';'.join(times)} ok")
    it.flies(insert, "work")
    it.all_down()


def busy(persons: Sequence[str] = SHORT) -> Noted:
    """A desk with 40 open requests, which stand at all places, and with some at each final place."""
    it = Scene(persons)
    it.says("initiate none")
    for number in it.enters("5 a--c no 17 1 - - ok", "5 a--c no 3 5 - - ok", "5 a--c no 8 1 - - refuse/33"):
        it.flies(number, "work", "clcw")
        it.all_down()
    it.enters("7 a--c yes 8 2 - - ok", approved=False)
    it.says(f"withdraw {it.last}")
    enable, = it.enters("41 ---c no 11 1 - - ok")
    it.flies(enable, "work")
    it.all_down()
    put_on_board(it, 7)
    it.waits(700)
    # accepted, started and confirmed
    for number in it.enters("6 a--- no 8 1 - - ok", "6 a--- yes 8 2 - - ok", "6 as-- no 8 3 - - ok", "6 as-- no 8 4 - - ok/3"):
        it.flies(number, "work")
        it.all_down()
    for number in it.enters("7 ---- no 8 5 - - ok", "7 ---- yes 8 6 - - ok", "7 ---- no 8 7 - - ok"):
        it.flies(number, "work", "clcw")
        it.all_down()
    # in doubt, and one of them closed
    for number in it.enters("8 a--c no 8 8 - - ok", "8 a--c no 8 9 - - ok", "8 a--c yes 8 10 - - ok", "8 a--c no 8 11 - - ok"):
        it.says(f"release {number}", "loseup 0")
    it.says("terminate", by=it.eve)
    it.says(f"close {it.last}", by=it.eve)
    it.says(f"set vs {it.desk.link.farm.vr}", "initiate none", by=it.eve)
    # stacks, one locked line of which is free
    it.says("stack heater heater.csv", by=it.ann)
    it.says("approvestack heater", by=it.bob, after=200)
    it.says("stack aocs aocs.csv", by=it.ann)
    it.says("approvestack aocs", by=it.bob, after=100)
    it.says("stack payload payload.csv", by=it.dan)
    first, *_ = it.enters("7 a--c yes 8 41 - - ok", *(f"7 a--c no 8 {at} - - ok" for at in range(42, 46)), by=it.dan, approved=False)
    it.says(f"approve {first}", by=it.eve)
    it.enters("5 a--c no 8 45 - - ok", "5 a--c yes 8 46 - - ok", "5 a--c no 8 47 - - ok")
    it.says("procedure warm warm.csv", "begin warm", "step 1 1 done -")
    # riding, sent and queued
    rides = it.enters("5 a--c no 8 51 - - ok", "5 a--c no 8 52 - - ok", "5 a--c no 8 53 - - ok")
    inserted = ";".join(map(str, rides)) + " " + ";".join(str(BEGIN + 20000 + at) for at in range(3))
    numbers = it.enters(f"41 ---c no 11 4 {inserted} ok", "9 a--c no 8 61 - - ok", "9 a--c yes 8 62 - - ok", "9 a--c no 8 63 - - ok")
    it.says("set k 3")
    it.waits(400)
    it.says(*(f"release {number}" for number in numbers))
    it.says("up", "clcw", "tick")
    assert it.desk.book.counts(), it.last
    return it.desk


def in_doubt(count: int = 40) -> Noted:
    """A desk on which all that is open is in doubt: the premise is broken, and the FARM is locked out."""
    it = Scene()
    it.says("initiate none", "set k 10")
    for at in range(count):
        number, = it.enters(f"{at} a--c {'yes' if at % 7 == 0 else 'no'} 8 {at + 1} - - ok")
        it.says(f"release {number}", after=40)
        if at % 10 == 9:
            it.says("terminate", "initiate none", by=it.eve)
    it.says("terminate", by=it.eve)
    return it.desk


def rows(count: int, locked: bool = False) -> bytes:
    """A stack of so many rows, each of which waits for the one before it if they are locked."""
    return (HEADER + "".join(f"{at},{at % 7},8,{at % 200 + 1},,,a--c,no,{at - 1 if locked and at > 1 else ''},ok\n" for at in range(1, count + 1))).encode("ascii")


def stacked(count: int) -> Noted:
    """A stack of so many rows that may be released, and then one critical request that is in doubt, and one that waits for approval."""
    it = Scene()
    it.desk.files["fill.csv"] = rows(count)
    it.says("initiate none", "stack fill fill.csv")
    it.says("approvestack fill", by=it.bob, after=200)
    number, = it.enters("100 a--c yes 8 99 - - ok")
    it.says(f"release {number}", "terminate", "initiate none", after=100)
    it.enters("101 a--c no 8 98 - - ok", approved=False)
    return it.desk


def crowded() -> Noted:
    """A desk with 350 open requests: two stacks, one of them locked, requests that came alone, and 10 on their way, which were entered last."""
    it = Scene()
    it.desk.files.update({"fill.csv": rows(150), "lock.csv": rows(150, locked=True)})
    it.says("initiate none", "set k 10", "stack fill fill.csv", "stack lock lock.csv")
    it.says("approvestack fill", "approvestack lock", by=it.bob)
    it.enters(*(f"{300 + at} a--c no 8 5 - - ok" for at in range(40)))
    numbers = it.enters(*(f"{700 + at} a--c no 8 {at + 1} - - ok" for at in range(10)))
    it.says(*(f"release {number}" for number in numbers), *["up"] * 4, "clcw")
    it.all_down()
    return it.desk


def trouble() -> Noted:
    """A desk in trouble: requests in doubt, some that failed after the opening, one whose report was lost, lines that never open, and activities of an insert.
    It is said to have been opened after its first failure."""
    it = Scene()
    it.says("initiate none")
    for number in it.enters("5 a--c no 17 1 - - ok", "5 a--c no 8 1 - - refuse/33"):
        it.flies(number, "work", "clcw")
        it.all_down()
    it.desk.since, it.desk.stood = it.moment, len(it.desk.book.history)
    it.desk.files["broken.csv"] = (HEADER + "1,9,8,1,,,a--c,no,,refuse/33\n2,9,8,2,,,a--c,no,1,ok\n3,9,8,3,,,a--c,no,2,ok\n").encode("ascii")
    failing, = it.enters("9 a--c yes 8 2 - - refuse/33")
    it.says("stack broken broken.csv")
    it.says("approvestack broken", by=it.bob)
    for number in (failing, failing + 1):
        it.flies(number, "work", "clcw")
        it.all_down()
    it.says("stack aocs aocs.csv", "stack heater heater.csv")
    it.says("approvestack aocs", "approvestack heater", by=it.bob)
    rides = it.enters("5 a--c no 8 51 - - ok", "5 a--c no 8 52 - - ok")
    it.enters(f"41 ---c no 11 4 {';'.join(map(str, rides))} {BEGIN + 20000};{BEGIN + 20060} ok")
    it.says("procedure warm warm.csv", "begin warm", "step 1 1 done -")
    lost, *doubtful = it.enters("7 a--c no 8 5 - - ok", "8 a--c yes 8 10 - - ok", "8 a--c no 8 11 - - ok")
    it.flies(lost, "losedown 0", "clcw")
    it.all_down()
    it.says(*(f"release {number}" for number in doubtful), "loseup 0", "loseup 0", "terminate", "initiate none")
    it.waits(400)
    flying, = it.enters("3 a--c no 8 9 - - ok")
    it.says(f"release {flying}")
    it.enters("3 a--c no 8 8 - - ok", approved=False)
    return it.desk


def full(persons: Sequence[str] = SHORT) -> Noted:
    """A desk of as many requests as it holds: the last are open, and the others withdrawn."""
    it = Scene(persons)
    for number in range(1, MOST_REQUESTS + 1):
        it.desk.line(f"{BEGIN + number} {it.ann} enter {number % 2048} a--c no 8 1 - - ok")
        if number <= MOST_REQUESTS - 240:
            it.desk.line(f"{BEGIN + number} {it.bob} withdraw {number}")
    return it.desk


def longest() -> Noted:
    """A full desk of persons with long names, whose last requests are in doubt. It is said to have been opened after all of that: its heading has long numbers."""
    it = Scene(LONG)
    it.desk = full(LONG)
    it.waits(2 * MOST_REQUESTS)
    it.says("initiate none")
    for number in range(it.last - 9, it.last + 1):
        it.says(f"approve {number}", by=it.bob)
        it.says(f"release {number}")
    it.says("terminate", by=it.eve)
    it.desk.since, it.desk.stood = it.moment, len(it.desk.book.history)
    return it.desk
