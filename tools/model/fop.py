"""FOP-1 in the desk's profile, as its table has it: rows P1 to P18 by the states S1 to S5, and what each action does. It is
written from the requirements, and asks the program nothing.
"""
from collections import Counter
from typing import Any, Callable, NamedTuple, Optional

from model.facts import FIRST_K, FIRST_LIMIT, FIRST_T1, Refusal
from model.farm import ACCEPTABLE, SET_VR, UNLOCK, Frame, Reading, distance
from model.refused import need

STATES = ("S1", "S2", "S3", "S4", "S5")
INITIAL = "S6"
SENDING = ("S1", "S2", "S3")
ALERTS = ("LIMIT", "T1", "LOCKOUT", "SYNCH", "NN(R)", "CLCW", "TERM")

# The table: what is done in S1, S2, S3, S4 and S5. A word in capitals is that alert; - is what cannot occur.
TABLE_TEXT = """
P1  | ignore                            | SYNCH       | SYNCH       | cancel timer, to S1, started | cancel timer, drop BC copy, to S1, started
P2  | remove, cancel timer, look        | remove, cancel timer, to S1, look | remove, cancel timer, to S1, look | - | -
P3  | CLCW                              | CLCW        | CLCW        | CLCW        | ignore
P4  | SYNCH                             | SYNCH       | SYNCH       | SYNCH       | ignore
P5  | ignore                            | SYNCH       | SYNCH       | -           | -
P6  | remove, look                      | remove, to S1, look | remove, to S1, look | - | -
P7  | CLCW                              | CLCW        | CLCW        | -           | -
P8  | remove, LIMIT                     | remove, LIMIT | remove, LIMIT | -       | -
P9  | remove, initiate retransmission, look, to S2 | remove, initiate retransmission, look, to S2 | remove, initiate retransmission, look, to S2 | - | -
P10 | remove, to S3                     | remove, to S3 | remove, to S3 | -       | -
P11 | initiate retransmission, look, to S2 | ignore   | initiate retransmission, look, to S2 | - | -
P12 | to S3                             | to S3       | ignore      | -           | -
P13 | to S2                             | ignore      | to S2       | -           | -
P14 | NN(R)                             | NN(R)       | NN(R)       | NN(R)       | ignore
P15 | LOCKOUT                           | LOCKOUT     | LOCKOUT     | LOCKOUT     | ignore
P16 | CLCW                              | CLCW        | CLCW        | CLCW        | CLCW
P17 | initiate retransmission, look     | initiate retransmission, look | ignore | T1 | BC frame again, count + 1, start timer
P18 | T1                                | T1          | T1          | T1          | T1
"""
TABLE = {cells[0]: dict(zip(STATES, cells[1:]))
         for cells in ([it.strip() for it in line.split("|")] for line in TABLE_TEXT.strip().splitlines())}

# When each row of a valid control word applies: d and w, Retransmit and Wait, and the limit and the count. P16, of an invalid word, P15, of one
# with Lockout, and P14 are tested first, in this order.
WHEN: dict[str, Callable[[int, int, bool, bool, int, int], bool]] = {
    "P14": lambda d, w, rt, wt, limit, count: d > w,
    "P1":  lambda d, w, rt, wt, limit, count: d == w == 0 and not rt and not wt,
    "P2":  lambda d, w, rt, wt, limit, count: d == w > 0 and not rt and not wt,
    "P3":  lambda d, w, rt, wt, limit, count: d == w and not rt and wt,
    "P4":  lambda d, w, rt, wt, limit, count: d == w and rt,
    "P5":  lambda d, w, rt, wt, limit, count: 0 == d < w and not rt and not wt,
    "P6":  lambda d, w, rt, wt, limit, count: 0 < d < w and not rt and not wt,
    "P7":  lambda d, w, rt, wt, limit, count: d < w and not rt and wt,
    "P8":  lambda d, w, rt, wt, limit, count: d < w and rt and limit == 1,
    "P9":  lambda d, w, rt, wt, limit, count: 0 < d < w and rt and not wt and limit > 1,
    "P10": lambda d, w, rt, wt, limit, count: 0 < d < w and rt and wt and limit > 1,
    "P11": lambda d, w, rt, wt, limit, count: 0 == d < w and rt and not wt and count < limit,
    "P12": lambda d, w, rt, wt, limit, count: 0 == d < w and rt and wt and limit > 1,
    "P13": lambda d, w, rt, wt, limit, count: 0 == d < w and rt and not wt and count >= limit > 1,
}

# What a desk cannot reach, and why.
UNREACHED = {
    "the control words of a FARM on the desk's own channel are valid": {("P16", s) for s in STATES + (INITIAL,)},
    "a FARM's word with Wait has Retransmit": {(row, s) for row in ("P3", "P7") for s in STATES + (INITIAL,)},
    "in S2 and S3 something is sent and not confirmed": {("P1", "S2"), ("P1", "S3")},
    "in S4 and S5 nothing is sent": {(row, s) for row in TABLE for s in ("S4", "S5") if TABLE[row][s] == "-"},
    "in S6 no timer runs": {("P17", INITIAL), ("P18", INITIAL)},
}
CELLS = [(row, state) for row in TABLE for state in STATES + (INITIAL,)
         if not any((row, state) in cells for cells in UNREACHED.values())]
# What is to be met of a cell besides: that P8 confirms something, and that a look sends what waits.
BESIDES = ([("P8", state, "confirms") for state in SENDING]
           + [(row, state, "sends what waits") for row, state in CELLS if state != INITIAL and "look" in TABLE[row][state].split(", ")])


class Indication(NamedTuple):
    """What the FOP tells: Sent, Confirmed, InDoubt or GivenBack with a request, Started, or Alert with its name."""
    kind: str
    request: int = 0
    alert: str = ""


class Sent(NamedTuple):
    """A frame that was sent and is not confirmed: its number, and its request."""
    number: int
    request: int


class Fop:
    """FOP-1; `visits` counts the cells that were met, `said` and `frames` are what was put out since they were taken last."""

    def __init__(self, k: int = FIRST_K) -> None:
        """In S6, as a desk begins, with this window."""
        self.state, self.vs, self.nn, self.number = INITIAL, 0, 0, 0
        self.wait: Optional[int] = None
        self.sent: list[Sent] = []
        self.flagged: set[int] = set()
        self.t1, self.timer, self.limit, self.count, self.k = FIRST_T1, 0, FIRST_LIMIT, 1, k
        self.copy: Optional[Frame] = None
        self.visits: Counter[tuple[Any, ...]] = Counter()
        self.cell: tuple[str, ...] = ()
        self.said: list[Indication] = []
        self.frames: list[Frame] = []

    # ---- calls

    def check_offer(self) -> None:
        """Whether a request may be offered."""
        need(self.state in SENDING, Refusal.SERVICE_NOT_ACTIVE)
        need(self.wait is None, Refusal.WAIT_QUEUE_FULL)

    def offer(self, request: int) -> None:
        """A request is offered, as `check_offer` lets it."""
        self.wait, self.cell = request, ()
        if self.state != "S3":
            self.do("look")

    def initiate(self, kind: str, value: int = 0) -> None:
        """An initiation: none, check, unlock or setvr."""
        need(self.state == INITIAL, Refusal.BAD_DIRECTIVE)
        self.sent, self.flagged, self.wait, self.count = [], set(), None, 1
        if kind == "setvr":
            self.vs = value
        self.nn = self.vs
        if kind == "none":
            self.do("to S1, started")
        elif kind == "check":
            self.do("start timer, to S4")
        else:
            self.copy = Frame(UNLOCK) if kind == "unlock" else Frame(SET_VR, value)
            self.frames.append(self.copy)
            self.do("start timer, to S5")

    def set_vs(self, value: int) -> None:
        """V(S), and with it NN(R)."""
        need(self.state == INITIAL, Refusal.BAD_DIRECTIVE)
        self.vs = self.nn = value

    def terminate(self) -> None:
        """A person ends the service."""
        if self.state != INITIAL:
            self.do("TERM")

    def tick(self) -> None:
        """A tick of the timer."""
        if self.timer:
            self.timer -= 1
            if self.timer == 0:
                self.meet("P17" if self.count < self.limit else "P18")

    def clcw(self, word: Optional[Reading]) -> None:
        """A control word; none that is invalid."""
        if word:
            self.number = word.report
        self.meet(self.row_of(word))

    # ---- rows and actions

    def row_of(self, word: Optional[Reading]) -> str:
        """The row of a control word."""
        if word is None:
            return "P16"
        if word.is_lockout:
            return "P15"
        d, w = distance(word.report, self.nn), distance(self.vs, self.nn)
        for row, holds in WHEN.items():
            if holds(d, w, word.is_retransmit, word.is_wait, self.limit, self.count):
                return row
        raise AssertionError("no row")

    def meet(self, row: str) -> None:
        """What the cell of a row says is done; in S6 nothing is."""
        self.cell = (row, self.state)
        self.visits[self.cell] += 1
        if self.state != INITIAL:
            self.do(TABLE[row][self.state])

    def do(self, cell: str) -> None:
        """The actions of a cell, in order."""
        for words in cell.split(", "):
            action = ACTIONS.get(words)
            if action:
                action(self)
            elif words.startswith("to "):
                self.state = words[3:]
            else:
                assert words in ALERTS, words
                self.alert(words)

    def remove(self) -> None:
        """What a control word acknowledges is confirmed, and leaves the queue."""
        d = distance(self.number, self.nn)
        if d == 0:
            return
        self.visits[self.cell + ("confirms",)] += 1
        for number, request in self.sent[:d]:
            self.said.append(Indication("Confirmed", request))
            self.flagged.discard(number)
        self.sent, self.nn, self.count = self.sent[d:], self.number, 1

    def start_timer(self) -> None:
        """The timer runs."""
        self.timer = self.t1

    def cancel_timer(self) -> None:
        """It does not."""
        self.timer = 0

    def retransmit(self) -> None:
        """All that was sent is to be sent again."""
        self.count += 1
        self.start_timer()
        self.flagged = {it.number for it in self.sent}

    def look(self) -> None:
        """What is flagged is sent again; then what waits, where the window is open."""
        self.frames += [Frame(ACCEPTABLE, *it) for it in self.sent if it.number in self.flagged]
        self.flagged = set()
        if self.wait is not None and distance(self.vs, self.nn) < self.k:
            self.visits[self.cell + ("sends what waits",)] += 1
            self.transmit(self.wait)

    def transmit(self, request: int) -> None:
        """What waits is sent for the first time."""
        if not self.sent:
            self.count = 1
        self.sent.append(Sent(self.vs, request))
        self.frames.append(Frame(ACCEPTABLE, self.vs, request))
        self.said.append(Indication("Sent", request))
        self.vs, self.wait = (self.vs + 1) % 256, None
        self.start_timer()

    def alert(self, kind: str) -> None:
        """The service ends: what was sent is in doubt, what waits is given back."""
        self.said += [Indication("InDoubt", it.request) for it in self.sent]
        if self.wait is not None:
            self.said.append(Indication("GivenBack", self.wait))
        self.said.append(Indication("Alert", alert=kind))
        self.sent, self.flagged, self.wait, self.timer, self.copy, self.state = [], set(), None, 0, None, INITIAL

    def drop_copy(self) -> None:
        """The control frame is not sent again."""
        self.copy = None

    def send_copy(self) -> None:
        """The control frame is sent again."""
        assert self.copy, "a service that begins by a control frame has its copy"
        self.frames.append(self.copy)

    def raise_count(self) -> None:
        """Sent once more."""
        self.count += 1

    def begin(self) -> None:
        """The service has begun."""
        self.said.append(Indication("Started"))

    def take(self) -> tuple[list[Indication], list[Frame]]:
        """What was put out since the last time: what was said, and the frames."""
        out = self.said, self.frames
        self.said, self.frames = [], []
        return out

    def line(self) -> str:
        """How it stands, as it is printed."""
        return (f"fop {self.state} vs {self.vs} nn {self.nn} sent {len(self.sent)} wait {int(self.wait is not None)} count"
                f" {self.count} timer {self.timer} k {self.k} t1 {self.t1} limit {self.limit}")


ACTIONS: dict[str, Callable[[Fop], None]] = {
    "ignore": lambda fop: None, "remove": Fop.remove, "look": Fop.look, "started": Fop.begin,
    "initiate retransmission": Fop.retransmit, "start timer": Fop.start_timer, "cancel timer": Fop.cancel_timer,
    "drop BC copy": Fop.drop_copy, "BC frame again": Fop.send_copy, "count + 1": Fop.raise_count,
}
