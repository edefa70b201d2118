"""What random lines of link_writers.py would hardly meet, written on purpose: each window K from 1 to 127 at its border,
127 frames in flight, rings that are full both ways, a schedule that is full, and offsets at the ends of time.
"""
from typing import Optional

from generate.link_writers import Style, Writer
from generate.texts import joined
from model.facts import COUNTS, LAST_MOMENT, MOST_ACTIVITIES, Place

PLAIN, LISTED = "5 ---- no 8 1 - - ok", "7 a--c no 8 1 - - ok"


class Scene(Writer):
    """Writes one scene, with a window of its own."""

    def __init__(self, seed: int, w: int, asks: float = 0.1, ring: Optional[int] = None) -> None:
        """Begins with a new plain desk."""
        super().__init__(seed, Style("scene", 0, (w,), (10,), asks=asks, ring=ring))

    def said(self, *acts: str) -> None:
        """These acts, by one person."""
        for act in acts:
            self.say(act, "eve")

    def flies(self, words: str = PLAIN) -> None:
        """A request is entered, approved and released."""
        self.say(f"release {self.prepare(words)}", "eve")

    def arrives(self) -> None:
        """The first frame comes on board and is carried out."""
        self.said("up", "work")

    def commands(self, words: str) -> None:
        """A command of the schedule flies, is carried out and told."""
        self.flies(f"6 ---c no 11 {words} ok")
        self.arrives()
        self.said("down")


def every_k(seed: int, w: int, least: int, most: int) -> Scene:
    """Each K of these at its border: K frames are out, one waits, and goes as soon as one is confirmed. One more than half of W is
    refused, whatever K is."""
    it = Scene(seed, w)
    it.said("link", "initiate none")
    for k in range(least, most + 1):
        it.said(f"set k {k}")
        while it.fop.wait is None:
            it.flies()
        it.flies()
        it.said("link", f"set k {w // 2 + 1}")
        it.arrives()
        it.said("clcw", "down", "link")
    while it.uplink:
        it.arrives()
    it.said("clcw", "down", "link", "places")
    return it


def widest(seed: int) -> Scene:
    """127 frames are out and a 128th waits; all come on board, and are confirmed by one word, three times over, so that the numbers
    go round. Then a start behind the FARM: 140 of its frames are not out at once."""
    it = Scene(seed, 254)
    it.said("set k 128", "set k 127", "initiate none")
    for _ in range(3):
        while it.fop.wait is None:
            it.flies()
        it.flies()
        it.said("link")
        for _ in range(127):
            it.arrives()
        it.said("clcw", "down", "link")
    it.arrives()
    it.said("clcw", "down", "link", "terminate", f"set vs {(it.farm.vr - 34) % 256}", "initiate none")
    for _ in range(140):
        it.flies()
    for _ in range(12):
        it.said("up")
    it.said("clcw", "down", "terminate", "link", "places")
    return it


def overwritten(seed: int, size: int) -> Scene:
    """More is put than rings of this size hold, both ways: frames, by the timer, until the oldest are overwritten; then reports and
    words that nobody reads. A place past the end loses nothing."""
    it = Scene(seed, 254, asks=0.01, ring=size)
    it.said("set k 127", "set t1 1", "set limit 255", "link", "initiate none")
    for _ in range(min(size + 1, 127)):
        it.flies("5 aspc no 8 1 - - ok/2")
    while it.uplink.dropped < 3:
        it.said("tick")
    it.said("link", f"loseup {size}", f"loseup {size - 1}", "link", f"loseup {size // 2}", "up", "link", "tick", "clcw", "down", "link")
    it.said("terminate", *["up"] * len(it.uplink), "link")
    while it.downlink:
        it.said("down")
    it.said(f"initiate setvr {it.number()}", "up", "clcw", "down", "set t1 65535")
    for _ in range(100):
        it.flies("5 aspc no 8 1 - - ok/2")
        it.arrives()
        it.said(*["clcw"] * (1 + size // 100))
    it.said("link", f"losedown {size}", f"losedown {size - 1}", "link", f"losedown {size // 2}", *["down"] * min(len(it.downlink), 400))
    it.said("link", "places")
    return it


def full_schedule(seed: int) -> Scene:
    """64 activities and one more, some of them by lists, of which one would be too many by one; then they are shifted, told by a summary, and fall due."""
    it = Scene(seed, 20, asks=0.02)
    it.said("initiate none")
    # so many at a time: 63 stand before two are too many
    for count in [1] * 34 + [8, 7, 6, 5, 2, 1, 2, 1, 1]:
        several = [it.prepare(f"{number % 3 * 3} a--c no 8 1 - - {it.outcome()}") for number in range(count)]
        it.commands(f"4 {joined(map(str, several))} {joined(str(60 + it.dice.randrange(40)) for _ in several)}")
        it.said("clcw", "down")
    it.said("schedule")
    it.commands("17 - -")
    it.said("down", "schedule")
    it.commands(f"5 {it.standing(Place.SCHEDULED)[0]} -")
    it.said("schedule")
    listed = it.prepare(LISTED)
    it.commands(f"4 {listed} {LAST_MOMENT}")
    for words in ("15 - 1", "15 - -41", f"7 {listed} 1", f"7 {listed} -1", "15 - 1", "15 - 2", "1 - -"):
        it.commands(words)
        it.said("schedule", "clcw", "down")
    it.said("clock 80", *["down"] * 60, "schedule", f"clock {LAST_MOMENT}", *["down"] * 60, "schedule", "places")
    return it


def lists(seed: int) -> Scene:
    """Inserts of each number of activities from 1 to 8, of which one is too early at each place in turn, or none; then all fall due."""
    it = Scene(seed, 20, asks=0.02)
    it.said("initiate none", "clock 1000")
    for count in range(1, 9):
        for early in (*range(count), None):
            listed = [it.prepare(f"{number} a--c no 8 1 - - {it.outcome()}") for number in range(count)]
            it.commands(f"4 {joined(map(str, listed))} {joined('1059' if at == early else str(1060 + at) for at in range(count))}")
            it.said("clcw", "down")
        it.said("schedule")
    it.commands("1 - -")
    it.said("clock 1063", *["down"] * 40, "schedule", "clock 1100", *["down"] * 60, "schedule", "places")
    return it


def ends_of_time(seed: int) -> Scene:
    """The mirror is behind: a shift that the spacecraft carries out would put what the mirror shows past the ends of time."""
    it = Scene(seed, 20, asks=0.02)
    it.said("initiate none", "clock 1000")
    first, second, third = (it.prepare(LISTED) for _ in range(3))
    it.commands(f"4 {first} 1100")
    it.commands(f"4 {second} {LAST_MOMENT - 5}")
    it.flies(f"6 ---c no 11 5 {first} - ok")
    it.flies(f"6 ---c no 11 5 {second} - ok")
    it.said("up", "work", "losedown 0", "up", "work", "losedown 0", "schedule")
    it.commands(f"4 {third} {LAST_MOMENT - 10000}")
    for words in ("15 - 9999", "15 - -5000", f"7 {third} 1", f"15 - -{LAST_MOMENT - 20000}", "17 - -"):
        it.commands(words)
        it.said("schedule")
    it.said("down", "schedule", "clcw", "down", "link")
    return it


def mirror_behind(seed: int) -> Scene:
    """Reports of shifts are lost, so that later ones would put what the mirror shows past the ends of time; and of inserts, so that
    deletes name what it does not show."""
    it = Scene(seed, 20, asks=0.02)
    it.said("initiate none")
    for time, there, back in ((100, 2000, -2000), (LAST_MOMENT - 5, -1000, 1000)):
        listed = it.prepare(LISTED)
        it.commands(f"4 {listed} {time}")
        for offset in (there, back):
            it.flies(f"6 ---c no 11 7 {listed} {offset} ok")
        it.said("up", "work", "losedown 0", "up", "work", "down", "schedule", "clcw", "down")
    for ends in ((), ("terminate", "clcw", "down", "initiate check", "clcw", "down")):
        listed = it.prepare(LISTED)
        it.flies(f"6 ---c no 11 4 {listed} 5000 ok")
        it.said("up", "work", "losedown 0", *ends)
        it.commands(f"5 {listed} -")
        it.said("schedule", "link")
    return it


def reports_lost(seed: int) -> Scene:
    """Of four reports of a request so many are lost that the first which is read finds it at each place and asks for each: of one
    that flew itself, and of an activity whose insert was read, or was not, or is in doubt."""
    it = Scene(seed, 20, asks=0.02)
    it.said("set limit 255", "initiate none")
    it.commands("1 - -")
    for place in ("Sent", "Confirmed", "Doubtful", "Scheduled", "Riding"):
        for lost, ack, outcome in ((0, "aspc", "ok/1"), (1, "aspc", "ok/1"), (3, "aspc", "ok/1"), (2, "as--", "fail/16")):
            flown = it.prepare(f"3 {ack} no 8 1 - - {outcome}")
            if place in ("Scheduled", "Riding"):
                due = it.desk.board.now + 60
                it.flies(f"6 ---c no 11 4 {flown} {due} ok")
                it.said("up", "work", "down" if place == "Scheduled" else "losedown 0", f"clock {due}")
            else:
                it.said(f"release {flown}", "up", *(["losedown 0", "clcw", "down"] if place == "Confirmed" and lost else []), "work")
                it.said(*(["terminate", f"set vs {it.farm.vr}", "initiate none"] if place == "Doubtful" else []))
            it.said(*["losedown 0"] * (lost - (place == "Confirmed" and lost > 0)), *["down"] * 5, f"request {flown}", "schedule")
            it.said("clcw", "down")
    return it


def insert_in_doubt(seed: int) -> Scene:
    """A service ends over inserts that are on board: their activities are in doubt until reports tell; one is closed, one is in a
    queue and goes back."""
    it = Scene(seed, 20, asks=0.02)
    it.said("set k 3", "initiate none")
    listed = it.enter(LISTED) or 0
    it.flies(f"6 ---c no 11 4 {listed} 500 ok")
    it.said(f"approve {listed}", f"release {listed + 1}", "up", "work", "down", "clcw", "down")
    for time in (500, 10, 500, 500):
        it.flies(f"6 ---c no 11 4 {it.prepare(LISTED)} {time} ok")
    it.said("up", "work", "up", "work", "terminate", *["down"] * 3, "loseup 0", "places")
    it.said(f"close {it.standing(Place.DOUBTFUL)[-1]}", f"set vs {it.farm.vr}", "initiate check", "clcw", "down")
    it.flies(f"6 ---c no 11 4 {it.prepare(LISTED)} 500 ok")
    it.said(f"close {it.standing(Place.RIDING)[0]}", "up", "work", "down", "schedule", "places", "link")
    return it


def report_after_confirm(seed: int) -> Scene:
    """An old control word confirms a request that only then comes on board: after a bad start, and its report comes last."""
    it = Scene(seed, 20)
    it.said("initiate none")
    it.flies()
    it.said("up", "work", "clcw", "terminate", "initiate setvr 0", "up", "terminate", "set vs 0", "initiate none")
    it.flies("5 a--c no 8 1 - - ok")
    it.said("down", "link", "up", "down", "work", "down", "clcw", "down", "link")
    return it


def reset_all(seed: int) -> Scene:
    """Activities are inserted in another order than they were entered, one is closed, and a reset deletes the others in order of
    number; but those that fell due, whose reports were lost, and which a summary did not show."""
    it = Scene(seed, 20, asks=0.02)
    it.said("initiate none")
    listed = [it.prepare(f"{apid} a--c no 8 1 - - ok") for apid in (7, 3, 3, 9, 1, 7)]
    for place in (3, 1, 5, 0, 4, 2):
        it.flies(f"6 ---c no 11 4 {listed[place]} {500 if place < 2 else 501} ok")
        it.said("up", "work", "losedown 0" if place == 4 else "down")
    it.said("schedule", f"close {listed[1]}")
    it.commands("1 - -")
    it.said("clcw", "down", "clock 500", *["losedown 0"] * 9)
    it.commands("17 - -")
    it.said("down", "schedule", "places")
    it.commands("3 - -")
    it.said("schedule", "places", "clcw", "down", f"request {listed[0]}")
    return it


def same_name(seed: int) -> Scene:
    """All names of one application process are given; then two are given again whose first bearers were closed, and still are on board: one goes there by
    itself, and one behind a request whose name is free."""
    it = Scene(seed, 20, asks=0)
    it.said("initiate none")
    first, other = (it.prepare("9 a--c no 8 1 - - ok") for _ in range(2))
    it.commands(f"4 {first};{other} 9000;9000")
    it.said(f"close {first}", f"close {other}")
    for _ in range(COUNTS - 2):
        it.put("7 ann enter 9 ---- no 8 1 - - ok")
    first, other = (it.prepare("9 a--c no 8 1 - - ok") for _ in range(2))
    it.commands(f"4 {first} 9500")
    it.commands(f"4 {it.prepare(LISTED)};{other} 9500;9500")
    it.said("schedule", "clock 9000", "down", "down", "schedule", "clcw", "down", "enter 9 ---- no 8 1 - - ok", "places")
    return it


def crowded(seed: int) -> Scene:
    """The buffer is full: what the FARM does with each frame in Wait, and then in Lockout; and a word with Wait in every state."""
    it = Scene(seed, 20)
    it.said("set t1 2", "set limit 9", "initiate none")
    for _ in range(7):
        it.flies()
    it.said(*["up"] * 6, "tick", "tick", "clcw", *["up"] * 7, "down", "tick", "tick", "link")
    it.said("terminate", *["loseup 0"] * 7, "set vs 100", "initiate none")
    it.flies()
    it.said("up", "terminate", "set vs 4", "initiate none")
    for _ in range(4):
        it.flies()
    it.said(*["up"] * 4, "terminate", "set vs 0", "initiate none")
    it.flies()
    it.said("up", "clcw", "down", "initiate setvr 9", "up", "link", "work", "link", "clcw", "terminate", "initiate unlock", "up")
    it.said("clcw", *["down"] * 3, "link")
    return it


def locked_out(seed: int) -> Scene:
    """A start whose number is far from the FARM's, which locks out: what it then does with each frame, and the way back."""
    it = Scene(seed, 20)
    it.said("initiate none")
    it.flies()
    it.said("up", "terminate", "set vs 129", "initiate none")
    it.flies()
    it.said("up", "link", "terminate")
    for vs in (1, 0, 2, 140):
        it.said(f"set vs {vs}", "initiate none")
        it.flies()
        it.said("up", "link", "terminate")
    it.said("set vs 1", "initiate setvr 1", "up", "clcw", "down", "link", "terminate", "initiate unlock", "up", "clcw", "down", "link")
    it.flies()
    it.said("up", "clcw", "down", "link")
    return it


def unlevel(seed: int) -> Scene:
    """Starts by a check that are good and not level: the numbers differ, or a flag stands. Nothing is in flight, so the premise is
    kept; and starts that nothing answers."""
    it = Scene(seed, 20)
    it.said("set t1 2", "initiate none")
    it.flies()
    it.flies()
    it.said("loseup 0", "up", "terminate", "link")
    for act in ("set vs 0", "set vs 5", f"set vs {it.dice.randrange(1, 256)}"):
        it.said(act, "initiate check", "clcw", "down", "link")
    it.said("set vs 0", "initiate check", "tick", "tick", "link", "initiate setvr 7", "loseup 0", "tick", "tick", "up", "clcw", "down", "link")
    for _ in range(6):
        it.flies()
    it.said(*["up"] * 6, "terminate")
    for act in ("initiate check", "initiate unlock"):
        it.said(f"set vs {it.farm.vr}", act, "up", "clcw", "down", "link")
    it.said("terminate", "initiate check", "clcw", "down", "link")
    return it


def waits(seed: int) -> Scene:
    """In S3: the spacecraft was seen to wait, and all was accepted before it is seen again; then the limit is met in S3."""
    it = Scene(seed, 20)
    it.said("set t1 2", "set limit 9", "initiate none")
    for _ in range(5):
        it.flies()
    it.said("tick", "tick", *["up"] * 5, "clcw", "down", "link", "tick", "tick", "work", *["up"] * 5, "clcw", "down", "link")
    for _ in range(6):
        it.flies()
    it.said("work", "work", "work", "work", *["up"] * 5, "tick", "tick", "clcw", "down", "link")
    for _ in range(2):
        it.said(*["work"] * 4, *["loseup 0"] * 3, *["up"] * 9, "clcw", "down", "tick", "tick", "set limit 2", "work", "clcw", "down", "link")
    return it


def ended(seed: int) -> Scene:
    """Control words are read while no service is on: nothing comes of them, whatever their row would be."""
    it = Scene(seed, 20)
    it.said("set limit 9", "initiate none")
    for _ in range(6):
        it.flies()
    it.said(*["up"] * 5, "clcw", "clcw", "terminate", "down", "set limit 1", "down", "work", "clcw", "set limit 9", "clcw", "clcw")
    it.said("down", "set limit 1", "down", "down", "loseup 0", "set limit 9", "set vs 4", "initiate none")
    for _ in range(2):
        it.flies()
    it.said(*["clcw"] * 3, "work", "work", "work", "up", "clcw", "up", "clcw", "terminate", "down", "set limit 1", "down", "down", "down")
    it.said("set limit 9", "down", "link", *["tick"] * 12, "link")
    return it
