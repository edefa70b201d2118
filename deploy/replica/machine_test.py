"""Tests: a follower, step by step."""
from concurrent.futures import TimeoutError as Late
from queue import Empty

from clock import now
from desk import Begun, Ended
from entry import COMPARE, TICK, VOID, Entry
from log import Wanted
from machine import Left, Machine, NotDone, Told
from order import Item
from stand_ins import FAR, DeskInMemory, Hand, StandIn, Steady, entry, log_of, quick
from words import Answer


class Stop(BaseException):
    """The follower is killed."""


class Writer:
    """What a follower wants written, in place of an appender."""

    def __init__(self) -> None:
        """Nothing yet."""
        self.wants: list[str] = []

    def compare(self) -> str:
        """A comparison."""
        self.wants.append("compare")
        return f"own {len(self.wants)}"

    def tick(self) -> None:
        """Any entry."""
        self.wants.append("tick")

    def void(self, item: Item) -> None:
        """The word that a post is late."""
        self.wants.append(f"void {item.place}")


class Followed(Steady):
    """A log of twenty posts, of which the next entry says that they were carried out, and a desk."""

    def setUp(self) -> None:
        """Nothing is read yet."""
        self.etcd, self.hand = StandIn(), Hand()
        self.log = log_of(self.etcd, self.hand.clock())
        self.entries = [Entry(f"a-0-{at}", "/acts", b"%d" % at, FAR) for at in range(20)]
        self.write(*self.entries)
        self.said(20)
        self.desk = DeskInMemory(quick(self))
        self.machine = Machine(self.log, self.desk, 7)

    def write(self, *entries: Entry) -> None:
        """These come into the log."""
        self.log.done = lambda: 0
        self.log.put([Wanted(it) for it in entries])

    def said(self, place: int, body: bytes = b"") -> None:
        """Some machine says what it has carried out, or of a place that it is void."""
        other = log_of(self.etcd, self.hand.clock())
        other.free, other.done = self.log.free, lambda: place
        other.put([Wanted(Entry(f"t-{self.log.free}", VOID if body else TICK, body))])
        self.log.free = other.free

    def begun(self, is_in: bool = False) -> Machine:
        """A follower that begins after a stop."""
        self.machine = Machine(self.log, self.desk, 7)
        self.machine.writer = Writer()
        self.machine.begin(self.desk.runs)
        self.machine.is_in = is_in
        return self.machine

    def goes(self) -> None:
        """The follower goes on by one step."""
        self.machine.go_on(self.desk.runs)

    def wants(self) -> list[str]:
        """What it wants written, but comparisons, since it was asked last."""
        writer = self.machine.writer
        assert isinstance(writer, Writer)
        wants, writer.wants = [it for it in writer.wants if it != "compare"], []
        return wants


class Followers(Followed):
    """A follower."""

    def test_stops(self) -> None:
        """Wherever it is killed, and however often: each place is posted in order, and again only the one that it was at."""
        for every in range(1, 82):
            self.desk.another(f"mark{every}")
            steps = 0

            def step() -> None:
                """Each so many steps it is killed."""
                nonlocal steps
                steps += 1
                if steps % every == 0:
                    raise Stop

            self.desk.step, kills = step, 0
            while kills < 100:
                try:
                    self.desk.forget_repeats()
                    self.begun()
                    self.goes()
                    break
                except Stop:
                    kills += 1
                    if kills > 50:
                        self.desk.step = lambda: None
            self.desk.step = lambda: None
            numbers = [int(it) for it in self.desk.posts]
            self.assertEqual(list(range(20)), sorted(set(numbers)))
            self.assertEqual(sorted(numbers), numbers)
            self.assertLessEqual(len(numbers) - 20, kills)

    def test_new_desk(self) -> None:
        """A desk of another mark is given the whole log."""
        self.begun()
        self.goes()
        self.assertEqual((21, 20), (self.machine.place, len(self.desk.posts)))
        self.desk.another("another")
        self.begun()
        self.goes()
        self.assertEqual(20, len(self.desk.posts))

    def test_answers(self) -> None:
        """Who waits for an entry is told the answer of the desk, and its place."""
        machine = self.begun()
        told = machine.waiting[self.entries[4].mark] = Told()
        self.goes()
        self.assertEqual((5, Answer(200, b"5", self.desk.headers)), told.result(0))
        self.assertEqual({}, machine.waiting)

    def test_leaves(self) -> None:
        """A desk that is refused memory, or whose file failed: the machine is out, its desk ended, and whoever waits is told so."""
        machine = self.begun(True)
        self.desk.status = 503
        told = machine.waiting[self.entries[0].mark] = Told()
        later = machine.ask("/places", 99)
        self.assertRaises(Left, self.goes)
        machine.leave(self.desk.runs, "why")
        self.assertEqual((False, True, 0), (machine.is_in, self.desk.is_ended, machine.place))
        for it in (told, later):
            self.assertRaises(Ended, it.result, 0)

    def test_questions(self) -> None:
        """A question waits for its place, and is told as of which place its answer is. Who is out answers none."""
        machine = self.begun(True)
        early, late = machine.ask("/places", 21), machine.ask("/places", 22)
        self.goes()
        self.assertEqual((21, Answer(200, b"20", self.desk.headers)), early.result(0))
        self.assertRaises(Late, late.result, 0)
        self.said(0)
        self.goes()
        self.assertEqual(22, late.result(0).place)
        machine.is_in = False
        out = machine.ask("/places", 0)
        self.goes()
        self.assertRaises(Ended, out.result, 0)

    def test_failed_questions(self) -> None:
        """A question that is refused memory is answered so. Where it tells that the file failed the machine is out, and all who wait are told so."""
        machine = self.begun(True)
        self.goes()
        self.desk.status, self.desk.body = 503, b'{"lines":["refused 30 Memory"],"more":0,"refusal":30}'
        told = machine.ask("/report/0/1", 0)
        self.goes()
        self.assertEqual(503, told.result(0).answer.status)
        self.desk.body = b'{"lines":["refused 31 Store"],"more":0,"refusal":31}'
        asked = [machine.ask("/places", 0), machine.ask("/places", 0), machine.ask("/places", 99)]
        self.assertRaises(Left, self.goes)
        machine.leave(self.desk.runs, "why")
        for it in asked:
            self.assertRaises(Ended, it.result, 0)

    def compared(self) -> list[tuple[int, str, bool]]:
        """The comparisons that it had made by now."""
        made = []
        try:
            while True:
                it = self.machine.comparisons.get_nowait()
                made.append((it.place, it.asker, it.brings_in))
        except Empty:
            return made

    def test_compares(self) -> None:
        """While it is in the tables are compared at each seventh place, and where somebody asks; while it is out, where somebody asks once its own desk has."""
        self.write(*(Entry(it, COMPARE, b"") for it in ("c-0-1", "a-0-own")))
        self.begun(True)
        self.goes()
        self.assertEqual([(7, "", False), (14, "", False), (21, "", False), (22, "c", False), (23, "a", False)], self.compared())
        self.assertEqual(20, len(self.desk.posts))
        self.desk.another("another")
        self.begun()
        self.goes()
        self.assertEqual([], self.compared())
        self.desk.another("a third")
        self.begun().own.add("a-0-own")
        self.goes()
        self.assertEqual([(22, "c", False), (23, "a", True)], self.compared())

    def test_asks(self) -> None:
        """While it is out and near the end of the log, it asks for a comparison; once, for a while. Once its tables were found right it is in."""
        machine = self.begun()
        for _ in range(3):
            self.goes()
        self.assertEqual({"own 1"}, machine.own)
        machine.comes_in("of another desk")
        self.assertFalse(machine.is_in)
        machine.comes_in("mark")
        self.assertTrue(machine.is_in)
        machine.has_to_leave("of another desk", "why")
        self.goes()
        machine.has_to_leave("mark", "why")
        self.assertRaises(Left, self.goes)

    def test_is_spent(self) -> None:
        """Its desk is spent near the end of its COUNT, if another one would have more before it."""
        machine = self.begun(True)
        for asked, posts, want in ((950, 100, False), (951, 100, True), (951, 899, True), (951, 900, False)):
            machine.begun = Begun(asked=asked, posts=posts)
            self.assertEqual(want, machine.is_spent(), (asked, posts))

    def test_ended(self) -> None:
        """That its desk has ended is seen where nobody asks anything, too."""
        self.begun()
        self.goes()
        self.goes()
        self.desk.is_ended = True
        self.assertRaises(Ended, self.goes)

    def test_away(self) -> None:
        """While etcd does not answer, it waits, and carries nothing out of which the log has said nothing."""
        machine = self.begun()
        self.etcd.is_away = True
        self.goes()
        self.assertEqual(0, machine.place)
        self.etcd.is_away = False
        self.goes()
        self.assertEqual(21, machine.place)


class InTime(Followed):
    """Posts of which the log says nothing yet."""

    def setUp(self) -> None:
        """One more comes, which may be carried out for ten seconds."""
        super().setUp()
        self.post = entry(21, latest=self.log.clock.now() + 10_000)
        self.write(self.post)

    def test_in_time(self) -> None:
        """It is carried out, and this machine wants to say so; the answer is told once the log has said so, and questions wait for that, too."""
        machine = self.begun(True)
        told, asked = Told(), machine.ask("/places", 22)
        machine.waiting[self.post.mark] = told
        self.goes()
        self.assertEqual((21, 22, 21, ["tick"]), (machine.place, machine.done, len(self.desk.posts), self.wants()))
        self.goes()
        self.assertEqual([], self.wants())
        for it in (told, asked):
            self.assertRaises(Late, it.result, 0)
        self.said(22)
        self.goes()
        self.assertEqual((22, 22), (told.result(0).place, asked.result(0).place))

    def test_late(self) -> None:
        """One that is late is not carried out. After a while this machine wants to say that it is void; the log decides."""
        for is_void in (True, False):
            machine = self.begun(True)
            told = machine.waiting[self.post.mark] = Told()
            self.hand.go(10.5)
            self.goes()
            self.assertEqual((21, 20), (machine.place, len(self.desk.posts)))
            self.assertEqual([], self.wants())
            machine.order.open[0].since -= 2
            self.goes()
            self.assertEqual([], self.wants())
            self.hand.go(1)
            machine.unheard = now()
            self.goes()
            self.assertEqual([], self.wants())
            machine.unheard -= 2
            self.goes()
            self.assertEqual(["void 22"], self.wants())
            self.said(0 if is_void else 22, b"22" if is_void else b"")
            self.goes()
            if is_void:
                self.assertRaises(NotDone, told.result, 0)
            else:
                self.assertEqual(22, told.result(0).place)
            self.assertEqual((23, 20 if is_void else 21), (machine.place, len(self.desk.posts)))
            self.setUp()

    def test_void(self) -> None:
        """A desk that has carried out what the log says is void is ended, also where its follower began anew, or was not in time."""
        for begins, took in ((False, 0), (True, 0), (False, 13), (True, 13)):
            self.begun(True)
            self.desk.step = lambda: self.hand.go(took) if len(self.desk.posts) == 21 and self.hand.passed < took else None
            self.goes()
            self.assertEqual(21, len(self.desk.posts))
            self.assertEqual(21 if took else 22, self.machine.done)
            if begins:
                self.begun(True)
            self.said(0, b"22")
            self.assertRaises(Left, self.goes)
            self.machine.leave(self.desk.runs, "void")
            self.assertEqual((0, 0), self.desk.repeats())
            self.desk.another("next")
            self.begun()
            self.goes()
            self.assertEqual((23, 20), (self.machine.place, len(self.desk.posts)))
            self.setUp()

    def test_took_too_long(self) -> None:
        """A machine whose desk took too long does not say that it was in time. Another one that was decides."""
        self.begun(True)
        self.desk.step = lambda: self.hand.go(13) if len(self.desk.posts) == 21 and self.hand.passed < 13 else None
        self.goes()
        self.write(entry(22))
        self.goes()
        self.assertEqual((21, 21), (self.machine.place, self.machine.done))
        self.machine.order.open[0].since -= 2
        self.goes()
        self.assertEqual(["void 22"], self.wants())
        self.said(22)
        self.goes()
        self.assertEqual((22, 24), (self.machine.place, self.machine.done))

    def test_last_fifth(self) -> None:
        """A post that was begun in time counts if it is answered before its sender was told to wait no more."""
        machine = self.begun(True)
        self.desk.step = lambda: self.hand.go(12) if len(self.desk.posts) == 21 and self.hand.passed < 12 else None
        self.goes()
        self.assertEqual((21, 22, 21), (machine.place, machine.done, len(self.desk.posts)))

    def test_reserve(self) -> None:
        """The reserve leaves a post to the others for a while. They say at once that they have carried out one of the reserve's."""
        machine = self.begun(True)
        machine.name, machine.reserve = "b", "a"
        self.goes()
        self.assertEqual((22, ["tick"]), (machine.done, self.wants()))
        self.desk.another("another")
        machine = self.begun(True)
        machine.name, machine.reserve = "b", "b"
        self.goes()
        self.assertEqual((21, 21, 20, []), (machine.place, machine.done, len(self.desk.posts), self.wants()))
        machine.order.open[0].since -= 2
        self.goes()
        self.assertEqual((21, 22, 21), (machine.place, machine.done, len(self.desk.posts)))

    def test_after_silence(self) -> None:
        """A follower whose clock is slow, and which begins while the log is silent, carries out first nothing that stands before the first entry of its own."""
        self.log = log_of(self.etcd, Hand(0).clock())
        machine = self.begun(True)
        self.goes()
        self.assertTrue(machine.is_in_time(machine.order.open[0]))
        self.assertEqual((21, 20, []), (machine.place, len(self.desk.posts), self.wants()))
        self.write(entry(22))
        self.said(22)
        self.write(entry(23))
        self.goes()
        self.assertEqual((22, 25, 23), (machine.place, machine.done, len(self.desk.posts)))

    def test_in_the_midst(self) -> None:
        """A follower that begins anew in the midst of a post that is void has a desk that may have carried it out: that is ended."""
        self.begun(True)
        self.goes()
        self.desk.begin("mark", self.machine.begun._replace(carried=21))
        self.begun(True)
        self.said(0, b"22")
        self.assertRaises(Left, self.goes)

    def test_restart(self) -> None:
        """A follower that begins anew after a post that it has carried out in time says so still, and posts it no more."""
        self.begun(True)
        self.goes()
        self.begun(True)
        self.goes()
        self.assertEqual((21, 22, 21), (self.machine.place, self.machine.done, len(self.desk.posts)))
        self.said(22)
        self.goes()
        self.assertEqual((23, 21), (self.machine.place, len(self.desk.posts)))
