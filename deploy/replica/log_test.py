"""Tests: the log's clock, seals, appending and following, and what the log says of its places."""
import random
import threading
import unittest

from entry import SKIP, TICK, VOID, Entry, Seal, entry_of
from etcd import JSON, Unanswered
from log import MOST_AT_ONCE, LogLost, Wanted
from order import Order, Verdict
from stand_ins import SEAL, Hand, StandIn, Steady, entry, log_of, whole


class Clocks(Steady):
    """The clock of the log."""

    def test_forward(self) -> None:
        """It never goes back, whatever the machine's own clock does, is in step with the newest time of the log, and goes on by what passes."""
        hand = Hand()
        clock = hand.clock()
        self.assertEqual(1_000_000, clock.now())
        hand.go(1)
        self.assertEqual(1_001_000, clock.now())
        hand.seconds = 10
        self.assertEqual(1_001_000, clock.now())
        hand.passed += 2
        self.assertEqual(1_003_000, clock.now())
        clock.saw(5_000_000)
        hand.passed += 1
        self.assertEqual(5_001_000, clock.now())
        clock.saw(4_000_000)
        self.assertEqual(5_001_000, clock.now())
        hand.seconds = 6000
        self.assertEqual(6_000_000, clock.now())


class Seals(unittest.TestCase):
    """Entries, and their seals."""

    def test_entries(self) -> None:
        """An entry is read as it was written, whatever its body is; a text that is none is none."""
        for body in (b"", b"\n", b"a b\nc", bytes(range(256)), b"x" * 65536):
            self.assertEqual(it := Entry("a-1-2", "/acts", body, 7, 8, 9), entry_of(it.text()))
        for text in (b"", b"\n", b"a /acts\nx", b"a /acts 1 2 x\n", b"a /acts 1 2 3 4\n", b"\xff /acts 1 2 3\n"):
            self.assertIsNone(entry_of(text), text)

    def test_seals(self) -> None:
        """A sealed text is opened where it was sealed, with the same key; changed, elsewhere, or by another key it is nobody's."""
        sealed = SEAL.sealed("/here", b"text")
        self.assertEqual(b"text", SEAL.opened("/here", sealed))
        for where, text, seal in (("/there", sealed, SEAL), ("/here", sealed + b"x", SEAL), ("/here", b"text", SEAL), ("/here", b"", SEAL), ("/here", sealed, Seal(b"k")),
                                  ("/here", b"\xff" + sealed, SEAL)):
            self.assertIsNone(seal.opened(where, text))

    def test_named(self) -> None:
        """The place that a skip or a void names."""
        self.assertEqual([12, 12, 0, 0, 0], [Entry("m", path, body).named() for path, body in (
            (SKIP, b"12"), (VOID, b"12"), (TICK, b"12"), (SKIP, b"x"), (SKIP, b"9" * 13))])


class Logs(Steady):
    """Appending and following."""

    def test_many(self) -> None:
        """Four machines append at once, and etcd fails often: each entry has one place, the one that was told, and those of one machine stand in their order."""
        etcd, told = StandIn(10), dict[str, int]()

        def append(by: str) -> None:
            """So many entries, in batches of one to five."""
            log, dice, at = log_of(etcd), random.Random(by), 0
            while at < 300:
                wanted = [Wanted(entry(at + it, by)) for it in range(dice.randrange(1, 6))]
                while not all(it.place for it in wanted):
                    try:
                        log.put([it for it in wanted if not it.place])
                    except Unanswered:
                        if dice.randrange(3) == 0:
                            try:
                                log.follow(log.free)
                            except Unanswered:
                                pass
                told.update({it.entry.mark: it.place for it in wanted})
                at += len(wanted)

        threads = [threading.Thread(target=append, args=(by,)) for by in "abcd"]
        for it in threads:
            it.start()
        for it in threads:
            it.join()
        etcd.failing = 0
        entries = whole(log_of(etcd))
        self.assertEqual({it.mark: place for place, it in enumerate(entries, 1)}, told)
        self.assertEqual(len(entries), len(told))

    def test_given_up(self) -> None:
        """An entry for which nobody waits any more is put at no further place than the one that was free while somebody did, and that is told."""
        etcd = StandIn()
        log, other = log_of(etcd), log_of(etcd)
        gone, first, second = Wanted(entry(1), lambda: False), Wanted(entry(2)), Wanted(entry(3))
        log.put([gone])
        self.assertEqual((0, False, []), (gone.place, gone.give_up(), whole(log)))

        def others() -> None:
            """Another machine is faster, and nobody waits for the first entry any more."""
            etcd.before = lambda: None
            other.put([Wanted(entry(4, "b"))])
            self.assertTrue(first.give_up())

        etcd.before = others
        log.put([first, second])
        self.assertEqual((0, 0, False), (first.place, second.place, first.give_up()))
        log.put([first, second])
        self.assertEqual((0, 2), (first.place, second.place))
        self.assertEqual([entry(4, "b"), entry(3)], whole(log))

    def test_done_late(self) -> None:
        """A transaction that was done, and not answered, is known by its marks, also once the log was read past it, and with one entry less or more."""
        for follows in (False, True):
            etcd = StandIn()
            log, calls = log_of(etcd), list[JSON]()

            def done(asked: JSON) -> JSON:
                """The first is done and not answered."""
                calls.append(asked)
                told = StandIn.done(etcd, asked)
                if len(calls) == 1:
                    raise Unanswered("after it")
                return told

            setattr(etcd, "done", done)
            wanted = [Wanted(entry(it)) for it in (1, 2)]
            self.assertRaises(Unanswered, log.put, wanted)
            if follows:
                log.follow(1)
            self.assertTrue(wanted[0].give_up())
            more = Wanted(entry(3))
            log.put([*wanted, more])
            self.assertEqual((2, 0), (wanted[1].place, more.place))
            log.put([more])
            self.assertEqual(3, more.place)
            self.assertEqual([entry(1), entry(2), entry(3)], whole(log))

    def test_lost(self) -> None:
        """A log that lost its end, or has a gap, is not gone on with."""
        etcd = StandIn()
        log = log_of(etcd)
        for at in range(5):
            log.put([Wanted(entry(at))])
        etcd.keys = {key: it for key, it in etcd.keys.items() if key <= log.key(3).encode()}
        self.assertRaises(LogLost, log.put, [Wanted(entry(5))])
        del etcd.keys[log.key(2).encode()]
        self.assertRaises(LogLost, log.follow, 1)

    def test_follow(self) -> None:
        """What is read at a time is no more than so many, and `newest` tells the last place. The clock is in step with what is read."""
        etcd, hand = StandIn(), Hand(2000)
        log = log_of(etcd, hand.clock())
        self.assertEqual(0, log.newest(0))
        for at in range(0, 250, 50):
            log.put([Wanted(entry(at + it)) for it in range(50)])
        slow = log_of(etcd, Hand(5).clock())
        self.assertEqual([MOST_AT_ONCE, MOST_AT_ONCE, 50, 0], [len(slow.follow(it)) for it in (1, 101, 201, 251)])
        self.assertEqual([250, 250], [log.newest(0), log.newest(250)])
        self.assertEqual(2_000_000, slow.clock.now())

    def test_foreign(self) -> None:
        """What no replica of this desk put there is read as nothing, and others are put after it; so is one that was copied from another place."""
        etcd = StandIn()
        log = log_of(etcd)
        log.put([Wanted(entry(1))])
        for place, value in ((2, b"no newline"), (3, b""), (4, etcd.keys[log.key(1).encode()][0])):
            etcd.keys[log.key(place).encode()] = value, "0"
        wanted = Wanted(entry(2))
        while not wanted.place:
            log.put([wanted])
        self.assertEqual(5, wanted.place)
        self.assertEqual([True, False, False, False, True], [it is not None for it in log_of(etcd).follow(1)])

    def test_skips(self) -> None:
        """A place is skipped by a replica's word alone."""
        etcd = StandIn()
        log = log_of(etcd)
        log.put([Wanted(entry(1))])
        log.put([Wanted(Entry("s", SKIP, b"1"))], 1)
        etcd.keys[log.skip_key(7).encode()] = b"7", "0"
        self.assertEqual({1}, log.skips())

    def test_agrees(self) -> None:
        """The first machine says which program it is, with the seal that all have."""
        etcd = StandIn(20)
        self.assertEqual([True, True, False, True], [log_of(etcd).agrees(it) for it in (b"1", b"1", b"2", b"1")])


class Orders(unittest.TestCase):
    """What the log says of its places."""

    def verdicts(self, *entries: Entry, skips: frozenset[int] = frozenset()) -> list[object]:
        """Of each place."""
        order = Order(1, skips)
        for it in entries:
            order.take(it)
        return [order.items[at].verdict for at in range(1, order.next)]

    def test_first_word(self) -> None:
        """The first word of a post counts: that it was carried out, or that it is late."""
        post, tick = entry(1), Entry("t", TICK, b"")
        void = Entry("v", VOID, b"1")
        self.assertEqual([None, Verdict.GOOD], self.verdicts(post, tick))
        self.assertEqual([Verdict.GOOD] * 3, self.verdicts(post, tick._replace(done=1), void))
        self.assertEqual([Verdict.LATE, Verdict.GOOD, Verdict.GOOD], self.verdicts(post, void, tick._replace(done=1)))
        self.assertEqual([Verdict.GOOD, None], self.verdicts(post, entry(2)._replace(done=1)))
        self.assertEqual([Verdict.GOOD, Verdict.GOOD, None], self.verdicts(post, entry(2), entry(3)._replace(done=2)))
        self.assertEqual([None, Verdict.LATE, Verdict.GOOD], self.verdicts(post, entry(2), void._replace(body=b"2")))

    def test_own_word(self) -> None:
        """A post says nothing of itself, nor does a void of what is not before it."""
        self.assertEqual([None], self.verdicts(entry(1)._replace(done=9)))
        self.assertEqual([Verdict.GOOD, None], self.verdicts(Entry("v", VOID, b"2"), entry(1)))

    def test_passed_over(self) -> None:
        """What nobody of this desk wrote, and what is to be skipped, is passed over, whatever the log says of it."""
        order = Order(1, frozenset({2}))
        for it in (None, entry(1), entry(2), Entry("t", TICK, b"", 0, 0, 3)):
            order.take(it)
        self.assertEqual([Verdict.FOREIGN, Verdict.SKIPPED, Verdict.GOOD, Verdict.GOOD], [order.items[at].verdict for at in range(1, 5)])

    def test_any_beginning(self) -> None:
        """A machine that begins to read at any place finds the same of it."""
        dice = random.Random(3)
        for _ in range(200):
            entries = [dice.choice((entry(at), Entry("t", TICK, b""), Entry("v", VOID, b"%d" % dice.randrange(1, 12))))._replace(done=dice.randrange(0, at + 1))
                       for at in range(12)]
            want = self.verdicts(*entries)
            for first in range(12):
                order = Order(first + 1, frozenset())
                for it in entries[first:]:
                    order.take(it)
                self.assertEqual(want[first:], [order.items[at].verdict for at in range(first + 1, 13)])
