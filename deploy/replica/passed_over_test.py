"""Tests: entries that are not carried out, and places that fail."""
from typing import Optional

from desk import Opening
from entry import SKIP, Entry
from log import Wanted
from machine import MOST_REPEATS, Left
from machine_test import Followed, Stop


class PassedOver(Followed):
    """Entries that are not carried out, and places that fail."""

    def test_foreign(self) -> None:
        """What no replica of this desk wrote is passed over, and counted."""
        self.etcd.keys[self.log.key(22).encode()] = b"no newline", "0"
        self.said(0)
        self.log.free = 23
        self.said(0)
        self.begun()
        self.goes()
        self.assertEqual((23, 20, 1), (self.machine.place, len(self.desk.posts), sum(at.name == "FOREIGN" and count for at, count in self.machine.passed_over.items())))

    def skip(self, place: int) -> None:
        """This place is to be skipped."""
        self.log.done = lambda: 0
        self.log.put([Wanted(Entry("s", SKIP, b"%d" % place))], place)

    def test_skip(self) -> None:
        """A desk that begins skips it. One that has carried it out is ended where it reads that, and one that skipped it goes on, also with another follower."""
        self.begun()
        self.goes()
        self.skip(3)
        self.assertRaises(Left, self.goes)
        self.desk.another("next")
        self.begun()
        self.goes()
        self.assertEqual((22, 19, False), (self.machine.place, len(self.desk.posts), b"2" in self.desk.posts))
        self.begun()
        self.said(0)
        self.goes()
        self.assertEqual((23, 19), (self.machine.place, len(self.desk.posts)))

    def test_repeats(self) -> None:
        """A place at which desks fail again and again: the machine stays out, until that place is skipped."""
        self.desk.step = lambda: setattr(self.desk, "status", 503 if self.desk.posts[4:5] else 200)
        for at in range(MOST_REPEATS):
            self.assertEqual(0, self.machine.stays_out_at())
            self.desk.another(f"mark{at}")
            self.assertRaises(Left, self.begun_and_goes)
            self.machine.leave(self.desk.runs, "why")
            self.assertEqual((5, at + 1), self.desk.repeats())
        self.assertEqual(5, self.machine.stays_out_at())
        self.skip(5)
        self.machine.stay_out()
        self.assertEqual((0, (0, 0)), (self.machine.stays_out_at(), self.desk.repeats()))

    def begun_and_goes(self) -> None:
        """A follower begins, and goes on."""
        self.begun()
        self.goes()

    def test_repeats_of_followers(self) -> None:
        """A follower that ends in the midst of a place, again and again, counts as well; one that ends between two places does not."""
        failing: Optional[BaseException] = Stop()

        def step() -> None:
            """In the midst of the fifth place it ends."""
            if failing and len(self.desk.posts) == 5:
                raise failing

        self.desk.step = step
        for at in range(MOST_REPEATS):
            self.assertEqual((5 if at > 1 else 0, max(0, at - 1)), self.desk.repeats())
            self.assertRaises(Stop, self.begun_and_goes)
            self.desk.posts = self.desk.posts[:4]
        self.assertRaises(Left, self.begun)
        self.assertEqual(5, self.machine.stays_out_at())
        failing = None
        self.desk.forget_repeats()
        self.desk.another("next")
        self.begun_and_goes()
        self.begun()
        self.assertEqual((0, 0), self.desk.repeats())

    def test_other_places(self) -> None:
        """Failures at another place are counted anew, and those of a machine that is in are forgotten."""
        self.assertEqual([1, 2, 1, 2, 3, 1], [self.desk.failed(it) for it in (7, 7, 8, 8, 8, 7)])
        self.begun().comes_in("mark")
        self.assertEqual((0, 0), self.desk.repeats())
        self.desk.runs = Opening("x", 0, 0, 1000)
