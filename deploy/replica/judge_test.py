"""Tests: which machines are there, whose name is whose, and whose tables are right."""
import sqlite3
import tempfile
import unittest
from contextlib import closing

import os

from compare import Comparison, Judge
from present import Present, State, there_of
from stand_ins import StandIn, Steady
from tables import digest_of
from tests.runs import quick_folder


class Told:
    """A machine, as a judge tells it."""

    def __init__(self) -> None:
        """It was told nothing yet."""
        self.mark, self.is_in, self.leaves, self.place = "m", False, "", 100

    def comes_in(self, mark: str) -> None:
        """It is in."""
        self.is_in = mark == self.mark

    def has_to_leave(self, mark: str, why: str) -> None:
        """It has to leave."""
        self.leaves = why


class Judges(Steady):
    """Three machines."""

    def setUp(self) -> None:
        """They are there, and out."""
        self.etcd = StandIn()
        self.present = {it: Present(self.etcd, "/r", it, f"owner of {it}", 5) for it in "abc"}
        self.told = {it: Told() for it in "abc"}
        self.judges = {it: Judge(self.told[it], self.etcd, "/r", self.present[it]) for it in "abc"}

    def tell(self, **states: bool) -> None:
        """These machines tell whether they are in."""
        for name, is_in in states.items():
            self.present[name].tell(State(is_in))

    def are(self, name: str) -> dict[str, bool]:
        """Which machines there are by what one of them sees, and whether they are in."""
        return {it: there.state.is_in for it, there in self.present[name].all().items()}

    def give(self, name: str, place: int, digest: bytes, asker: str = "", mark: str = "m") -> None:
        """A machine has this digest at a place."""
        it = Comparison(place, asker, name == asker, mark, "", b"")
        self.judges[name].digests[it] = digest
        self.judges[name].look(None)

    def look(self) -> list[tuple[bool, bool]]:
        """Of each machine whether it was told that it is in, and that it has to leave."""
        for it in self.judges.values():
            it.look(None)
        return [(it.is_in, bool(it.leaves)) for it in self.told.values()]

    def test_present(self) -> None:
        """A machine is there as long as its lease, and what it tells is told again after a new one."""
        self.tell(a=True, b=False)
        self.assertEqual({"a": True, "b": False}, self.are("c"))
        self.etcd.lose(self.present["a"].leased)
        self.assertEqual({"b": False}, self.are("c"))
        self.tell(a=True, b=True)
        self.assertEqual({"a": True, "b": True}, self.are("c"))

    def test_states(self) -> None:
        """How a machine stands is told whole; what does not read is of nobody."""
        state = State(True, 7, 5, 2, True)
        self.present["a"].tell(state)
        self.assertEqual(state, self.present["b"].all()["a"].state)
        for text in (b"", b"in", b"[]", b'{"owner":"x"}', b'{"owner":"x","in":true,"places":[1],"stays_out":false}'):
            self.assertEqual(("", State(False)), there_of(text)[1:])

    def test_names(self) -> None:
        """A name is its owner's: a second machine of that name is told so at once, and comes to it once the first is gone; the same owner begins anew at once."""
        self.tell(a=True)
        second = Present(self.etcd, "/r", "a", "another owner", 5)
        second.tell(State(False))
        self.assertEqual((False, True, {"a": True}), (second.is_owned, second.is_taken, self.are("b")))
        judge = Judge(told := Told(), self.etcd, "/r", second)
        judge.digests[Comparison(1, "a", True, "m", "", b"")] = b"x"
        judge.look(None)
        self.assertFalse(told.is_in)
        again = Present(self.etcd, "/r", "a", "owner of a", 5)
        again.tell(State(False))
        self.assertEqual((True, {"a": False}), (again.is_owned, self.are("b")))
        self.etcd.lose(again.leased)
        second.tell(State(False))
        self.present["a"].tell(State(True))
        self.assertEqual((True, False, True, {"a": False}), (second.is_owned, self.present["a"].is_owned, self.present["a"].is_taken, self.are("b")))

    def test_may_leave(self) -> None:
        """One that wants to leaves while all others are in; two never do."""
        self.tell(a=True)
        self.assertFalse(self.present["a"].may_leave())
        self.tell(b=True, c=True)
        self.assertEqual([True, False, False], [self.present[it].may_leave() for it in "abc"])
        self.assertEqual({"a": False, "b": True, "c": True}, self.are("a"))

    def test_comes_in(self) -> None:
        """The first machine comes in alone; the next once the first has told the same digest at its place."""
        self.tell(a=False, b=False)
        self.give("a", 1, b"x", "a")
        self.assertEqual([(True, False), (False, False), (False, False)], self.look())
        self.tell(a=True)
        self.give("b", 2, b"y", "b")
        self.assertFalse(self.look()[1][0])
        self.give("a", 2, b"y", "b")
        self.assertEqual([(True, False), (True, False), (False, False)], self.look())

    def test_gone(self) -> None:
        """Nobody waits for a machine that is gone, and an old desk's comparison is nobody's."""
        self.tell(a=True, b=False)
        self.give("b", 2, b"y", "b")
        self.assertFalse(self.look()[1][0])
        self.etcd.lose(self.present["a"].leased)
        self.told["b"].mark = "n"
        self.assertFalse(self.look()[1][0])
        self.give("b", 3, b"y", "b", "n")
        self.assertTrue(self.look()[1][0])

    def test_hung(self) -> None:
        """One that is in and tells nothing is waited for so long, and no longer."""
        self.tell(a=False, c=True)
        self.judges["a"].patience = 0.2
        self.give("a", 2, b"y", "a")
        self.assertFalse(self.look()[0][0])
        end = self.judges["a"].told.popitem()
        self.judges["a"].told[end[0]] = end[1] - 1
        self.assertEqual((True, False), self.look()[0])

    def test_may_be_void(self) -> None:
        """A digest of what may be void is told to nobody."""
        self.tell(a=False)
        self.told["a"].place = 4
        self.give("a", 5, b"x", "a")
        self.assertEqual((False, {}), (self.look()[0][0], self.etcd.below("/r/same/")))
        self.told["a"].place = 5
        self.assertTrue(self.look()[0][0])

    def test_most(self) -> None:
        """Of three the one leaves that is not as the two others; of two that differ both do; and all of three that differ."""
        for digests, leaves in (("xxy", [False, False, True]), ("yxx", [True, False, False]), ("xxx", [False] * 3), ("xyz", [True] * 3),
                                ("xy", [True, True, False])):
            self.setUp()
            self.tell(**{name: True for name, _ in zip("abc", digests)})
            for name, digest in zip("abc", digests):
                self.give(name, 10, digest.encode())
            self.assertEqual(leaves, [it[1] for it in self.look()], digests)

    def test_asked(self) -> None:
        """Who is in waits for the digest of one that is out and asked, and leaves where that one alone is there and differs."""
        self.tell(a=True, b=False)
        self.give("a", 5, b"x", "b")
        self.assertEqual(1, len(self.judges["a"].digests))
        self.give("b", 5, b"y", "b")
        self.assertEqual([(False, True), (False, True), (False, False)], self.look())

    def test_away(self) -> None:
        """While etcd does not answer nothing is judged; then it is."""
        self.tell(a=False)
        self.etcd.is_away = True
        self.give("a", 5, b"x", "a")
        self.assertFalse(self.look()[0][0])
        self.etcd.is_away = False
        self.assertTrue(self.look()[0][0])


class Files(unittest.TestCase):
    """Digests of tables."""

    def test_digest(self) -> None:
        """It tells each row, each number of a row, and each statement; and not how the file lies."""
        with tempfile.TemporaryDirectory(prefix="replica-", dir=quick_folder()) as folder:
            def made(*statements: str) -> str:
                """The digest of a file that is made so."""
                path = f"{folder}/{len(os.listdir(folder))}.db"
                with closing(sqlite3.connect(path, isolation_level=None)) as database:
                    for it in ("CREATE TABLE t (a TEXT NOT NULL, n INTEGER NOT NULL)", *statements):
                        database.execute(it)
                return digest_of(path)

            rows = ["INSERT INTO t VALUES ('x', 1)", "INSERT INTO t VALUES ('y', 2)"]
            same = made(*rows)
            self.assertEqual(same, made(*rows, "INSERT INTO t VALUES ('z', 3)", "DELETE FROM t WHERE a = 'z'"))
            others = [made(), made(*rows[:1]), made(*rows[::-1]), made(*rows, "UPDATE t SET n = 3 WHERE n = 2"),
                      made(*rows, "UPDATE t SET a = 'X' WHERE n = 1"), made(*rows, "UPDATE t SET rowid = 7 WHERE n = 2"), made(*rows, "CREATE TABLE u (a)"),
                      made(*rows, "CREATE INDEX i ON t (a)")]
            self.assertEqual(len(others) + 1, len({same, *others}))
