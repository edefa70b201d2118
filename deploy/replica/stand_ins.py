"""For the tests of the parts: in place of etcd one in this process, which fails now and then, before it did what was asked or after it; a desk in memory; and a
machine that runs in this process, with its entrance."""
import base64
import http.client
import json
import os
import random
import shutil
import tempfile
import threading
import time
import unittest
from queue import Empty
from typing import Callable, Optional

from tests.http_cases import Patient
from tests.http_peer import Late
from tests.runs import quick_folder

from appender import Appender
from clock import Clock, now
from compare import Comparison, Judge
from desk import Begun, Desk, Ended, Opening
from entrance import Entrance
from entry import Entry, Seal
from etcd import JSON, Etcd, Unanswered
from health import Health
from log import Log
from machine import Machine
from present import Present
from words import Answer

LONG = 120.0  # seconds for anything
STILL, LOOKS = 0.5, 0.05  # seconds after which this process counts as having stood still; and between two looks at that
SEAL = Seal(b"the key of this desk")
FAR = 10**15  # a latest moment that never comes


def waits() -> bool:
    """Somebody waits, for ever."""
    return True


def log_of(etcd: Etcd, clock: Optional[Clock] = None) -> Log:
    """The log of a desk."""
    return Log(etcd, "desk", SEAL, clock)


class Hand:
    """A clock that is set by hand."""

    def __init__(self, seconds: float = 1000.0) -> None:
        """It is so late, and nothing passed."""
        self.seconds, self.passed = seconds, 0.0

    def clock(self) -> Clock:
        """A clock of the log by it."""
        return Clock(lambda: self.seconds, lambda: self.passed)

    def go(self, seconds: float) -> None:
        """So much passes."""
        self.seconds, self.passed = self.seconds + seconds, self.passed + seconds


class StandIn(Etcd):
    """What of etcd's gateway is asked, kept in this process. Of so many calls of a hundred one fails before it is done, or after it."""

    def __init__(self, failing: int = 0, dice: Optional[random.Random] = None) -> None:
        """No key is there."""
        super().__init__(0)
        self.keys: dict[bytes, tuple[bytes, str]] = {}
        self.leases: set[str] = set()
        self.failing, self.dice, self.guard, self.is_away = failing, dice or random.Random(1), threading.Lock(), False
        self.before: Callable[[], None] = lambda: None  # called before each transaction

    def told(self, path: str, asked: JSON) -> tuple[int, JSON]:
        """Answers, or does not."""
        if path.endswith("txn"):
            self.before()
        ways = {"/v3/kv/range": self.ranged, "/v3/kv/txn": self.done, "/v3/lease/grant": self.granted, "/v3/lease/keepalive": self.kept}
        with self.guard:
            if self.is_away or self.dice.randrange(100) < self.failing:
                raise Unanswered("before it was done")
            told = ways[path](asked) if path in ways else {}
            if self.dice.randrange(100) < self.failing:
                raise Unanswered("after it")
            read: JSON = json.loads(json.dumps(told))
            return 200, read

    def exchange(self, method: str, path: str, body: Optional[str] = None) -> tuple[int, bytes]:
        """What it tells of itself."""
        return 200, b"etcd_server_quota_backend_bytes 2e+07\n"

    def ranged(self, asked: JSON) -> JSON:
        """A span of keys."""
        first, end = (base64.b64decode(asked[it]) for it in ("key", "range_end"))
        found = sorted(it for it in self.keys if first <= it < end)
        told = found[:int(asked["limit"]) or None]
        return {"kvs": [{"key": base64.b64encode(it).decode(), "value": base64.b64encode(self.keys[it][0]).decode()} for it in told], "count": str(len(found))}

    def holds(self, asked: JSON) -> bool:
        """A condition."""
        there = self.keys.get(base64.b64decode(asked["key"]))
        if asked["target"] == "VALUE":
            return there is not None and there[0] == base64.b64decode(asked["value"])
        return bool((there is None) == (asked["result"] == "EQUAL"))

    def done(self, asked: JSON) -> JSON:
        """A transaction."""
        if all(map(self.holds, asked["compare"])):
            for it in asked["success"]:
                put = it["request_put"]
                self.keys[base64.b64decode(put["key"])] = base64.b64decode(put["value"]), put["lease"]
            return {"succeeded": True}
        return {"responses": [{"response_range": self.ranged(it["request_range"])} for it in asked["failure"]]}

    def granted(self, _: JSON) -> JSON:
        """A new lease."""
        lease = str(len(self.leases) + 1)
        self.leases.add(lease)
        return {"ID": lease}

    def kept(self, asked: JSON) -> JSON:
        """A lease that is kept, if it is there."""
        return {"result": {"TTL": "9"} if asked["ID"] in self.leases else {}}

    def lose(self, lease: str) -> None:
        """A lease is over, and with it its keys."""
        self.leases.discard(lease)
        self.keys = {key: it for key, it in self.keys.items() if it[1] != lease}

    def lay(self, log: Log, place: int, entry: Entry) -> None:
        """Puts an entry at a place, past all conditions."""
        self.keys[log.key(place).encode()] = SEAL.sealed(log.key(place), entry.text()), "0"


def entry(at: int, by: str = "a", latest: int = FAR) -> Entry:
    """Some post."""
    return Entry(f"{by}-0-{at}", "/acts", b"body\n of %d" % at, latest)


def whole(log: Log) -> list[Entry]:
    """All entries of a log, as they were wanted."""
    entries: list[Optional[Entry]] = []
    while more := log.follow(len(entries) + 1):
        entries += more
    return [it._replace(sent=0, done=0) for it in entries if it]


class DeskInMemory(Desk):
    """A desk that answers with the number of its posts. It is told before and after each thing that a follower has it do."""

    def __init__(self, folder: str) -> None:
        """It runs, and was asked nothing."""
        super().__init__(folder)
        self.runs = Opening("mark", 0, 0, 1000)
        self.posts: list[bytes] = []
        self.status, self.body, self.headers = 200, b"", (("Content-Type", "text/plain"), ("Cache-Control", "no-store"))
        self.step: Callable[[], None] = lambda: None
        self.is_ended = False

    def opening(self) -> Optional[Opening]:
        """The one that runs."""
        return None if self.is_ended else self.runs

    def ask(self, opening: Opening, method: str, path: str, body: Optional[bytes] = None) -> Answer:
        """A post, or a question."""
        if self.is_ended:
            raise Ended("the desk has ended")
        if method == "POST" and b"replica" not in (body or b""):
            self.step()
            self.posts.append(body or b"")
            self.step()
        return Answer(self.status, self.body or b"%d" % len(self.posts), self.headers)

    def begin(self, mark: str, begun: Begun) -> None:
        """It is written down."""
        self.step()
        super().begin(mark, begun)
        self.step()

    def copy(self, folder: str) -> None:
        """There is no file."""

    def end(self, opening: Opening) -> None:
        """It runs no more."""
        self.is_ended = True

    def another(self, mark: str) -> None:
        """Another one begins."""
        self.runs, self.posts, self.is_ended = Opening(mark, 0, 0, 1000), [], False


class Watch(threading.Thread):
    """Sees for how long this process stood still at most, within its block."""

    def __init__(self) -> None:
        """It runs."""
        super().__init__(daemon=True)
        self.ends, self.longest = threading.Event(), 0.0

    def run(self) -> None:
        """Looks, again and again."""
        seen = now()
        while not self.ends.wait(LOOKS):
            before, seen = seen, now()
            self.longest = max(self.longest, seen - before)

    def __enter__(self) -> "Watch":
        """Begins."""
        self.start()
        return self

    def __exit__(self, *_: object) -> None:
        """Ends, with a last look."""
        self.ends.set()
        self.join()


class Steady(Patient):
    """A test of machines in this process. If it fails, and the process stood still meanwhile, it is tried again: a machine that stood still has to
    refuse what comes."""

    def patiently(self, test: Callable[[], None]) -> None:
        """Runs that test."""
        def watched() -> None:
            watch = Watch()
            try:
                with watch:
                    test()
            except unittest.SkipTest:
                raise
            except Exception as why:
                if watch.longest > STILL:
                    raise Late(f"{self.id()}: this process stood still for {watch.longest:.1f} s: {why!r:.200}") from why
                raise
        super().patiently(watched)


def quick(test: unittest.TestCase) -> str:
    """A folder for a test."""
    folder = tempfile.mkdtemp(prefix="replica-", dir=quick_folder())
    test.addCleanup(shutil.rmtree, folder, True)
    return folder


class Served:
    """A machine that runs in this process, over a log and a desk, with its entrance."""

    def __init__(self, log: Log, desk: Desk, name: str, patience: float = LONG, every: int = 100) -> None:
        """It follows."""
        os.makedirs(desk.folder, exist_ok=True)
        self.machine = Machine(log, desk, every)
        self.present = Present(log.etcd, log.root, name, f"owner of {name}", 5)
        self.health = Health(self.machine, self.present, log)
        self.entrance = Entrance(("127.0.0.1", 0), Appender(log, self.machine, name), self.health, patience)
        self.judge = Judge(self.machine, log.etcd, log.root, self.present)
        self.entrance.appender.start()
        self.entrance.start()
        self.entrance.listens.wait()
        threading.Thread(target=self.machine.run, daemon=True).start()
        threading.Thread(target=self.judges, daemon=True).start()

    def judges(self) -> None:
        """Tells of itself, and judges."""
        while True:
            it: Optional[Comparison] = None
            try:
                self.present.tell(self.health.state())
                it = self.machine.comparisons.get(timeout=0.05)
            except (Unanswered, Empty):
                pass
            self.judge.look(it)

    def ask(self, method: str, path: str, body: Optional[bytes] = None, **head: str) -> tuple[int, str, str]:
        """The status, the place and the body of an answer."""
        peer = http.client.HTTPConnection("127.0.0.1", self.entrance.port, timeout=LONG)
        peer.putrequest(method, path, skip_accept_encoding=True)
        lines = {"Content_Length": str(len(body)), **head} if body is not None else head
        for name, value in lines.items():
            peer.putheader(name.replace("_", "-"), value)
        peer.endheaders(body)
        answer = peer.getresponse()
        told = answer.status, answer.headers.get("Tcdesk-Place", "-"), answer.read().decode()
        peer.close()
        return told

    def wait(self, is_so: Callable[[], bool]) -> None:
        """Waits until something is so."""
        end = now() + LONG
        while not is_so() and now() < end:
            time.sleep(0.01)
        assert is_so(), "it is not so in time"
