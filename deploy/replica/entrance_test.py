"""Tests: what comes to an entrance."""
import http.client
import json
import random
import socket
import time
import unittest
from typing import Optional

from entry import COMPARE, TICK, Entry
from etcd import JSON, Refused
from health import MOST_POSTS
from log import Wanted
from model.http import Refused as RefusedByModel
from model.http import answer_to
from model.http import hosts_of as model_hosts
from stand_ins import LONG, DeskInMemory, Served, StandIn, Steady, entry, log_of, quick, whole
from words import MOST_BODY, hosts_of, of_body, of_head, shortened

SOON = 3.0  # seconds after which somebody is told that nothing is known, where a test waits for that


def act(text: str, number: int = 1, **more: object) -> bytes:
    """The body of an act."""
    return json.dumps({"act": text, "by": "ann", "moment": 0, "number": number, **more}).encode()


class ServedAlone(Steady):
    """A machine that is in."""

    def setUp(self) -> None:
        """It runs."""
        self.etcd, self.desk = StandIn(), DeskInMemory(quick(self))
        self.log = log_of(self.etcd)
        self.served = Served(self.log, self.desk, "a")
        self.served.wait(lambda: self.served.machine.is_in)

    def posts(self) -> list[bytes]:
        """The bodies of all posts in the log."""
        return [it.body for it in whole(log_of(self.etcd)) if it.is_post()]

    def given_up(self, method: str, path: str, body: Optional[bytes] = None) -> tuple[int, str]:
        """The status of an answer of an entrance that has little patience, and what it says."""
        self.served.entrance.patience = SOON
        status, _, text = self.served.ask(method, path, body)
        self.served.entrance.patience = LONG
        return status, text.split(":")[1].strip(' "')


class Entrances(ServedAlone):
    """What is asked, and what is answered."""

    def test_posts(self) -> None:
        """A post is answered by its own desk, at its place; an answer that is no good one, too."""
        bodies = [act("x"), act("y", 2, more=7)]
        for at, it in enumerate(bodies):
            status, place, text = self.served.ask("POST", "/acts", it)
            self.assertEqual((200, f"{at + 1}"), (status, text))
            self.assertEqual(it, self.entry(int(place)))
        self.desk.status = 409
        load = json.dumps({"by": "ann", "csv": "x" * 60_000, "moment": 0, "name": "s", "number": 3}).encode()
        self.assertEqual((409, "3"), self.served.ask("POST", "/stacks", load)[::2])
        self.assertEqual([*bodies, load], self.desk.posts)
        self.assertEqual([*bodies, load], self.posts())

    def entry(self, place: int) -> bytes:
        """The body of the entry at a place."""
        it = log_of(self.etcd).follow(place)[0]
        assert it
        return it.body

    def test_words(self) -> None:
        """Each post is followed by a word of the log that it was carried out, and nothing else comes into the log."""
        for at in range(5):
            self.served.ask("POST", "/acts", act("x", at + 1))
        paths = [it.path for it in whole(log_of(self.etcd))]
        self.assertEqual([COMPARE] + ["/acts", TICK] * 5, paths)

    def test_refused(self) -> None:
        """What is no request of the desk's comes not into the log."""
        self.assertEqual(413, self.served.ask("POST", "/acts", b"x" * (MOST_BODY + 1))[0])
        for length in ("x", "-1", "049", "+5", "1_0"):
            self.assertEqual(400, self.served.ask("POST", "/acts", b"x", Content_Length=length)[0], length)
        self.assertEqual(400, self.served.ask("POST", "/acts", None)[0])
        self.assertEqual(400, self.served.ask("POST", "/acts", act("x"), Transfer_Encoding="chunked")[0])
        for path in ("//places", "/none", "/acts/", "/acts?x", "/requests", "/opening", "http://localhost/places"):
            self.assertEqual(404, self.served.ask("GET", path)[0], path)
        self.assertEqual(403, self.served.ask("GET", "http://x/places")[0])
        for name, value in (("Origin", "https://evil.example"), ("Origin", "null"), ("Sec_Fetch_Site", "cross-site"), ("Host", "evil.example")):
            self.assertEqual(403, self.served.ask("POST", "/acts", act("x"), Content_Type="text/plain", **{name: value})[0], value)
        for method in ("PUT", "DELETE", "OPTIONS", "PATCH", "GET"):
            self.assertEqual(405, self.served.ask(method, "/acts", None)[0], method)
        for body in (b"", b"x", b"[]", b"{}", act("x", 0), act("x", 4294967296), act("x", by="desk"), act("x", by="Ann"), act("x")[:-1], b"\xff" + act("x")):
            self.assertEqual(400, self.served.ask("POST", "/acts", body)[0], body)
        self.assertEqual(([], []), (self.posts(), self.desk.posts))

    def test_gone_again(self) -> None:
        """Nothing of HTTP is told that is not the desk's: no date, no name of a program."""
        for path in ("/places", "/none"):
            peer = http.client.HTTPConnection("127.0.0.1", self.served.entrance.port, timeout=LONG)
            peer.request("GET", path)
            with peer.getresponse() as answer:
                self.assertEqual([None] * 3, [answer.headers[it] for it in ("Date", "Server", "Transfer-Encoding")])
            peer.close()

    def test_shortened(self) -> None:
        """An act that is too long takes little room, and is too long in the log as well."""
        status, place, _ = self.served.ask("POST", "/acts", act("x" * 60_000, 7))
        told = json.loads(self.entry(int(place)))
        self.assertEqual((200, "ann", 7, True), (status, told["by"], told["number"], 200 < len(told["act"]) < 300))
        for body in (act("x" * 60_000, more="x"), act("\ud800" * 60_000), act("x" * 200 + " " * 900)[:-1] + b" " * 1000 + b"}", act("x" * 60_000, moment=-1)):
            self.assertEqual(body if b"x " not in body[:300] else shortened("/acts", body), shortened("/acts", body))

    def test_questions(self) -> None:
        """A question tells its place; for the newest etcd is asked."""
        place = self.served.machine.place
        self.assertEqual((200, f"{place}", "0"), self.served.ask("GET", "/places"))
        self.put(entry(1, "b"))
        self.assertEqual((200, "1"), self.served.ask("GET", "/places?newest")[::2])
        self.etcd.is_away = True
        self.assertEqual((200, "1"), self.served.ask("GET", "/places")[::2])
        self.assertEqual(503, self.given_up("GET", "/places?newest")[0])

    def put(self, it: Entry) -> None:
        """Another machine's post."""
        other = log_of(self.etcd)
        other.free = other.newest(0) + 1
        other.put([Wanted(it)])

    def test_headers(self) -> None:
        """The header lines of an answer are those of the desk, whatever it answers."""
        peer = http.client.HTTPConnection("127.0.0.1", self.served.entrance.port, timeout=LONG)
        peer.request("GET", "/board")
        with peer.getresponse() as answer:
            names = ("Content-Type", "Cache-Control", "Tcdesk-Place", "Content-Length", "Connection")
            self.assertEqual([["text/plain"], ["no-store"], ["1"], ["1"], None], [answer.headers.get_all(it) for it in names])
        peer.close()

    def test_full(self) -> None:
        """A log that is as long as a desk can serve takes no more."""
        self.served.machine.begun = self.served.machine.begun._replace(posts=MOST_POSTS + 1)
        self.assertEqual((409, "-", '{"lines":["refused 18 DeskFull"],"more":0,"refusal":18}'), self.served.ask("POST", "/acts", act("1")))

    def test_health(self) -> None:
        """How it stands is told, well or not."""
        status, _, text = self.served.ask("GET", "/healthz")
        self.assertEqual((200, True, []), (status, json.loads(text)["in"], json.loads(text)["alarms"]))
        self.assertIn("\ntcdesk_replica_in 1\n", self.served.ask("GET", "/metrics")[2])
        self.served.machine.is_in = False
        status, _, text = self.served.ask("GET", "/healthz")
        self.assertEqual((503, "this machine is out"), (status, json.loads(text)["closed"]))
        self.assertIn("\ntcdesk_replica_in 0\n", self.served.ask("GET", "/metrics")[2])


class Unknown(ServedAlone):
    """What was done, and what may be."""

    def test_silent(self) -> None:
        """While etcd is silent nothing is known of what was sent; after three seconds a post is refused at once, and never put."""
        self.served.wait(lambda: not self.served.health.is_silent())
        self.etcd.is_away = True
        self.assertEqual((504, "may be done"), self.given_up("POST", "/acts", act("1")))
        began = time.monotonic()
        self.assertEqual((503, "not done"), self.given_up("POST", "/acts", act("2")))
        self.assertLess(time.monotonic() - began, SOON)
        self.etcd.is_away = False
        self.served.wait(lambda: not self.served.health.is_silent())
        self.assertEqual(200, self.served.ask("POST", "/acts", act("3"))[0])
        self.assertEqual([act("3")], self.posts())
        self.assertEqual([act("3")], self.desk.posts)

    def test_no_room(self) -> None:
        """Where etcd has no room a post is told at once that it is not done, and is never put."""
        def full(asked: JSON) -> JSON:
            """It has none."""
            self.etcd.refused = self.etcd.heard + 60
            raise Refused("no space")

        setattr(self.etcd, "done", full)
        self.assertEqual((503, "not done"), self.given_up("POST", "/acts", act("1")))
        self.assertTrue(self.served.health.has_no_room())
        delattr(self.etcd, "done")
        self.etcd.refused = -1e9
        self.assertEqual(200, self.served.ask("POST", "/acts", act("2"))[0])
        self.assertEqual([act("2")], self.posts())

    def test_out(self) -> None:
        """A machine that is out answers 503, and one whose desk is lost while somebody waits, 504."""
        self.desk.status = 503
        self.assertEqual(504, self.served.ask("POST", "/acts", act("1"))[0])
        self.assertEqual([503, 503], [self.served.ask("POST", "/acts", act("1"))[0], self.served.ask("GET", "/places")[0]])
        self.desk.status = 200
        self.desk.another("another")
        self.served.wait(lambda: self.served.machine.is_in)
        self.assertEqual([act("1")], self.desk.posts)
        self.assertEqual(200, self.served.ask("POST", "/acts", act("2"))[0])

    def test_gone(self) -> None:
        """A sender that leaves is waited for no more: what has no place by then is never put."""
        self.etcd.is_away = True
        with socket.create_connection(("127.0.0.1", self.served.entrance.port)) as peer:
            body = act("1")
            peer.sendall(b"POST /acts HTTP/1.1\r\nHost: localhost\r\nContent-Length: %d\r\n\r\n" % len(body) + body)
            self.served.wait(lambda: len(self.served.machine.waiting) > 0)
        self.served.wait(lambda: not self.served.machine.waiting)
        self.etcd.is_away = False
        self.served.wait(lambda: not self.served.health.is_silent())
        self.assertEqual(200, self.served.ask("POST", "/acts", act("2"))[0])
        self.assertEqual([act("2")], self.posts())

    def test_slow_desk(self) -> None:
        """While its desk owes an answer a machine takes nothing more."""
        self.served.machine.asking_since = 1.0
        self.assertEqual([503, 503], [self.served.ask("POST", "/acts", act("1"))[0], self.served.ask("GET", "/places")[0]])

    def test_stood_still(self) -> None:
        """Behind a time in which it stood still an entrance takes no post for a while: its sender may be gone."""
        self.served.entrance.beaten -= 9
        self.assertEqual(503, self.served.ask("POST", "/acts", act("1"))[0])
        self.served.wait(lambda: not self.served.entrance.stood_still())
        self.assertEqual(200, self.served.ask("POST", "/acts", act("2"))[0])
        self.assertEqual([act("2")], self.posts())

    def test_prefer(self) -> None:
        """A sender that waits for less says so."""
        self.etcd.is_away = True
        began = time.monotonic()
        self.assertEqual(504, self.served.ask("POST", "/acts", act("1"), Prefer="wait=1")[0])
        self.assertLess(time.monotonic() - began, LONG / 4)


class Words(unittest.TestCase):
    """What the entrance answers itself, beside the plain reading of the desk's HTTP."""

    def test_heads(self) -> None:
        """It refuses what the desk refuses, with its status; and no head that the desk takes."""
        dice = random.Random(5)
        methods, lengths = ("GET", "POST", "PUT", "HEAD", "get"), ("0", "5", "05", "65536", "65537", "99999999999", "-1", "")
        paths = ("/places", "/acts", "/stacks", "/procedures", "/procedures/x", "/procedures/X", "/requests/1", "/requests/01", "/requests/4294967296", "/history/1/2",
                 "/history/1", "/report/0/4102444799", "/report/0/4102444800", "/waiting", "/moves/0", "/urgent/1", "/board", "/", "//places", "/moves/x")
        hosts = [b"127.0.0.1", b"LocalHost:8080", b"10.0.0.1:8080", b"10.0.0.1:8081", b"evil.example", b"", b"10.0.0.10"]
        doors = {b"Host": hosts, b"oRIGIN": [b"null", b"", b"HTTP://127.0.0.1", b"http://", *(it + host for it in (b"http://", b"https://", b"ftp://") for host in hosts)],
                 b"Sec-Fetch-Site": [b"same-origin", b"none", b"same-site", b"cross-site", b"None", b""]}
        for _ in range(20_000):
            method, path = dice.choice(methods), dice.choice(paths)
            fields = [(b"Content-Length", dice.choice(lengths).encode()) for _ in range(dice.choice((0, 1, 1, 1, 2)))] + [(b"transfer-encoding", b"x")] * (
                dice.randrange(9) == 0)
            fields += [(name, dice.choice(texts)) for name, texts in doors.items() for _ in range(dice.choice((0, 0, 0, 0, 0, 1, 1, 2)))]
            head = f"{method} {path} HTTP/1.1\r\n".encode() + b"".join(name + b": " + value + b"\r\n" for name, value in fields) + b"\r\n"
            want, found = answer_to(head + b"x" * 65_536, model_hosts(8080, "10.0.0.1")), of_head(method, path, fields, hosts_of("10.0.0.1", 8080))
            refused = want if isinstance(want, RefusedByModel) and not (method == "POST" and found is None) else None
            self.assertEqual(refused and refused.status, found and found.status, head)

    def test_bodies(self) -> None:
        """It refuses no body that the desk takes, and each other one but those with half a character."""
        dice, refused = random.Random(6), 0
        values = ["1", "0", "4294967295", "4294967296", "1.0", "1e3", "-1", '"x"', '"ann"', '"desk"', '"A"', "null", "true", "[]", '"' + "x" * 201 + '"', '"\\ud800"']
        for _ in range(20_000):
            keys = [(key, dice.choice(values) if dice.randrange(3) == 0 else good) for key, good in (
                ("act", '"link"'), ("by", '"ann"'), ("moment", "7"), ("number", "8")) if dice.randrange(20)]
            body = ("{" + ",".join(f'"{key}":{value}' for key, value in keys) + "}" * (dice.randrange(30) > 0)).encode()
            want = answer_to(b"POST /acts HTTP/1.1\r\nContent-Length: %d\r\n\r\n" % len(body) + body)
            found = of_body("/acts", body)
            self.assertTrue(found is None or isinstance(want, RefusedByModel) and want.status == found.status, body)
            refused += found is not None
            if found is None and isinstance(want, RefusedByModel):
                self.assertIn(b"ud800", body)
        self.assertGreater(refused, 5000)
