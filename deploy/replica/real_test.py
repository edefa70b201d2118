"""Tests: machines in this process with the real program, over the log of a stand-in for etcd that fails now and then."""
import json
import os
import shutil
import socket
import subprocess
import sys
import tempfile
import time
from typing import Optional

from desk import Begun, Desk, Ended, Opening, Way
from stand_ins import LONG, Served, StandIn, Steady, log_of
from tables import digest_of
from tests.asked import ASKED
from tests.http_peer import free_port, run
from tests.runs import quick_folder

HERE = os.path.dirname(os.path.realpath(__file__))
BEGIN = "import sys; from desk import Way, begin_desk; begin_desk(sys.argv[1], Way(sys.argv[2], int(sys.argv[3]), 100000, sys.argv[4] or None, []), lambda _: True)"
# what is refused, each with the status; of a HEAD the body is not told
HEADS = (b"PUT /acts HTTP/1.1", b"HEAD /places HTTP/1.1", b"DELETE /places HTTP/1.1", b"OPTIONS * HTTP/1.1", b"GET //places HTTP/1.1", b"GET /none HTTP/1.1",
         b"GET /places?x HTTP/1.1", b"POST /acts HTTP/1.1\r\nContent-Length: 049", b"POST /acts HTTP/1.1", b"POST /acts HTTP/1.1\r\nContent-Length: 65537",
         b"POST /acts HTTP/1.1\r\nTransfer-Encoding: chunked", b"POST /acts HTTP/1.1\r\nContent-Length: 1\r\nContent-Length: 1", b"GET /requests/x HTTP/1.1",
         b"GET /places HTTP/1.1\r\nContent-Length: 1", b"G@T /places HTTP/1.1", b"GET /pl\xffaces HTTP/1.1", b"GET /places HTTP/2.7", b"GET /places", b"x",
         b"GET /places HTTP/1.1\r\n" + b"\r\n".join(b"A%d: x" % at for at in range(70)), b"GET /places HTTP/1.1\r\nA: " + b"x" * 9000,
         b"GET /report/1/x HTTP/1.1", b"GET /procedures/A HTTP/1.1", b"POST /acts HTTP/1.1\r\nContent-Length: 2", b"POST /none HTTP/1.1\r\nContent-Length: 0")


class Desks(Steady):
    """Desks of the real program."""

    def begin(self, folder: str, port: int, first: str = "") -> subprocess.Popen[bytes]:
        """A desk of this folder."""
        with open(f"{folder}.log", "ab") as file:
            process = subprocess.Popen([sys.executable, "-c", BEGIN, folder, ASKED.program, str(port), first], cwd=HERE, stdout=file, stderr=file)
        self.addCleanup(process.wait)
        self.addCleanup(process.kill)
        return process

    def folder(self) -> str:
        """A folder for a test."""
        folder = tempfile.mkdtemp(prefix="replica-", dir=quick_folder())
        self.addCleanup(shutil.rmtree, folder, True)
        return folder

    def there(self, desk: Desk) -> Opening:
        """The desk that runs, once it does."""
        end = time.monotonic() + LONG
        while not (opening := desk.opening()):
            self.assertLess(time.monotonic(), end, "there is no desk in time")
            time.sleep(0.01)
        return opening


class Alone(Desks):
    """One desk."""

    def test_other_desk(self) -> None:
        """A desk that took the place of the one that is meant, between the look and the connection, is sent nothing."""
        meant = Opening("meant", 0, free_port(), 9)

        class Changes(Desk):
            """Looked at a second time, another desk runs."""
            looks = 0

            def opening(self) -> Optional[Opening]:
                """The one that is meant, once."""
                self.looks += 1
                return meant if self.looks == 1 else meant._replace(mark="another")

        with socket.create_server(("127.0.0.1", meant.port)) as listener:
            self.assertRaises(Ended, Changes("").ask, meant, "POST", "/acts", b"1")
            taken, _ = listener.accept()
            self.assertEqual(b"", taken.recv(1))
            taken.close()

    def test_hung(self) -> None:
        """A desk that takes a connection and answers nothing is waited for so long, and no longer."""
        meant = Opening("meant", 0, free_port(), 9)
        desk = Desk("", 0.5)
        setattr(desk, "opening", lambda: meant)
        with socket.create_server(("127.0.0.1", meant.port)):
            began = time.monotonic()
            self.assertRaises(Ended, desk.ask, meant, "GET", "/places")
            self.assertLess(time.monotonic() - began, 5)

    def test_way(self) -> None:
        """Machines that begin otherwise say otherwise: another program, another first file or none, other options; not another port or COUNT."""
        folder = self.folder()
        for name in ("x", "y"):
            with open(f"{folder}/{name}", "w", encoding="ascii") as file:
                file.write(name)
        shutil.copy(f"{folder}/x", f"{folder}/same")
        way = Way(f"{folder}/x", 1, 2, f"{folder}/y", ["--w", "20"])
        self.assertEqual(way.told(), way._replace(program=f"{folder}/same", port=3, most=4).told())
        others = [way._replace(program=f"{folder}/y"), way._replace(first=f"{folder}/x"), way._replace(first=None), way._replace(options=[])]
        self.assertEqual(5, len({it.told() for it in [way, *others]}))

    def test_first(self) -> None:
        """A desk begins with a copy of the first file, each time."""
        folder = self.folder()
        run(ASKED.program, folder, ["0 ann enter 5 a--c no 8 1 - - ok"], "--db", "first.db")
        desk, port = Desk(f"{folder}/a"), free_port()
        for number in (2, 2):
            process = self.begin(f"{folder}/a", port, f"{folder}/first.db")
            opening = self.there(desk)
            told = desk.ask(opening, "POST", "/acts", b'{"act":"enter 5 a--c no 8 1 - - ok","by":"ann","moment":0,"number":1}')
            self.assertIn(b"ok request %d 5/1" % number, told.body)
            desk.end(opening)
            process.wait(LONG)

    def test_foreign_desk(self) -> None:
        """A desk that was there before is not put aside."""
        folder = self.folder()
        os.mkdir(f"{folder}/a")
        with open(f"{folder}/a/desk.db", "w", encoding="ascii") as file:
            file.write("a history")
        self.assertEqual(1, self.begin(f"{folder}/a", free_port()).wait(LONG))
        with open(f"{folder}/a/desk.db", encoding="ascii") as file:
            self.assertEqual((["desk.db"], "a history"), (os.listdir(f"{folder}/a"), file.read()))

    def test_lock(self) -> None:
        """A second desk of a folder is not begun, and the file of the first is kept by the next one."""
        folder = self.folder()
        desk, port = Desk(f"{folder}/a"), free_port()
        self.assertIsNone(desk.opening())
        first = self.begin(f"{folder}/a", port)
        opening = self.there(desk)
        self.assertEqual(200, desk.ask(opening, "GET", "/places").status)
        self.assertEqual(1, self.begin(f"{folder}/a", free_port()).wait(LONG))
        self.assertEqual(opening, desk.opening())
        desk.begin(opening.mark, Begun(5, 6, 4, 4, 3, 2))
        self.assertEqual([Begun(5, 6, 4, 4, 3, 2), None], [desk.begun(it) for it in (opening.mark, "another")])
        desk.end(opening)
        first.wait(LONG)
        self.assertRaises(Ended, desk.ask, opening, "GET", "/places")
        second = self.begin(f"{folder}/a", port)
        now_there = self.there(desk)
        self.assertEqual(200, desk.ask(now_there, "GET", "/places").status)
        self.assertNotEqual(opening.mark, now_there.mark)
        self.assertTrue(os.path.exists(f"{folder}/a/left.db"))
        desk.end(now_there)
        second.wait(LONG)

    def test_heads(self) -> None:
        """What an entrance answers itself is what the desk answers, status and body."""
        folder, port = self.folder(), free_port()
        self.begin(f"{folder}/a", port)
        served = Served(log_of(StandIn()), Desk(f"{folder}/a"), "a")
        served.wait(lambda: served.machine.is_in)
        unlike = []
        for head in HEADS:
            told = [self.exchange(it, head + b"\r\n\r\n" + b"{}" * head.endswith(b"Length: 2")) for it in (port, served.entrance.port)]
            if head.startswith(b"HEAD"):
                told = [it[:1] for it in told]
            if told[0] != told[1]:
                unlike.append((head[:100], *told))
        self.assertEqual([], unlike)

    @staticmethod
    def exchange(port: int, text: bytes) -> list[bytes]:
        """The status line, and the body, of what is answered."""
        with socket.create_connection(("127.0.0.1", port), LONG) as peer:
            peer.sendall(text)
            told = b""
            try:
                while b"\r\n\r\n" not in told or b"}" not in told.split(b"\r\n\r\n", 1)[1]:
                    more = peer.recv(65536)
                    if not more:
                        break
                    told += more
            except ConnectionResetError:
                pass
        head, _, body = told.partition(b"\r\n\r\n")
        return [head.split(b"\r\n")[0], body]


class Two(Desks):
    """Two machines."""

    def test_two(self) -> None:
        """Posts by both entrances; a desk is killed meanwhile; the tables are alike in the end."""
        etcd, folder = StandIn(5), self.folder()
        ports = {it: free_port() for it in "ab"}
        desks = {it: self.begin(f"{folder}/{it}", ports[it]) for it in "ab"}
        served = {it: Served(log_of(etcd), Desk(f"{folder}/{it}"), it) for it in "ab"}
        for it in served.values():
            it.wait(lambda: it.machine.is_in)
        for number in range(1, 101):
            if number == 40:
                desks["b"].kill()
                desks["b"].wait()
                desks["b"] = self.begin(f"{folder}/b", ports["b"])
            body = json.dumps({"act": "enter 5 a--c no 8 1 - - ok", "by": "ann", "moment": 9, "number": number}).encode()
            told = [self.until_known(served, "ab"[(number + more) % 2], body) for more in range(1 + number % 2)]
            lines = f'["ok request {number} 5/{number - 1}","move {number} 9 ann {number} - Entered enter"]'
            self.assertEqual({f'{{"lines":{lines},"more":0,"refusal":0}}'}, set(told))
        for it in served.values():
            it.wait(lambda: it.machine.is_in)
        etcd.failing = 0
        places = {it.ask("GET", "/places?newest")[2] for it in served.values()}
        self.assertEqual({'{"lines":["places 100: 100 0 0 0 0 0 0 0 0 0 0 0 0 0 0"],"more":0,"refusal":0}'}, places)
        self.assertEqual(1, len({self.copied(folder, it) for it in "ab"}))

    @staticmethod
    def until_known(served: dict[str, Served], name: str, body: bytes) -> str:
        """What is answered to a post in the end, of this machine or the other."""
        at, end = 0, time.monotonic() + LONG
        while time.monotonic() < end:
            status, _, told = served[name if at % 2 == 0 else "ab".replace(name, "")].ask("POST", "/acts", body)
            if status not in (503, 504):
                return told
            at += 1
            time.sleep(0.05)
        raise AssertionError("nothing is known of a post")

    @staticmethod
    def copied(folder: str, name: str) -> str:
        """The digest of the tables of a desk."""
        Desk(f"{folder}/{name}").copy(f"{folder}/copy-{name}")
        return digest_of(f"{folder}/copy-{name}/desk.db")
