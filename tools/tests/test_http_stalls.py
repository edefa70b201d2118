"""What could stop a server, over real sockets: peers that say nothing, drip, send what is no request, close half or take nothing, one at a time and crowds
of them; connections that are kept open; no file handle left, and no place; a COUNT that is not given; and how a server says that it listens and why it ended.

Beside each bad peer a good one has to be answered at once, and in the order in which requests were whole. The bad one has its own time, and nothing
that was not asked whole is done. The groups run side by side, each on a server of its own. There is a line for each case that failed. A group in
which something was late says nothing of the program if the machine gave it no processor: it is tried again, and has to be in time once.
"""
import errno
import os
import random
import re
import resource
import signal
import socket
import threading
import time
from concurrent.futures import ThreadPoolExecutor
from contextlib import ExitStack, contextmanager, suppress
from functools import partial
from typing import Callable, Iterator, Optional, Sequence

from generate.http_words import ENTRY, PLACES, Case, act, get
from tests import http_cases
from tests.http_peer import FAIR, PATIENCE, TRIES, Ended, Fault, Late, Server, parted, received, reset, run, send

SILENCE, WHOLE, FAREWELL = 5.0, 30.0, 2.0  # seconds: without a byte, for a request, behind an answer
WAIT = PATIENCE / 60  # seconds that a good peer waits at most, whoever is beside it: 1, where nobody asks for more patience
CROWD, MOST_PEERS = 20, 256
LAST_TRY = 9.0  # seconds in which a handle has to come free: after 10 the server ends
DRIP = b"GET /places HTTP/1.1\r\nX: " + b"a" * 100
SEED = 20311127
EARLY, SLACK = 0.5, 4.0  # seconds by which a peer's clock may begin later than the server's, and that a busy machine may add
HELLO = bytes.fromhex("160301008f0100008b0303") + bytes(132)  # the front of a TLS hello


class Cases(http_cases.Cases):
    """The cases of one group."""

    def places(self) -> bytes:
        """The answer to the places of a desk where nothing happened."""
        return self.expected(self.folder(), [Case("", PLACES, 0)]).responses[0]

    def within(self, name: str, least: float, most: float, took: float) -> None:
        """Counts a case by whether something took so many seconds. More than these, and than a busy machine may add, is late."""
        if took > most + SLACK:
            raise Late(f"{name}: {took:.1f} s, and not {least} to {most}")
        self.tell(f"{name}: {least} to {most} s", "", "" if least - EARLY <= took else f"{took:.3f} s")


def hold(peer: socket.socket, raw: bytes, pause: float, began: float) -> float:
    """Sends these bytes one by one, with so many seconds between them, until the peer closes. Gives the seconds that it took since that moment. It is
    late where the peer had to wait for a byte so long that it may close."""
    sent = began
    try:
        for at, byte in enumerate(raw):
            time.sleep(pause if at else 0)
            peer.sendall(bytes([byte]))
            before, sent = sent, time.monotonic()
            if sent - before > FAIR:
                raise Late(f"a byte came after {sent - before:.1f} s")
        received(peer)
    except OSError:
        pass
    return time.monotonic() - began


@contextmanager
def stopped(server: Server) -> Iterator[None]:
    """The server stands still meanwhile, and then finds all at once what came."""
    os.kill(server.process.pid, signal.SIGSTOP)
    try:
        yield
    finally:
        os.kill(server.process.pid, signal.SIGCONT)


def answered_at_once(cases: Cases, name: str, server: Server, raw: bytes, right: bytes) -> None:
    """A good peer is answered so, and waits for it no longer than it has to."""
    began = time.monotonic()
    got = server.exchange(raw)
    took = time.monotonic() - began
    cases.tell(name, right, got)
    if took > WAIT:
        raise Late(f"{name}: {took:.3f} s, and not within {WAIT}")


def held(cases: Cases, name: str, raw: bytes, pause: float, least: float, most: float) -> None:
    """A peer that sends these bytes so, and stays: it is let go in time, the good one beside it is answered at once, and no act was made."""
    none, folder = cases.places(), cases.folder()
    with cases.server(folder, 2, "--verbose") as server, ExitStack() as open_ones, ThreadPoolExecutor(1) as pool:
        server.listening()
        began = time.monotonic()
        with cases.soon(name):
            took = pool.submit(hold, open_ones.enter_context(server.connect()), raw, pause, began)
            time.sleep(EARLY)
            answered_at_once(cases, f"{name}: the one beside it", server, PLACES, none)
        cases.within(name, least, most, took.result())
        ended = server.end()
        told = "tcdesk: connection 2: answered\ntcdesk: connection 1: 33 ReadFault\n"
        cases.tell(f"{name}: how they ended", Ended(0, "", server.says.replace("tcdesk: ended", f"{told}tcdesk: ended")), ended)


def silent(cases: Cases) -> None:
    """Peers that say nothing, or begin a request and stop."""
    held(cases, "a silent peer", b"", 0, SILENCE, SILENCE)
    held(cases, "a peer that stops in an act", act(ENTRY)[:-1], 0, SILENCE, SILENCE)


def foreign(cases: Cases) -> None:
    """A peer that speaks TLS, and waits for an answer to its hello."""
    held(cases, "a TLS hello", HELLO, 0, EARLY, SILENCE)


def dripping(cases: Cases) -> None:
    """A peer that sends a byte each second."""
    held(cases, "a peer that drips", DRIP, 1, WHOLE, WHOLE)


def behind(cases: Cases) -> None:
    """A peer that was answered, and drips on."""
    none, folder = cases.places(), cases.folder()
    with cases.server(folder, 2) as server, ExitStack() as open_ones:
        server.listening()
        with cases.soon("a peer that drips behind its answer"):
            bad = open_ones.enter_context(server.connect())
            send(bad, PLACES)
            cases.tell("a peer that drips behind its answer", none, received(bad))
            began = time.monotonic()
            answered_at_once(cases, "the one beside a peer that drips behind its answer", server, PLACES, none)
        cases.within("a peer that drips behind its answer", 0, FAREWELL, hold(bad, b"x" * 100, 0.3, began))
        cases.ended("a peer that drips behind its answer", server)


def kept(cases: Cases) -> None:
    """Peers that keep their connections open behind their answers, one after the other: each costs the next nothing. Were they waited for, it would be
    half a second each."""
    none, folder = cases.places(), cases.folder()
    with cases.server(folder, CROWD + 1) as server, ExitStack() as open_ones:
        cases.tell("a peer before them", none, server.exchange(PLACES))
        with cases.soon(f"{CROWD} peers that keep their connections", min(FAIR, CROWD / 4 * WAIT)):
            for at in range(CROWD):
                peer = open_ones.enter_context(server.connect())
                send(peer, PLACES)
                cases.tell(f"a peer that keeps its connection, {at}", none, received(peer))
        cases.ended("peers that keep their connections", server)


def dripped(peers: Sequence[socket.socket], done: threading.Event) -> None:
    """Each of these peers sends a byte each 2 seconds, until all is done."""
    for byte in DRIP:
        for peer in peers:
            try:
                peer.sendall(bytes([byte]))
            except OSError:
                pass
        if done.wait(2):
            return


def crowded(server: Server, open_ones: ExitStack) -> list[socket.socket]:
    """A crowd of each kind: peers that say nothing; that shut their end in an act, or behind a whole question, and never read; and those that drip, which it
    gives."""
    for _ in range(CROWD):
        open_ones.enter_context(server.connect())
    for at in range(CROWD):
        half = open_ones.enter_context(server.connect())
        send(half, act(ENTRY)[:-1] if at % 2 else PLACES)
        with suppress(OSError):  # it was let go by now
            half.shutdown(socket.SHUT_WR)
    return [open_ones.enter_context(server.connect()) for _ in range(CROWD)]


def crowd(cases: Cases) -> None:
    """Crowds of dripping, silent and half-closed peers at once, one after the other for longer than a whole request may take: each good one between them is
    answered at once, and no act of theirs is made."""
    none, folder, done = cases.places(), cases.folder(), threading.Event()
    with cases.server(folder, None) as server, ExitStack() as open_ones, ThreadPoolExecutor(1) as pool:
        drips = pool.submit(dripped, crowded(server, open_ones), done)
        try:
            for at in range(40):
                if at and at % 10 == 0:
                    crowded(server, open_ones)
                answered_at_once(cases, f"a good peer beside crowds, {at}", server, PLACES, none)
                time.sleep(WHOLE / 40)
        finally:
            done.set()
            drips.result()


def ordered(cases: Cases) -> None:
    """Requests are served in the order in which they were whole, however their connections and their first bytes came; also where the server finds all of
    them at once."""
    dice, folder, count = random.Random(SEED), cases.folder(), 12
    with cases.server(folder, 3 * count) as server:
        server.listening()
        for turn in range(3):
            with ExitStack() as open_ones, cases.soon("requests in their order"):
                peers = [open_ones.enter_context(server.connect()) for _ in range(count)]
                order = dice.sample(range(count), count)
                raws = [act(ENTRY, number=100 * turn + at + 1) for at in range(count)]
                for peer, raw in zip(peers, raws):
                    send(peer, raw[:-1])
                server.quiet()  # it has read all of them
                if turn:
                    with stopped(server):
                        for at in order:
                            send(peers[at], raws[at][-1:])
                else:
                    for at in order:
                        send(peers[at], raws[at][-1:])
                told = [re.findall(rb"ok request (\d+) ", received(peers[at])) for at in order]
                cases.tell(f"the order of requests that were whole one after the other, {turn}", [[b"%d" % (turn * count + at + 1)] for at in range(count)], told)
        cases.ended("requests in their order", server)


def crammed(cases: Cases) -> None:
    """So many connections are open at most: the next one waits, and is answered once one of them goes. None of them is lost."""
    none, folder = cases.places(), cases.folder()
    with cases.server(folder, MOST_PEERS + 1) as server, ExitStack() as open_ones:
        server.listening()
        with cases.soon("a server that had no place for a while"):
            peers = [open_ones.enter_context(server.connect()) for _ in range(MOST_PEERS)]
            for peer in peers:
                send(peer, PLACES[:-1])
            with server.connect() as waits:
                send(waits, PLACES)
                waits.settimeout(1)
                try:
                    cases.tell(f"the connection {MOST_PEERS + 1}", "no answer", waits.recv(1))
                except TimeoutError:
                    cases.tell(f"the connection {MOST_PEERS + 1} waits", "", "")
                send(peers[7], PLACES[-1:])
                cases.tell("one that makes place", none, received(peers[7]))
                peers[7].close()
                waits.settimeout(PATIENCE)
                began = time.monotonic()
                cases.tell("the one that waited for a place", none, received(waits))
                cases.within("the one that waited for a place", 0, WAIT, time.monotonic() - began)
            for at, peer in enumerate(peers):
                if at != 7:
                    send(peer, PLACES[-1:])
            cases.tell("all others", {none}, {received(peer) for at, peer in enumerate(peers) if at != 7})
        for peer in peers:
            peer.close()
        cases.ended("a server that had no place for a while", server)


def taking(cases: Cases) -> None:
    """A peer that takes nothing of the longest answer: a system holds all of it, so the next one is answered soon."""
    folder = cases.folder()
    run(cases.program, folder, [f"0 ann enter {at % 2000} a--c no 8 1 - - ok" for at in range(4000)], "--db", "desk.db")
    with cases.server(folder, 2, "--verbose") as server, server.connect() as bad:
        bad.setsockopt(socket.SOL_SOCKET, socket.SO_RCVBUF, 4096)
        send(bad, get("/report/0/4102444799"))
        with server.connect() as good:
            send(good, PLACES)
            began = time.monotonic()
            cases.tell("the one beside a peer that takes nothing", b"HTTP/1.1 200", received(good)[:12])
            cases.within("a peer that takes nothing", 0, WAIT, time.monotonic() - began)
        cases.tell("a peer that takes nothing: how it ended", 2, server.end().err.count(": answered\n"))


def still(cases: Cases) -> None:
    """A server that stood still for longer than a peer may say nothing: what came meanwhile is read, and answered, before that peer is let go. It stands still
    four times, since what it finds first as it goes on is by chance."""
    none, folder, turns = cases.places(), cases.folder(), 4
    with cases.server(folder, turns) as server:
        server.listening()
        for _ in range(turns):
            began = time.monotonic()
            with server.connect() as peer:
                send(peer, PLACES[:9])
                server.quiet()
                with stopped(server):
                    if time.monotonic() - began > FAIR:
                        raise Late("the server did not stand still in time")
                    send(peer, PLACES[9:])
                    time.sleep(SILENCE + 1)
                cases.tell("a peer whose request was whole while the server stood still", none, received(peer))
        cases.ended("a server that stood still", server)


def ends(cases: Cases) -> None:
    """How connections end is told where that is asked, and only there."""
    none, folder = cases.places(), cases.folder()
    with cases.server(folder, 4, "--verbose") as server:
        server.exchange(PLACES)
        with server.connect() as peer:
            send(peer, PLACES[:9])
        with server.connect() as peer:
            send(peer, PLACES[:9])
            reset(peer)
        cases.tell("the places in the end", none, server.exchange(PLACES))
        ended, told = parted(server.end())
        cases.tell("how it ended", Ended(0, "", server.says), ended)
        cases.tell("how they ended", ["answered", "33 ReadFault", "33 ReadFault", "answered"], told)


def own_address() -> str:
    """The address by which this machine would speak to others, if it has one. Nothing is sent."""
    with socket.socket(socket.AF_INET, socket.SOCK_DGRAM) as asked:
        try:
            asked.connect(("192.0.2.1", 9))
            return str(asked.getsockname()[0])
        except OSError:
            return "127.0.0.1"


def lost(cases: Cases) -> None:
    """A peer that resets before its answer: the write fails, and the act stands. As it is sent again it is answered, and stands once. The server stands still
    while the peer sends and resets."""
    folder = cases.folder()
    right = cases.expected(folder, [Case("", act(ENTRY), 0)]).responses[0]
    with cases.server(folder, 4, "--verbose") as server:
        server.listening()
        with cases.soon("the act whose answer was lost"):
            peer = server.connect()
            server.quiet()  # it has taken the connection
            with stopped(server):
                send(peer, act(ENTRY))
                reset(peer)
            cases.tell("the act whose answer was lost", True, b"places 1: 1 0" in server.exchange(PLACES))
        cases.tell("the act again", right, server.exchange(act(ENTRY)))
        cases.tell("the act that was sent twice", True, b"places 1: 1 0" in server.exchange(PLACES))
        told = server.end().err
        cases.tell("how a connection ended that was reset", True, "tcdesk: connection 1: 34 WriteFault\n" in told)


def uncounted(cases: Cases) -> None:
    """No word for how many connections: it goes on. And 127.0.0.1 is the one address that is listened at."""
    none, folder = cases.places(), cases.folder()
    with cases.server(folder, None) as server:
        for at in range(300):
            cases.tell(f"question {at} without a COUNT", none, server.exchange(PLACES))
        for address in {"127.0.0.2", own_address()} - {"127.0.0.1"}:
            with socket.socket() as other:
                cases.tell(f"a connection to {address}", errno.ECONNREFUSED, other.connect_ex((address, server.port)))
        with open(server.files[1].name, encoding="ascii") as said:
            cases.tell("where it says that it listens", server.listens, said.read())


def sockets(server: Server) -> int:
    """How many sockets a server has open."""
    folder, found = f"/proc/{server.process.pid}/fd", 0
    for it in os.listdir(folder):
        with suppress(FileNotFoundError):  # it was closed by now
            found += os.readlink(f"{folder}/{it}").startswith("socket:")
    return found


def limited(server: Server, most: Optional[int] = None) -> None:
    """Lets a server that runs have so many file handles, and no more, or those alone that it has, once its last connection is closed."""
    if most is None:
        end = time.monotonic() + PATIENCE
        while sockets(server) > 1:
            if time.monotonic() > end:
                raise Late("the server does not close its last connection")
            time.sleep(0.01)
        open_ones = os.listdir(f"/proc/{server.process.pid}/fd")
        most = next(it for it in range(256) if f"{it}" not in open_ones)
    resource.prlimit(server.process.pid, resource.RLIMIT_NOFILE, (most, 256))


def starved(cases: Cases) -> None:
    """No file handle is left for a while: no connection is counted meanwhile, and then each is served."""
    none, folder = cases.places(), cases.folder()
    with cases.server(folder, 3) as server:
        cases.tell("a question before", none, server.exchange(PLACES))
        limited(server)
        with ExitStack() as open_ones:
            with cases.soon("one that waits for a handle", LAST_TRY):
                peer, second = (open_ones.enter_context(server.connect()) for _ in range(2))
                for it in (peer, second):
                    send(it, PLACES)
                peer.settimeout(3)
                try:
                    cases.tell("one that waits for a handle", "no answer", peer.recv(1))
                except TimeoutError:
                    cases.tell("one that waits for a handle", "", "")
                limited(server, 256)
            for it in (peer, second):
                it.settimeout(PATIENCE)
                cases.tell("the ones that waited for a handle", none, received(it))
        cases.ended("a server that had no handle for a while", server)


def exhausted(cases: Cases) -> None:
    """No file handle comes free any more: the server ends with its reason, and the desk is kept."""
    folder = cases.folder()
    with cases.server(folder, 3) as server:
        server.exchange(act(ENTRY))
        limited(server)
        began = time.monotonic()
        with server.connect() as peer:
            send(peer, PLACES)
            ended = server.end()
            cases.within("a server without a handle", 9, 12, time.monotonic() - began)
        reason = ended.err.replace(server.listens, "")
        cases.tell("its status, and what it printed", (2, ""), (ended.status, ended.out))
        cases.tell("its reason", True, reason.startswith("tcdesk: no connection can be taken: "))
        cases.tell("the end of its reason", f"\ntcdesk: cannot use port {server.port}\n", reason[reason.index("\n"):])
    cases.tell("the desk that it kept", "places 1: 1 0", run(cases.program, folder, [], "--db", "desk.db")[:13])


GROUPS = (silent, foreign, dripping, behind, kept, crowd, ordered, crammed, taking, still, ends, lost, uncounted, starved, exhausted)


def tried(program: str, work: str, group: Callable[[Cases], None], tries: int = TRIES) -> Cases:
    """The cases of a group, once all were tried. Where they were late, and nothing else is wrong, they are tried again."""
    folder = f"{work}/{group.__name__}{tries}"
    os.mkdir(folder)
    cases = Cases(program, folder)
    try:
        group(cases)
    except Late as late:
        if tries > 1 and not cases.failed:
            print(f"tried again: {group.__name__}: {late}", flush=True)
            return tried(program, work, group, tries - 1)
        cases.tell(group.__name__, "to be in time", str(late))
    except Fault as fault:
        cases.tell(group.__name__, "to go on", str(fault))
    return cases


class Stalls(http_cases.Served):
    """What could stop a server."""

    def test_groups(self) -> None:
        """All groups, at the same time."""
        cases = self.cases
        with ThreadPoolExecutor(len(GROUPS)) as pool:
            done = list(pool.map(partial(tried, cases.program, cases.work), GROUPS))
        for group, it in zip(GROUPS, done):
            cases.passed, cases.failed = cases.passed + it.passed, cases.failed + it.failed
            self.assertGreater(it.passed, 0, f"cases of {group.__name__} that passed")
