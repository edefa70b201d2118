"""Ten good clients beside peers that stall, drip, reset, end half, speak TLS and flood with connects, on one server: `tools/run.py --only soak`, by hand.
All is on this machine, and ends by itself, after five minutes or so many as --count says.

A peer of each of three kinds is there at any time. Each good client enters requests, each under a number of its own, of which it sends some again, and asks
for the places, a second after its last answer. A line a minute tells what was answered, the longest wait so far, and the server's memory and handles. In
the end the file has to tell exactly the requests that were acknowledged, each once. It fails where a good request was not answered, waited more than 5 s, was
lost, or was answered otherwise as it was sent again.
"""
import os
import random
import socket
import tempfile
import threading
import time
import unittest
from typing import Callable, Sequence

from generate.http_words import PLACES, act
from tests.asked import ASKED
from tests.http_peer import Server, received, reset, run, send

GOOD, MOST_WAIT = 10, 5.0
HELLO = bytes.fromhex("160301008f0100008b0303") + bytes(132)  # the front of a TLS hello


class Soak:
    """A server, and what came of the good requests."""

    def __init__(self, server: Server, seconds: float, seed: str) -> None:
        """Nothing was asked yet; it ends after so many seconds."""
        self.server, self.seed, self.end, self.lock = server, seed, time.monotonic() + seconds, threading.Lock()
        self.answered, self.entered, self.longest, self.peers = 0, 0, 0.0, 0
        self.bad: list[tuple[float, bytes]] = []

    @property
    def goes_on(self) -> bool:
        """Whether its time is not over."""
        return time.monotonic() < self.end

    def good(self, number: int) -> None:
        """One good client."""
        dice, told = random.Random(f"{self.seed} {number}"), dict[bytes, bytes]()
        while self.goes_on:
            enters, repeats = dice.random() < 0.5, bool(told) and dice.random() < 0.2
            entry = act(f"enter {dice.randrange(2048)} a--c no 8 1 - - ok", f"p{number}", number=len(told) + 1)
            raw = dice.choice(list(told)) if repeats else entry if enters else PLACES
            began = time.monotonic()
            with self.server.connect() as peer:
                peer.settimeout(2 * MOST_WAIT)
                send(peer, raw)
                got = received(peer)
            took = time.monotonic() - began
            with self.lock:
                self.answered, self.longest = self.answered + 1, max(self.longest, took)
                self.entered += raw == entry and b'"refusal":0}' in got
                if not got.startswith(b"HTTP/1.1 200") or took > MOST_WAIT or told.get(raw, got) != got:
                    self.bad.append((round(took, 1), got[:80]))
            if raw == entry:
                told[raw] = got
            time.sleep(1)

    def rude(self, kinds: Sequence[Callable[["Soak", random.Random], None]]) -> None:
        """Peers of these kinds, one after the other."""
        dice = random.Random(f"{self.seed} {kinds[0].__name__}")
        while self.goes_on:
            try:
                dice.choice(kinds)(self, dice)
            except OSError:
                pass
            self.peers += 1
            time.sleep(dice.random())

    def figures(self) -> tuple[int, int]:
        """The server's memory in KiB, and its handles."""
        with open(f"/proc/{self.server.process.pid}/status", encoding="ascii") as file:
            memory = next(it.split()[1] for it in file if it.startswith("VmRSS"))
        return int(memory), len(os.listdir(f"/proc/{self.server.process.pid}/fd"))


def silent(soak: Soak, dice: random.Random) -> None:
    with soak.server.connect() as peer:
        send(peer, PLACES[:dice.randrange(9)])
        received(peer)


def dripping(soak: Soak, dice: random.Random) -> None:
    with soak.server.connect() as peer:
        peer.settimeout(0.01)
        for byte in b"GET /places HTTP/1.1\r\nX: " + b"a" * 200:
            peer.sendall(bytes([byte]))
            time.sleep(dice.random())


def resetting(soak: Soak, dice: random.Random) -> None:
    peer = soak.server.connect()
    send(peer, act("link")[:dice.randrange(90)])
    reset(peer)


def half(soak: Soak, dice: random.Random) -> None:
    with soak.server.connect() as peer:
        send(peer, act("link")[:dice.randrange(90)])
        peer.shutdown(socket.SHUT_WR)
        received(peer)


def foreign(soak: Soak, _: random.Random) -> None:
    with soak.server.connect() as peer:
        send(peer, HELLO)
        received(peer)


def noisy(soak: Soak, dice: random.Random) -> None:
    with soak.server.connect() as peer:
        send(peer, dice.randbytes(dice.randrange(20000)))
        received(peer)


def flooding(soak: Soak, dice: random.Random) -> None:
    for peer in [soak.server.connect() for _ in range(dice.randrange(60))]:
        peer.close()
    time.sleep(5)


class Soaked(unittest.TestCase):
    """A server under load."""

    def test_soak(self) -> None:
        """Runs it for some minutes."""
        with tempfile.TemporaryDirectory(prefix="http-soak-") as folder, Server(ASKED.program, folder, "desk.db", None) as server:
            soak = Soak(server, 60 * ASKED.count_or(5), str(ASKED.seed_or(1)))
            threads = [threading.Thread(target=soak.good, args=(it,)) for it in range(GOOD)]
            threads += [threading.Thread(target=soak.rude, args=(it,)) for it in ((silent, dripping), (resetting, half, foreign, noisy), (flooding,))]
            for it in threads:
                it.start()
            while soak.goes_on:
                memory, handles = soak.figures()
                print(f"{soak.answered} answered, {soak.entered} entered, longest {soak.longest:.1f} s, {soak.peers} rude peers, {memory} KiB, "
                      f"{handles} handles, {len(soak.bad)} bad")
                time.sleep(min(60, max(0.1, soak.end - time.monotonic())))
            for it in threads:
                it.join()
            server.process.kill()
            server.process.wait()
            told = int(run(ASKED.program, folder, [], "--db", "desk.db").splitlines()[-1].split(":")[0].removeprefix("places "))
        print(f"http soak: {soak.answered} answered, longest {soak.longest:.1f} s, {soak.peers} rude peers, {len(soak.bad)} bad, "
              f"{soak.entered} entered and {told} kept")
        self.assertEqual([], soak.bad[:5], "good requests that were not answered, or late")
        self.assertEqual(soak.entered, told, "what is kept of what was acknowledged")
