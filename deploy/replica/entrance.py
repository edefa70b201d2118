"""The entrance: it takes what a desk takes. What every desk refuses as it stands it answers itself, as a desk does. Any other POST is given the next place of the
log, and is answered what the machine's own desk answered there. A GET is answered by the machine's own desk, as of a place that the answer tells; one that ends
in `?newest`, as of no earlier place than the last that there is as it comes."""
import asyncio
import json
import re
import threading
from contextlib import suppress
from typing import Any, Optional, Union

from aiohttp import web
from aiohttp.http_exceptions import LineTooLong
from multidict import CIMultiDict

from appender import Appender
from clock import now
from desk import Ended
from etcd import Unanswered
from health import Health
from machine import Carried, NotDone, Told, give_up, say
from words import BAD, FOREIGN, FULL, LONG, NEWEST, NUMBER, Answer, hosts_of, of_body, of_head, shortened

SHARE = 0.8  # of the time that a sender is told to wait: a post is carried out for the first time within it, or never
SLOWEST = 30.0  # seconds for a request to come
BEAT, STILL = 0.2, 1.0  # seconds between two beats of the entrance; one that has not beaten for the second time stood still, and refuses posts for as long after it
PHRASES = {200: "OK", 400: "Bad Request", 403: "Forbidden", 404: "Not Found", 405: "Method Not Allowed", 409: "Conflict", 413: "Payload Too Large", 500: "Internal Server Error",
           503: "Service Unavailable", 504: "Gateway Timeout"}
PLAIN = (("Content-Type", "text/plain; charset=utf-8"),)
Reply = Union[Answer, Carried]


def not_done(why: str) -> Answer:
    """A post was not carried out, and will not be by this try; or a question is not answered."""
    return Answer(503, json.dumps({"replica": f"not done: {why}: send it to another machine, with the same number"}).encode())


UNKNOWN = Answer(504, b'{"replica":"may be done: it was done, or will be within its time, or was not: send it to another machine, with the same number"}')


class Bare(web.Response):
    """A response that has the header lines that it is given, and no more but those of the connection."""

    async def _prepare_headers(self) -> None:
        """Without a date, and without the name of a program."""
        await super()._prepare_headers()
        for name in ("Date", "Server"):
            self.headers.pop(name, None)

    async def _write_headers(self) -> None:
        """As HTTP/1.1, whatever was asked."""
        assert self._payload_writer
        await self._payload_writer.write_headers(f"HTTP/1.1 {self.status} {self.reason}", self.headers)


def response_of(answer: Answer, place: Optional[int] = None, closes: bool = False) -> web.Response:
    """An answer, and its place."""
    fields = CIMultiDict([*answer.headers, *([("Tcdesk-Place", str(place))] if place is not None else [])])
    told = Bare(status=answer.status, reason=PHRASES.get(answer.status), body=answer.body, headers=fields)
    if closes:
        told.force_close()
    return told


class Peer(web.RequestHandler):
    """One connection."""

    def connection_made(self, transport: asyncio.BaseTransport) -> None:
        """It may say nothing for so long."""
        super().connection_made(transport)
        self.wakes = asyncio.Event()
        self.first = asyncio.get_running_loop().call_later(SLOWEST, self.close)

    def connection_lost(self, exc: Optional[BaseException]) -> None:
        """Nobody waits any more."""
        super().connection_lost(exc)
        self.first.cancel()
        self.wakes.set()

    def handle_error(self, request: web.BaseRequest, status: int = 500, exc: Optional[BaseException] = None, message: Optional[str] = None) -> web.StreamResponse:
        """Of a request that is none the desk's own answer is told."""
        if status >= 500:
            say(f"a request failed: {exc!r}")
            return response_of(UNKNOWN, closes=True)
        why = str(message)
        return response_of(LONG if isinstance(exc, LineTooLong) or "Too many" in why else FOREIGN if "duplicate 'host'" in why.lower() else BAD, closes=True)


class Door(web.Server):
    """Takes connections."""

    def __call__(self) -> web.RequestHandler:
        """A connection more."""
        return Peer(self, loop=self._loop, **self._kwargs)


class Entrance(threading.Thread):
    """Listens for this machine."""

    def __init__(self, address: tuple[str, int], appender: Appender, health: Health, patience: float) -> None:
        """Whoever asks is told something within so many seconds."""
        super().__init__(daemon=True)
        self.address, self.appender, self.machine, self.health, self.patience = address, appender, appender.machine, health, patience
        self.listens = threading.Event()
        self.port, self.hosts, self.beaten, self.closed_until = 0, frozenset[bytes](), now(), 0.0

    def run(self) -> None:
        """For ever."""
        try:
            asyncio.run(self.serve())
        except OSError as why:
            give_up(f"the entrance cannot listen: {why}")

    async def serve(self) -> None:
        """Listens."""
        door = Door(self.answered, access_log=None, auto_decompress=False, lingering_time=1.0)
        server = await asyncio.get_running_loop().create_server(door, *self.address, backlog=1024)
        self.port = server.sockets[0].getsockname()[1]
        self.hosts = hosts_of(self.address[0], self.port)
        self.listens.set()
        while True:
            self.beat()
            await asyncio.sleep(BEAT)

    def beat(self) -> None:
        """It runs. If it stood still, what it reads now may have been sent long ago, by who is gone."""
        if now() - self.beaten > STILL:
            self.closed_until = now() + STILL
        self.beaten = now()

    def stood_still(self) -> bool:
        """Whether what it has just read may be old."""
        return now() - self.beaten > STILL or now() < self.closed_until

    # ---- a request

    async def answered(self, request: web.BaseRequest) -> web.StreamResponse:
        """The answer to a request."""
        peer = request.protocol
        assert isinstance(peer, Peer)
        peer.first.cancel()
        path, is_get = request.raw_path, request.method == "GET"
        if is_get and path in ("/healthz", "/metrics"):
            is_well, text = self.health.told()
            return response_of(Answer(200 if is_well else 503, text) if path == "/healthz" else Answer(200, self.health.metrics(), PLAIN))
        bare = path.removesuffix(NEWEST) if is_get else path
        bad = BAD if tuple(request.version) not in ((1, 0), (1, 1)) else of_head(request.method, bare, request.raw_headers, self.hosts)
        if bad:
            return response_of(bad, closes=True)
        if is_get:
            return self.response(await self.get(path, peer))
        body = await asyncio.wait_for(request.read(), SLOWEST)
        bad = of_body(path, body)
        return response_of(bad) if bad else self.response(await self.post(path, shortened(path, body), self.waits_for(request), peer))

    def response(self, reply: Reply) -> web.Response:
        """A reply, with its place where it has one."""
        return response_of(reply.answer, reply.place) if isinstance(reply, Carried) else response_of(reply)

    def waits_for(self, request: web.BaseRequest) -> float:
        """For how many seconds its sender waits: as long as everybody is told to, or less where he says so (`Prefer: wait=N`, RFC 7240, section 4.3)."""
        found = re.search(r"\bwait=([0-9]{1,9})\b", request.headers.get("Prefer", ""))
        return min(self.patience, float(found[1])) if found and NUMBER.fullmatch(found[1]) else self.patience

    async def post(self, path: str, body: bytes, seconds: float, peer: Peer) -> Reply:
        """What the machine's own desk answers to a post at its place; or whether it was not done, or may be."""
        why = "this machine stood still" if self.stood_still() else self.health.closed(True)
        if why or self.health.is_full():
            return not_done(why) if why else FULL
        told: Told = Told()
        mark = self.appender.mark()
        self.machine.waiting[mark] = told
        wanted = self.appender.post(mark, path, body, self.appender.log.clock.now() + int(seconds * SHARE * 1000))
        try:
            reply = await self.waited(told, peer, seconds, True)
            return reply or (UNKNOWN if wanted.give_up() else not_done("the log did not take it in time"))
        except NotDone as why_not:
            return not_done(str(why_not))
        except Ended:
            return UNKNOWN if wanted.give_up() else not_done("this machine is out")
        finally:
            wanted.give_up()
            self.machine.waiting.pop(mark, None)

    async def get(self, path: str, peer: Peer) -> Reply:
        """What the machine's own desk answers to a question."""
        is_newest = path.endswith(NEWEST)
        why = self.health.closed(False) or ("the log does not answer" if is_newest and self.health.is_silent() else "")
        if why:
            return not_done(why)
        try:
            loop, log = asyncio.get_running_loop(), self.appender.log
            least = await loop.run_in_executor(None, log.newest, self.machine.place) if is_newest else 0
            return await self.waited(self.machine.ask(path.removesuffix(NEWEST), least), peer, self.patience, False) or not_done("it was not answered in time")
        except (Ended, Unanswered) as why_not:
            return not_done(str(why_not))

    async def waited(self, told: Told, peer: Peer, seconds: float, is_post: bool) -> Optional[Carried]:
        """What is told in time, while its sender is there, and for a post while etcd is heard; none where nothing is."""
        loop = asyncio.get_running_loop()
        peer.wakes.clear()

        def wake(_: Any) -> None:
            """Something is told, by another thread."""
            loop.call_soon_threadsafe(peer.wakes.set)

        told.add_done_callback(wake)
        end = loop.time() + seconds
        while peer.transport is not None and not peer.wakes.is_set() and loop.time() < end and not (is_post and self.health.is_silent()):
            with suppress(asyncio.TimeoutError):
                await asyncio.wait_for(peer.wakes.wait(), min(BEAT, end - loop.time()))
        return told.result() if told.done() else None
