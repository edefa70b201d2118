"""The door, over real sockets: requests that pages of other sites send, or that call the desk by another host, as the desk meets them at its own port and under a
name of its own. Each is answered 403 with the same bytes, whatever it asks, and does nothing; those without such headers go on.
"""
from itertools import count
from typing import Iterator, NamedTuple, Sequence

from generate.http_words import ENTRY, act, get, load
from model.http import decided, hosts_of
from model.http import FOREIGN as REFUSED
from tests.http_cases import Served
from tests.http_peer import Server

NAME = "desk.example"
FORBIDDEN = (b'HTTP/1.1 403 Forbidden\r\nContent-Type: application/json\r\nContent-Length: 52\r\nConnection: close\r\n\r\n'
             b'{"lines":["refused 1 BadText"],"more":0,"refusal":1}')


class Try(NamedTuple):
    """Header lines, and whether a GET and a POST with them are let in."""
    lines: Sequence[str]
    gets: bool
    posts: bool


def hosts(port: int, name: str) -> Iterator[Try]:
    """Hosts of all kinds; a desk may have a name of its own."""
    own = ["127.0.0.1", "localhost", *([name] if name else [])]
    for host in [*own, *(f"{it}:{port}" for it in own), *(it.upper() for it in own)]:
        yield Try([f"Host: {host}"], True, True)
    foreign = ["evil.example", f"evil.example:{port}", f"127.0.0.1:{port + 1}", f"localhost:{port}0", "127.0.0.1:", "127.1", "[::1]", f"[::1]:{port}", "0.0.0.0",
               f"{NAME}.evil.example", f"www.{NAME}", f"{NAME}:{port + 1}", f"http://127.0.0.1:{port}", ""]
    for host in [*foreign, *([] if name else [NAME, f"{NAME}:{port}"])]:
        yield Try([f"Host: {host}"], False, False)
    yield Try([f"Host: 127.0.0.1:{port}", "Host: evil.example"], False, False)
    yield Try([], True, True)


def pages(port: int, name: str) -> Iterator[Try]:
    """What browsers say of the page that sends a request."""
    host = f"Host: 127.0.0.1:{port}"
    own = ["127.0.0.1", "localhost", *([name] if name else [])]
    for it in [*own, *(f"{it}:{port}" for it in own)]:
        yield Try([host, f"Origin: http://{it}"], True, True)
        yield Try([host, f"Origin: https://{it}", "Sec-Fetch-Site: same-origin"], True, True)
    for origin in ("null", "http://evil.example", f"http://evil.example:{port}", f"http://127.0.0.1:{port + 1}", "file://", f"ftp://127.0.0.1:{port}", f"127.0.0.1:{port}",
                   f"http://127.0.0.1:{port}.evil.example", f"http://evil.example@127.0.0.1:{port}", "", *([] if name else [f"https://{NAME}"])):
        yield Try([host, f"Origin: {origin}"], True, False)
        yield Try([host, f"Origin: {origin}", "Sec-Fetch-Site: same-origin", "Content-Type: text/plain"], True, False)
    for site, is_own in (("same-origin", True), ("none", True), ("same-site", False), ("cross-site", False), ("", False), ("SAME-ORIGIN", False)):
        yield Try([host, f"Sec-Fetch-Site: {site}"], True, is_own)
    yield Try([f"Host: evil.example:{port}", f"Origin: http://evil.example:{port}", "Sec-Fetch-Site: same-origin"], False, False)
    yield Try(["Origin: http://evil.example", "Content-Type: text/plain"], True, False)


def with_lines(raw: bytes, lines: Sequence[str]) -> bytes:
    """A request with these header lines in place of its Host."""
    return raw.replace(b"Host: 127.0.0.1\r\n", "".join(f"{it}\r\n" for it in lines).encode(), 1)


class Door(Served):
    """Who is let in."""

    names: list[str] = []

    def tried(self, name: str, server: Server, raw: bytes, is_in: bool) -> None:
        """One request: it is refused by the very bytes, or answered otherwise; the plain reading says the same."""
        got = server.exchange(raw)
        is_own = decided(raw, hosts_of(server.port, *self.names)) != REFUSED
        self.cases.tell(f"{name}, by the plain reading", is_in, is_own)
        self.cases.tell(name, is_in, got != FORBIDDEN)
        self.cases.tell(f"{name}: its status", True, got.startswith(b"HTTP/1.1 2" if is_in else b"HTTP/1.1 403 "))

    def test_door(self) -> None:
        """Each line of headers with a question, the board, an act, a load, no path and a method that none has; what is refused moves nothing."""
        for name in ("", NAME):
            self.names, numbers, done = [name] if name else [], count(1), 0
            with self.cases.server(self.cases.folder(), None, *(["--host", name] if name else [])) as server:
                for it in [*hosts(server.port, name), *pages(server.port, name)]:
                    told = f"{name or 'no name'}, {it.lines}"
                    for path in ("/places", "/board", "/opening", "/moves/0"):
                        self.tried(f"{told}: GET {path}", server, with_lines(get(path), it.lines), it.gets)
                    self.tried(f"{told}: an act", server, with_lines(act(ENTRY, number=next(numbers)), it.lines), it.posts)
                    done += it.posts
                    places = server.exchange(get("/places"))
                    self.cases.tell(f"{told}: the requests then", True, b'"places %d: %d 0' % (done, done) in places)
                    self.others(told, server, it)
                    self.cases.tell(f"{told}: the requests in the end", places, server.exchange(get("/places")))

    def others(self, told: str, server: Server, it: Try) -> None:
        """What is refused for its path, its method or its body, where it is let in."""
        for raw, is_in in ((get("/none"), it.gets), (get("/acts"), it.gets), (get("/places").replace(b"GET", b"DELETE"), it.gets),
                           (act("withdraw 4000000000"), it.posts), (load("stack", "s1", "x", number=4_000_000_000), it.posts), (get("/none").replace(b"GET", b"POST"), it.posts)):
            got = server.exchange(with_lines(raw, it.lines))
            self.cases.tell(f"{told}: {raw[:20]!r}", (is_in, True), (got != FORBIDDEN, got.startswith(b"HTTP/1.1 40")))
