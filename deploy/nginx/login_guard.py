"""What guards the login: wrong passwords wait, each answer to a post comes whole whatever its conditions, the logs name the login, and a page waits for the
desk.
"""
import shutil
import time
from concurrent.futures import ThreadPoolExecutor
from http.client import HTTPException
from typing import Callable, Optional, Sequence

from generate import http_posts as posts
from generate.http_words import body_of
from login_asks import entry, folder_in, places
from login_peer import ANN, BOB, Client, Proxy, StandIn, certificate_files, password_files, reply
from tests.http_cases import Cases
from tests.http_peer import Server, free_port

GUESSES = 30
# A POST with one of these was answered 412 or 304, after its act was done.
CONDITIONS = (("If-Match", "x"), ("If-Match", '"x"'), ("If-None-Match", "*"), ("If-None-Match", '"x", *'), ("If-None-Match", '"x"'),
              ("If-Unmodified-Since", "Sat, 01 Jan 2000 00:00:00 GMT"), ("If-Unmodified-Since", "x"),
              ("If-Modified-Since", "Fri, 01 Jan 2100 00:00:00 GMT"), ("If-Modified-Since", "x"), ("If-Range", '"x"'),
              ("If-Range", "Fri, 01 Jan 2100 00:00:00 GMT"), ("Range", "bytes=0-1"), ("Range", "bytes=9999-"))


def slowed(cases: Cases, folder: str) -> None:
    """Wrong passwords wait, one after the other and at the same moment; a right one does not, and that of a name that is guessed is let in too."""
    password_files(folder)
    with Server(cases.program, folder, "desk.db", None) as server, Proxy(folder, "tcdesk-password", server.port) as proxy:
        server.connect().close()
        ann, bob, guess, nobody = (Client(proxy, it) for it in (ANN, BOB, "ann:wrong", None))
        began = time.monotonic()
        cases.tell("six wrong passwords", [401] * 6, [guess.get().status for _ in range(6)])
        cases.tell("take four seconds and more", True, time.monotonic() - began > 4)
        before = held(proxy)
        cases.tell("another's login meanwhile, 50 times", {200}, {bob.get().status for _ in range(50)})
        cases.tell("and who has none yet, 50 times", {401}, {nobody.get().status for _ in range(50)})
        cases.tell("are not slowed", before, held(proxy))
        cases.tell("the right password after a wrong one", [places(0)] * 2, [ann.get() for _ in range(2)])
        for name in ("who gave one before", "whom nobody knows yet"):
            time.sleep(6)
            looked, began = proxy.said().count("password mismatch"), time.monotonic()
            with ThreadPoolExecutor(GUESSES) as pool:
                came = list(pool.map(lambda _: guessed(guess), range(GUESSES)))
            # one of each process, five that wait, and one a second
            most = 8 + time.monotonic() - began
            cases.tell(f"{GUESSES} guesses at the same moment by {name}", set(), set(came) - {401, 429, None})
            cases.tell("of which few are looked at", True, proxy.said().count("password mismatch") - looked < most)
            proxy.forget()
        shutil.rmtree(proxy.wrong)
        cases.tell("where nothing can be noted", 401, guess.get().status)
        cases.tell("the log says so", True, "tcdesk: a wrong password cannot be noted" in proxy.said())
    with Server(cases.program, folder, "late.db", None) as server, \
            Proxy(folder, "tcdesk-password", server.port, {"const COUNTS = 60000;": "const COUNTS = 1000;"}) as proxy:
        server.connect().close()
        cases.tell("a wrong password", 401, Client(proxy, "ann:wrong").get().status)
        time.sleep(1.5)
        before = held(proxy)
        cases.tell("the right one, once the wrong is forgotten", {200}, {Client(proxy, ANN).get().status for _ in range(20)})
        cases.tell("is not slowed", before, held(proxy))


def guessed(client: Client) -> Optional[int]:
    """The status of a question; none where a busy machine was too slow to ask it in time."""
    try:
        return client.get().status
    except (OSError, HTTPException):
        return None


def held(proxy: Proxy) -> int:
    """How many requests waited, or were refused, since a password was wrong."""
    return proxy.said().count("delaying request") + proxy.said().count("limiting requests")


def conditions(cases: Cases, folder: str) -> None:
    """A post that carries conditions is answered as one without: it is done, and its answer comes."""
    password_files(folder)
    with Server(cases.program, folder, "desk.db", None) as server, Proxy(folder, "tcdesk-password", server.port) as proxy:
        server.connect().close()
        ann, done = Client(proxy, ANN), 0
        for at, (path, body) in enumerate([("/acts", entry(1)), ("/stacks", body_of({"by": "ann", "csv": posts.rows(1), "moment": 100, "name": "s1", "number": 2})),
                                           ("/procedures", body_of({"by": "ann", "csv": posts.steps(1), "moment": 100, "name": "p1", "number": 3})),
                                           ("/acts", entry(4, act="approve 9"))]):
            plain = ann.post(path, body)
            for name, value in CONDITIONS:
                cases.tell(f"{path} once more, with {name}: {value}", plain, ann.post(path, body, **{name.replace("-", "_"): value}))
        for at, (name, value) in enumerate(CONDITIONS):
            answer = ann.post("/acts", entry(100 + at), **{name.replace("-", "_"): value})
            done += answer.status == 200 and answer.text.startswith('{"lines":["ok request ')
        cases.tell("acts that carry conditions for the first time", len(CONDITIONS), done)
        cases.tell("and stand", places(2 + done), ann.get())
        for name, value in CONDITIONS:
            cases.tell(f"a question with {name}: {value}", places(2 + done), ann.get(**{name.replace("-", "_"): value}))


def logged(cases: Cases, folder: str) -> None:
    """The access log names who logged in, and nobody else."""
    password_files(folder)
    with Server(cases.program, folder, "desk.db", None) as server, Proxy(folder, "tcdesk-password", server.port) as proxy:
        server.connect().close()
        ann = Client(proxy, ANN)
        one_by_one(proxy, [lambda: ann.get(), lambda: ann.post("/acts", entry(1)), lambda: ann.post("/acts", entry(2, "bob")), lambda: ann.post("/acts", "{}"),
                           lambda: ann.get("/none"), lambda: ann.get("/countersign"), lambda: Client(proxy, BOB).get("/acts"),
                           *(lambda login=login: Client(proxy, login).get() for login in ("ann:wrong", "eve:secret", None)),
                           lambda: Client(proxy, "ann:wrong").get("/tcdesk-internal/places")])
        wanted = ["ann 200", "ann 200", "ann 403", "ann 400", "ann 404", "ann 200", "bob 405", "- 401", "- 401", "- 401", "- 404"]
        cases.tell("whom the log names, by password", wanted, persons(proxy, len(wanted)))
    files = folder_in(folder, "certificate")
    certificate_files(files)
    with Server(cases.program, folder, "other.db", None) as server, Proxy(files, "tcdesk-certificate", server.port) as proxy:
        server.connect().close()
        both = Client(proxy, BOB, "ann")
        one_by_one(proxy, [lambda: both.get(), lambda: both.post("/acts", entry(1)), lambda: both.post("/acts", entry(2, "bob")),
                           lambda: Client(proxy, BOB, "two").get(), lambda: Client(proxy, BOB).get()])
        wanted = ["ann 200", "ann 200", "ann 403", "- 403", "- 400"]
        cases.tell("whom the log names, by certificate", wanted, persons(proxy, len(wanted)))


def one_by_one(proxy: Proxy, requests: Sequence[Callable[[], object]]) -> None:
    """Asks each once the one before stands in the log: nginx writes a line after its answer, and two processes of it in any order."""
    for count, request in enumerate(requests, 1):
        request()
        proxy.noted(count)


def persons(proxy: Proxy, count: int) -> list[str]:
    """The person and the status of each request in the log of a proxy, once there are so many."""
    return [f"{line.split(' ')[2]} {line.split(chr(34))[2].split()[0]}" for line in proxy.noted(count)]


def heads(cases: Cases, folder: str) -> None:
    """Each answer has a browser come back by TLS alone, and tells no version."""
    password_files(folder)
    stand = StandIn(reply(b"{}").replace(b"\r\n\r\n", b"\r\nTcdesk-Place: 17\r\n\r\n"))
    with Proxy(folder, "tcdesk-password", stand.port) as proxy:
        ann = Client(proxy, ANN)
        asked: list[tuple[str, Client, str, str, Optional[str], int]] = [
                ("a question", ann, "GET", "/places", None, 200), ("an act", ann, "POST", "/acts", entry(1), 200), ("another's act", ann, "POST", "/acts", entry(1, "bob"), 403),
                ("no login", Client(proxy), "GET", "/places", None, 401), ("a body that is too long", ann, "POST", "/acts", "x" * 65537, 413)]
        for name, client, method, path, body, status in asked:
            answer = client.ask(method, path, body)
            cases.tell(f"the head of {name}", (status, "nginx", ["max-age=31536000"]),
                       (answer.status, client.lines["Server"], client.lines.get_all("Strict-Transport-Security")))
        for post in (None, entry(1)):
            ann.ask("POST" if post else "GET", "/acts" if post else "/places", post)
            cases.tell(f"the place in the log that three machines tell: {post}", ["17"], ann.lines.get_all("Tcdesk-Place"))
    stand.socket.close()


def waits(cases: Cases, folder: str) -> None:
    """A page that the desk does not answer asks again by itself, and a post is told its status."""
    password_files(folder)
    with Proxy(folder, "tcdesk-password", free_port()) as proxy:
        ann = Client(proxy, ANN)
        for path in ("/board", "/places"):
            answer = ann.get(path, Accept="text/html")
            cases.tell(f"GET {path}, where no desk is", (502, True, False, "text/html"),
                       (answer.status, '<meta http-equiv="refresh" content="5">' in answer.text, "<script" in answer.text, ann.lines["Content-Type"]))
            cases.tell("it is kept nowhere", ["no-store"], ann.lines.get_all("Cache-Control"))
        for path, body in (("/acts", entry(1)), ("/stacks", body_of({"by": "ann", "csv": "x", "moment": 100, "name": "s1", "number": 2}))):
            cases.tell(f"POST {path}, where no desk is", (502, '{"proxy":"not known: the desk did not answer"}'), tuple(ann.post(path, body)))
        cases.tell("the page by its own path", 404, ann.get("/tcdesk-waits.html").status)
        cases.tell("no login, where no desk is", 401, Client(proxy).get("/board").status)
    full = reply(b'{"lines":["refused 32 Stopped"],"more":0,"refusal":32}').replace(b"200 OK", b"503 Service Unavailable")
    stand = StandIn(full)
    with Proxy(folder, "tcdesk-password", stand.port) as proxy:
        ann = Client(proxy, ANN)
        said = (503, full.split(b"\r\n\r\n")[1].decode())
        cases.tell("a page of a desk that has stopped", said, tuple(ann.get("/board")))
        cases.tell("a post to a desk that has stopped", said, tuple(ann.post("/acts", entry(1))))
    stand.socket.close()
