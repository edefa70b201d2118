"""Who may ask, in whose name, from which site, by which path, and in which size.
"""
import json
import socket
from http.client import HTTPConnection
from typing import Iterable

from generate import http_posts as posts
from generate.http_words import ENTRY, body_of
from login_asks import BAD_TEXT, NOT_OWN, direct, entry, places, words
from login_peer import ANN, BOB, SITE, Answer, Client, Proxy, password_files, text_of, write
from tests.http_cases import Cases
from tests.http_peer import HERE, Server



def logins(cases: Cases, proxy: Proxy) -> None:
    """Who may ask."""
    ann = Client(proxy, ANN)
    for name, login in (("no login", None), ("a wrong password", "ann:wrong"), ("no password", "ann:"), ("another's password", "ann:other"),
                        ("nobody", ":secret"), ("a name that is not known", "eve:secret"), ("a name in capitals", "Ann:secret")):
        client = Client(proxy, login)
        for method, path, body in (("GET", "/places", None), ("GET", "/none", None), ("POST", "/acts", entry(1)), ("POST", "/stacks", "{}"),
                                   ("OPTIONS", "/acts", None), ("POST", "/tcdesk-internal/acts", entry(1))):
            answer = client.ask(method, path, body)
            cases.tell(f"{name}: {method} {path}", 404 if "internal" in path else 401, answer.status)
            proxy.forget()
    cases.tell("the right password", places(0), ann.get())
    cases.tell("the login of another", places(0), Client(proxy, BOB).get())
    users = text_of(f"{proxy.folder}/tcdesk.users")
    write(f"{proxy.folder}/tcdesk.users", users.splitlines(keepends=True)[0])
    cases.tell("a login that is taken out", 401, Client(proxy, BOB).get().status)
    proxy.forget()
    write(f"{proxy.folder}/tcdesk.users", users)
    cases.tell("a login that is put in", places(0), Client(proxy, BOB).get())
    cases.tell("what may be kept or shown of an answer", ["no-store", "same-origin", "nosniff"],
               [ann.lines[it] for it in ("Cache-Control", "Cross-Origin-Resource-Policy", "X-Content-Type-Options")])


def names() -> Iterable[tuple[str, str, bool]]:
    """Bodies that name bob, and maybe ann: what each is, the body but for its number, and whether it is ann's by the last key that is `by`."""
    tail = '"moment":100,"number":@,"act":"' + ENTRY + '"}'
    for name, keys, is_own in [
            ("plain", '"by":"bob"', False), ("in capitals", '"by":"ANN"', False), ("a capital", '"by":"Ann"', False),
            ("with a space", '"by":"ann "', False), ("with a line end", '"by":"ann\\n"', False), ("with NUL", '"by":"ann\\u0000"', False),
            ("empty", '"by":""', False), ("the desk", '"by":"desk"', False), ("in letters like them", '"by":"аnn"', False),
            ("twice, bob last", '"by":"ann","by":"bob"', False), ("twice, ann last", '"by":"bob","by":"ann"', True),
            ("three times, bob last", '"by":"bob","by":"ann","by":"bob"', False), ("three times, ann last", '"by":"ann","by":"bob","by":"ann"', True),
            ("key by an escape, bob last", '"by":"ann","b\\u0079":"bob"', False), ("key by an escape, ann last", '"b\\u0079":"bob","by":"ann"', True),
            ("key all by escapes, bob last", '"by":"ann","\\u0062\\u0079":"bob"', False), ("key by an escape alone", '"\\u0062y":"bob"', False),
            ("key by an escape alone, ann", '"\\u0062y":"ann"', True), ("value by an escape", '"by":"\\u0062ob"', False),
            ("value by an escape, ann", '"by":"\\u0061nn"', True), ("value by an escape, last", '"by":"ann","by":"bo\\u0062"', False),
            ("another key, in capitals", '"BY":"bob","by":"ann"', True), ("another key, in capitals, last", '"by":"ann","By":"bob"', True),
            ("deeper down", '"by":"ann","x":{"by":"bob"}', True), ("deeper down, first", '"x":[{"by":"bob"}],"by":"ann"', True),
            ("of a prototype", '"by":"ann","__proto__":{"by":"bob"}', True), ("in a text", '"by":"ann","x":"\\",\\"by\\":\\"bob\\""', True),
            ("behind a text that ends in a backslash", '"by":"ann","x":"\\\\","by":"bob"', False)]:
        yield name, "{" + keys + "," + tail, is_own
        yield f"{name}, at the end", "{" + tail[:-1] + "," + keys + "}", is_own


def others(cases: Cases, proxy: Proxy) -> int:
    """Acts in the name of bob by the login of ann: how many were hers, and were entered."""
    ann, own = Client(proxy, ANN), 0
    for name, body, is_own in names():
        answer = ann.post("/acts", body.replace("@", str(own + 1)))
        own += is_own
        want = f'{{"lines":["ok request {own} 5/{own - 1}","move {own} 100 ann {own} - Entered enter"],"more":0,"refusal":0}}'
        cases.tell(f"bob is named, {name}", Answer(200, want) if is_own else Answer(403, NOT_OWN), answer)
    for name, body in (("capitals alone", entry(1, None, BY="ann")), ("no name", entry(1, None)), ("a list", '{"by":["ann"]}'), ("null", '{"by":null}'),
                       ("an object", '{"by":{"by":"ann"}}'), ("twice, null last", '{"by":"ann","by":null}'), ("no object", '["by","ann"]'),
                       ("a text", '"ann"'), ("nothing", ""), ("two objects", entry(1) * 2), ("a mark at the front", "\ufeff" + entry(1))):
        cases.tell(f"nobody is named: {name}", Answer(400, BAD_TEXT), ann.post("/acts", body))
    for number, kind, text in ((100, "stack", posts.rows(1)), (101, "procedure", posts.steps(1))):
        body = body_of({"by": "bob", "csv": text, "moment": 100, "name": "s1", "number": number})
        cases.tell(f"a {kind} in another's name", Answer(403, NOT_OWN), ann.post(f"/{kind}s", body))
        answer = Client(proxy, BOB).post(f"/{kind}s", body)
        cases.tell(f"a {kind} in one's own name", (200, ["ok", kind, "s1", "1"]), (answer.status, words(answer)[:4]))
    cases.tell("an approval in another's name", Answer(403, NOT_OWN), ann.post("/acts", entry(102, "bob", act="approve 1")))
    cases.tell("what was done in all", places(own + 1), ann.get())
    cases.tell("what the log says", True, 'tcdesk: refused to the login "ann": by is not the name of the login' in proxy.said())
    return own + 1


def sites(cases: Cases, proxy: Proxy, done: int) -> None:
    """What a page of another site could send along a login, and what the site's own may."""
    ann = Client(proxy, ANN)
    refused = [("Content_Type", it) for it in (None, "", "text/plain", "text/plain; application/json", "text/plain;application/json",
                                               "application/x-www-form-urlencoded", "multipart/form-data; boundary=x", "application/jsonx",
                                               "application/json, text/plain", "application/json+x", "application/csp-report", "json")]
    refused += [("Origin", it) for it in ("https://evil.example.org", "null", f"http://{SITE}:{proxy.port}", f"https://{SITE}", proxy.origin + "0",
                                          proxy.origin + ".evil.org", proxy.origin.upper(), "")]
    refused += [("Sec_Fetch_Site", it) for it in ("cross-site", "same-site", "none", "x")]
    for path, body in (("/acts", entry(200)), ("/stacks", body_of({"by": "ann", "csv": posts.rows(1), "moment": 100, "name": "x1", "number": 200}))):
        for name, value in refused:
            answer = ann.post(path, body, **{name: value})
            cases.tell(f"{path}, {name} {value!r}", (403, '{"proxy":"refused: '), (answer.status, answer.text[:19]))
    cases.tell("a form that spells JSON", 403, ann.post("/acts", entry(200, x="=1"), Content_Type="text/plain", Origin="https://evil.example.org").status)
    asked = ann.ask("OPTIONS", "/acts", None, Origin="https://evil.example.org", Access_Control_Request_Method="POST")
    cases.tell("whether another site may ask", (405, []), (asked.status, [it for it in ann.lines if it.lower().startswith("access-control")]))
    cases.tell("what was done in all", places(done), ann.get())
    own = [("Content_Type", it) for it in ("application/json; charset=utf-8", "APPLICATION/JSON", "application/json ;x")]
    own += [("Origin", proxy.origin), ("Sec_Fetch_Site", "same-origin")]
    for at, (name, value) in enumerate(own):
        cases.tell(f"{name} {value!r}", 200, ann.post("/acts", entry(200 + at), **{name: value}).status)
    cases.tell("what was done then", places(done + len(own)), ann.get())


def paths(cases: Cases, proxy: Proxy, desk: int) -> None:
    """Paths, methods and sizes: what the desk answers, where it is asked, and nothing done."""
    ann = Client(proxy, ANN)
    before = ann.get()
    for method, path in [("GET", it) for it in ("/places", "/requests/1", "/requests/99999", "/requests/x", "/history/1/0", "/report/0/4102444799",
                                                "/places/", "/places?", "/none", "/", "/acts", "/stacks", "/procedures", "/history/1", "/waiting", "/moves/0",
                                                "/moves/x", "/procedures/s1", "/procedures/S", "/board/")] + [
                         (it, "/places") for it in ("POST", "PUT", "DELETE", "PATCH")] + [
                         (it, "/acts") for it in ("PUT", "DELETE", "PATCH")] + [("POST", it) for it in ("/none", "/acts/", "/acts?x", "/act")]:
        cases.tell(f"{method} {path}", direct(desk, method, path, "" if method != "GET" else None), ann.ask(method, path))
    for path in ("/acts?x", "/acts?", "/./acts", "//acts", "/%61cts", "/acts/", "/x/../acts", "/acts%0A", "/ACTS", "/tcdesk-internal/acts", "/acts;",
                 "/stacks?", "/%2Facts", "/tcdesk-internal/../acts", "/acts%00"):
        cases.tell(f"POST {path}", (True, before), (ann.post(path, entry(300)).status in (400, 404), ann.get()))
    body = entry(300)
    cases.tell("a body of 65,536 bytes", 200, ann.post("/acts", body + " " * (65536 - len(body))).status)
    body = '{"x":"' + "\\n" * 32000 + '",' + entry(301)[1:]
    cases.tell("a text of 32,000 escapes", 200, ann.post("/acts", body).status)
    for size in (65537, 70000, 10_000_000):
        cases.tell(f"a body of {size} bytes", 413, too_large(ann, size))
    cases.tell("a body in chunks", Answer(400, BAD_TEXT), chunked(ann, entry(302)))
    after = ann.get()
    cases.tell("a question with a body", after, ann.ask("GET", "/places", entry(303)))
    cases.tell("what was done then", after, ann.get())


def board(cases: Cases, proxy: Proxy, desk: int) -> None:
    """The page of the board comes through as it is, with the lines of its head, each once."""
    peer = HTTPConnection(HERE, desk, timeout=60)
    peer.request("GET", "/board")
    with peer.getresponse() as own:
        text, lines = own.read().decode(), [(it, own.getheader(it)) for it in ("Content-Type", "Content-Security-Policy")]
    peer.close()
    ann = Client(proxy, ANN)
    cases.tell("the board", Answer(own.status, text), ann.ask("GET", "/board"))
    cases.tell("the lines of its head", lines, [(it, ann.lines.get(it)) for it, _ in lines])
    cases.tell("that it is kept nowhere", ["no-store"], ann.lines.get_all("Cache-Control"))


def too_large(client: Client, size: int) -> int:
    """The status that is told of a body of so many bytes, of which none is sent."""
    with client.connect() as peer:
        lines = [f"{name}: {it}\r\n" for name, it in {**client.head, "Content-Type": "application/json", "Content-Length": str(size)}.items()]
        peer.sendall(f"POST /acts HTTP/1.1\r\nHost: {SITE}\r\n{''.join(lines)}\r\n".encode())
        return int(peer.recv(65536).split(b" ")[1])


def chunked(client: Client, body: str) -> Answer:
    """Posts a body in chunks."""
    peer = HTTPConnection(HERE, client.proxy.port)
    with client.connect() as peer.sock:
        peer.request("POST", "/acts", iter([body[:9].encode(), body[9:].encode()]), {"Host": SITE, "Content-Type": "application/json", **client.head})
        answer = peer.getresponse()
        return Answer(answer.status, answer.read().decode())


def certificates(cases: Cases, folder: str) -> None:
    """Who may ask, and in whose name."""
    with Server(cases.program, folder, "desk.db", None) as server, Proxy(folder, "tcdesk-certificate", server.port) as proxy:
        for name, file, want in [("no certificate", None, 400), ("one that the authority did not sign", "stranger", 400), ("one that has run out", "over", 400),
                                 ("one that was revoked", "gone", 400), ("a name in capitals", "large", 403), ("a name that is too long", "long", 403),
                                 ("two names", "two", 403), ("a name and a comma", "comma", 403), ("more behind its name", "behind", 403),
                                 ("more before its name", "before", 403), ("a name twice", "double", 403), ("a name twice, turned", "turned", 403),
                                 ("no name", "none", 403)]:
            client = Client(proxy, certificate=file)
            for method, path, body in (("GET", "/places", None), ("POST", "/acts", entry(1))):
                cases.tell(f"{name}: {method} {path}", want, client.ask(method, path, body).status)
            cases.tell(f"{name}, with a password", want, Client(proxy, ANN, file).get().status)
        for name in ("ann", "bob", "cid"):
            client = Client(proxy, certificate=name)
            cases.tell(f"{name} in the own name", 200, client.post("/acts", entry(1, name)).status)
            cases.tell(f"{name} in another's", Answer(403, NOT_OWN), client.post("/acts", entry(2, "eve")))
            cases.tell(f"{name} from another site", 403, client.post("/acts", entry(2, name), Sec_Fetch_Site="cross-site").status)
        cases.tell("a password beside a certificate is not looked at", Answer(403, NOT_OWN), Client(proxy, BOB, "ann").post("/acts", entry(3, "bob")))
        cases.tell("what was done", places(3), Client(proxy, certificate="ann").get())
