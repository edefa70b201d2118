"""Which role may do which act, and who may name a second person: with a token of that person, for this very post, and for two minutes."""
import hmac
import json
import os
import re
import time
from typing import Any, Iterable, Optional
from urllib.parse import quote_plus

from generate import http_posts as posts
from generate.http_words import body_of
from login_asks import BAD_TEXT, entry
from login_peer import FOLDER, SITE, Answer, Client, Proxy, password_files, right_files, text_of, write
from tests.asked import TOP
from tests.http_cases import Cases
from tests.http_peer import Fault, Server, free_port

ROLES = {"eve": None, "look": "look", "enter": "enter", "approve": "approve", "release": "release", "ann": "enter,release", "bob": "approve,enter",
         "cid": "enter,approve,release", "typo": "Enter,approved"}
FORM = "application/x-www-form-urlencoded"
PLAN = "step,text,second,request\n1,look,no,\n2,go <on>,yes,\n3,rest,no,\n"


def person_files(folder: str) -> None:
    """Logins of these roles, each with the password `secret`."""
    password_files(folder)
    write(f"{folder}/tcdesk.users", "".join(f"{it}:{{PLAIN}}secret\n" for it in ROLES))
    right_files(folder, "".join(f"{it} {roles};\n" for it, roles in ROLES.items() if roles))


# ---- roles

def told_roles() -> dict[str, str]:
    """Each word of the table of roles in the README, with its role."""
    rows = re.findall(r"^\| `(look|enter|approve|release)` \| (.*?) \|", text_of(f"{FOLDER}/README.md"), re.MULTILINE)
    return {word: role for role, cell in rows for word in re.findall(r"`([a-z]+)`", cell)}


def manual_words() -> set[str]:
    """The first word of each act and question in the manual's two tables."""
    words: set[str] = set()
    for page, head in (("acts", "The acts"), ("questions", "The questions")):
        found = re.search(rf"^## {head}\n(.*?)^## ", text_of(f"{TOP}/docs/manual/{page}.md"), re.DOTALL | re.MULTILINE)
        if not found:
            raise Fault(f"the manual has no section {head}")
        words |= set(re.findall(r"^\| `([a-z]+)", found[1], re.MULTILINE))
    return words


def roles(cases: Cases, folder: str) -> None:
    """Each word of an act by each login: it is passed on if the login has the role that the README names."""
    person_files(folder)
    needed = told_roles()
    cases.tell("the README has a role for each act of the manual", manual_words(), set(needed))
    with Server(cases.program, folder, "desk.db", None) as server, Proxy(folder, "tcdesk-password", server.port) as proxy:
        server.connect().close()
        for name, own in ROLES.items():
            client = Client(proxy, f"{name}:secret")
            has = {"look", *(own or "").split(",")}
            for word, role in sorted(needed.items()):
                # the desk reads no act of it
                answer = client.post("/acts", entry(1, name, act=word + "  x"))
                want = Answer(400, BAD_TEXT) if role in has else lacks(role)
                cases.tell(f"{word!r} by {name}, who has {own}", want, answer)
            for word in ("", " ", "Enter 5 a--c no 8 1 - - ok", "ENTER", "look", "constructor", "__proto__", "toString x", "enter\t5", "stepp 1 1 done bob", "step\n1"):
                missing = [it for it in ("look", "enter", "approve", "release") if it not in has]
                want = lacks(missing[0]) if missing else Answer(400, BAD_TEXT)
                cases.tell(f"an act that nobody knows, {word!r}, by {name}", want, client.post("/acts", entry(1, name, act=word)))
            for kind, text in (("stack", posts.rows(1)), ("procedure", posts.steps(1))):
                body = body_of({"by": name, "csv": text, "moment": 100, "name": name, "number": 5})
                cases.tell(f"a {kind} by {name}", 200 if "enter" in has else 403, client.post(f"/{kind}s", body.replace('"number":5', f'"number":{5 + len(kind)}')).status)
            for act in (["x"], None, 5):
                cases.tell(f"the act {act!r} by {name}", 400 if has >= {"enter", "approve", "release"} else 403, client.post("/acts", entry(1, name, act=act)).status)
            cases.tell(f"a question by {name}", 200, client.get().status)
            cases.tell(f"a question by a post of {name}", 200, client.post("/acts", entry(1, name, act="places")).status)
        cases.tell("what the log says", True, 'refused to the login "look": the login has not the role enter' in proxy.said())


def lacks(role: str) -> Answer:
    """What is answered to a login that has not this role."""
    return refused(f"the login has not the role {role}")


def refused(why: str) -> Answer:
    """What the proxy answers where it refuses."""
    return Answer(403, f'{{"proxy":"refused: {why}"}}')


# ---- the second person

class Desk:
    """A desk behind the proxy with a procedure of three steps, whose second wants a second person. Its acts are ann's."""

    def __init__(self, proxy: Proxy) -> None:
        """Loads it, and begins the execution 1, of which step 1 is done."""
        self.proxy, self.number = proxy, 0
        self.ann, self.bob, self.cid, self.look = (Client(proxy, f"{it}:secret") for it in ("ann", "bob", "cid", "look"))
        self.load = self.ann.post("/procedures", body_of({"by": "ann", "csv": PLAN, "moment": 100, "name": "warm", "number": 1000}))
        self.begun = [self.ann.post("/acts", self.body(it)) for it in ("begin warm", "step 1 1 done -")]

    def body(self, act: str, number: Optional[int] = None, **keys: Any) -> str:
        """The body of an act of ann's, under her next number."""
        self.number += number is None
        return entry(self.number if number is None else number, act=act, **keys)

    def log(self) -> list[str]:
        """What is recorded of execution 1."""
        lines: list[str] = json.loads(self.cid.post("/acts", entry(1, "cid", act="log 1")).text)["lines"]
        return lines[1:]


def signed(client: Client, body: str) -> str:
    """The token of a login for a post."""
    token: str = json.loads(client.post("/countersign", body).text)["countersign"]
    return token


def forged(folder: str, signer: str, when: int, body: str, site: str = SITE, secret: Optional[str] = None) -> str:
    """A token as the proxy makes it, of any signer and time."""
    text = json.dumps(["tcdesk countersign", site, signer, str(when), body], separators=(",", ":"), ensure_ascii=False)
    key = (text_of(f"{folder}/tcdesk.secret").strip() if secret is None else secret).encode()
    return f"{signer}.{when}.{hmac.new(key, text.encode(), 'sha256').hexdigest()}"


def second_person(cases: Cases, folder: str) -> None:
    """A step that names a second person goes on with a token of that person, for this very post alone; its repeats get the kept reply."""
    person_files(folder)
    with Server(cases.program, folder, "desk.db", None) as server, Proxy(folder, "tcdesk-password", server.port) as proxy:
        server.connect().close()
        desk = Desk(proxy)
        ann, bob, cid = desk.ann, desk.bob, desk.cid
        cases.tell("a procedure is begun", [200] * 3, [it.status for it in (desk.load, *desk.begun)])
        body = desk.body("step 1 2 done bob")
        number = desk.number
        none = refused("bob has not signed the step: Tcdesk-Countersign has no token")
        other = refused("bob has not signed this very post")
        for name in ("nobodyhere", "bob", "cid"):
            why = f"{name} has not signed the step: Tcdesk-Countersign has no token"
            cases.tell(f"a step that names {name}, without a token", refused(why), ann.post("/acts", desk.body(f"step 1 2 done {name}", number)))
        cases.tell("a step that names the first", refused("the second person of the step is the first"), ann.post("/acts", desk.body("step 1 2 done ann", number)))
        answer = bob.post("/countersign", body)
        told = json.loads(answer.text)
        cases.tell("bob signs", (200, "ann", "step 1 2 done bob", "step 2 second yes request - go <on>"),
                   (answer.status, told["by"], told["act"], told["step"]))
        token: str = told["countersign"]
        for name, changed in changes(desk, number):
            cases.tell(f"his token on another post: {name}", other, ann.post("/acts", changed, Tcdesk_Countersign=token))
        cases.tell("his token for cid", refused("cid has not signed this very post"),
                   ann.post("/acts", desk.body("step 1 2 done cid", number), Tcdesk_Countersign=token))
        cases.tell("his token by himself", refused("by is not the name of the login"), bob.post("/acts", body, Tcdesk_Countersign=token))
        cases.tell("his token by cid", refused("by is not the name of the login"), cid.post("/acts", body, Tcdesk_Countersign=token))
        for name, header, want in spoiled(token, none, other):
            cases.tell(f"a token that is {name}", want, ann.post("/acts", body, Tcdesk_Countersign=header))
        cases.tell("a token in the body", none, ann.post("/acts", body[:-1] + f',"Tcdesk-Countersign":"{token}"}}'))
        cases.tell("a token by another header", none, ann.post("/acts", body, X_Tcdesk_Countersign=token))
        cases.tell("nothing was recorded", ["step 1 100 ann done -"], desk.log())
        done = ann.post("/acts", body, Tcdesk_Countersign=token)
        cases.tell("the step with his token", (200, ["step 1 100 ann done -", "step 2 100 ann done bob"]), (done.status, desk.log()))
        cases.tell("the same again", done, ann.post("/acts", body, Tcdesk_Countersign=token))
        escaped = body.replace("bob", "b\\u006fb").replace('"by"', '"b\\u0079"').replace(",", " ,\n").replace("{", '{"by":"bob","x":[{}],')
        cases.tell("the same in another spelling", done, ann.post("/acts", escaped, Tcdesk_Countersign=token))
        cases.tell("the same under a name of the header in capitals", done, ann.post("/acts", body, TCDESK_COUNTERSIGN=token))
        cases.tell("the same without a token", none, ann.post("/acts", body))
        cases.tell("the same with a new token", done, ann.post("/acts", body, Tcdesk_Countersign=signed(bob, body)))
        for name, changed in changes(desk, number):
            cases.tell(f"his token, once it was used, on another post: {name}", other, ann.post("/acts", changed, Tcdesk_Countersign=token))
        cases.tell("and it was recorded once", ["step 1 100 ann done -", "step 2 100 ann done bob"], desk.log())
        cases.tell("a step without a second person", 200, ann.post("/acts", desk.body("step 1 3 done -")).status)
        cases.tell("a step by whom may sign alone", refused("the login has not the role release"), bob.post("/acts", entry(1, "bob", act="step 1 3 done -")))
        at_times(cases, folder, desk)
        secrets(cases, folder, desk)


def changes(desk: Desk, number: int) -> Iterable[tuple[str, str]]:
    """Posts that are another in one thing than the one that was signed."""
    act = "step 1 2 done bob"
    yield "another number", desk.body(act, number + 1)
    yield "another moment", desk.body(act, number, moment=101)
    yield "no moment", desk.body(act, number, moment=None)
    yield "no number", desk.body(act, number).replace(f'"number":{number}', '"x":1')
    yield "a number of another spelling", desk.body(act, number).replace(f'"number":{number}', f'"number":{number}.0')
    yield "a number twice, the other last", desk.body(act, number)[:-1] + f',"number":{number + 1}}}'
    yield "an act twice, the other last", desk.body(act, number)[:-1] + ',"act":"step 1 3 done bob"}'
    for other in ("step 1 1 done bob", "step 1 3 done bob", "step 2 2 done bob", "step 1 2 skipped bob", "step 1 2 failed bob"):
        yield other, desk.body(other, number)


def spoiled(token: str, none: Answer, other: Answer) -> Iterable[tuple[str, str, Answer]]:
    """Headers that are no token of bob's, and what is answered."""
    signer, when, mac = token.split(".")
    for name, header in [("of cid", f"cid.{when}.{mac}"), ("later", f"{signer}.{int(when) + 1}.{mac}"), ("earlier", f"{signer}.{int(when) - 1}.{mac}"),
                         ("of another MAC", f"{signer}.{when}.{mac[1:]}{mac[0]}" if mac[1:] + mac[0] != mac else f"{signer}.{when}.{'0' * 64}"),
                         ("of no MAC", f"{signer}.{when}.{'0' * 64}")]:
        yield name, header, other
    for name, header in [("nothing", ""), ("in capitals", token.upper()), ("cut", token[:-1]), ("longer", token + "0"), ("twice", f"{token}, {token}"),
                         ("quoted", f'"{token}"'), ("without a time", f"{signer}..{mac}"), ("of time 0", f"{signer}.0.{mac}"), ("of a time with a sign", f"{signer}.-{when}.{mac}"),
                         ("of a time with a zero", f"{signer}.0{when}.{mac}"), ("without a signer", f".{when}.{mac}"), ("parted otherwise", token.replace(".", ":")),
                         ("a word", "true")]:
        yield name, header, none


def at_times(cases: Cases, folder: str, desk: Desk) -> None:
    """A token is good for two minutes; that of another secret or site is not."""
    late = refused("the token of bob is not of the last two minutes")
    for name, ago, is_good in [("a second old", 1, True), ("90 seconds old", 90, True), ("122 seconds old", 122, False), ("an hour old", 3600, False),
                               ("3 seconds ahead", -3, True), ("90 seconds ahead", -90, False), ("a year ahead", -31_000_000, False)]:
        body = desk.body("step 9 2 done bob")
        answer = desk.ann.post("/acts", body, Tcdesk_Countersign=forged(folder, "bob", int(time.time()) - ago, canonical(body)))
        cases.tell(f"a token that is {name}", Answer(404, '{"lines":["refused 16 UnknownProcedure"],"more":0,"refusal":16}') if is_good else late, answer)
    body = desk.body("step 9 2 done bob")
    for name, token in [("another secret", forged(folder, "bob", int(time.time()), canonical(body), secret="0" * 64)),
                        ("no secret", forged(folder, "bob", int(time.time()), canonical(body), secret="")),
                        ("another site", forged(folder, "bob", int(time.time()), canonical(body), site="desk.example.net"))]:
        cases.tell(f"a token of {name}", refused("bob has not signed this very post"), desk.ann.post("/acts", body, Tcdesk_Countersign=token))


def canonical(body: str) -> str:
    """A body as the desk is sent it."""
    return json.dumps({key: it for key, it in sorted(json.loads(body).items())}, separators=(",", ":"))


def secrets(cases: Cases, folder: str, desk: Desk) -> None:
    """Without a secret nobody signs, and no token is taken; a new one is so at once."""
    body, path = desk.body("step 1 2 done bob", 3), f"{folder}/tcdesk.secret"
    token, own = signed(desk.bob, body), text_of(path)
    no_secret = refused("the proxy has no secret to sign with")
    for name, text in (("no file", None), ("an empty file", ""), ("a short one", "secret\n")):
        os.remove(path)
        if text is not None:
            write(path, text)
        cases.tell(f"a signature with {name}", no_secret, desk.bob.post("/countersign", body))
        cases.tell(f"a token with {name}", no_secret, desk.ann.post("/acts", body, Tcdesk_Countersign=token))
        cases.tell(f"an act with {name}", 200, desk.ann.post("/acts", entry(1, act="places")).status)
        write(path, "")
    write(path, "1" * 64)
    cases.tell("a token of the old secret", refused("bob has not signed this very post"), desk.ann.post("/acts", body, Tcdesk_Countersign=token))
    write(path, own)
    cases.tell("and of the own", 200, desk.ann.post("/acts", body, Tcdesk_Countersign=token).status)
    cases.tell("the log says so", True, "tcdesk: the proxy has no secret to sign with" in desk.proxy.said())


def signatures(cases: Cases, folder: str) -> None:
    """Who may sign what, from which page; and a lost answer, whose act is sent again with its token."""
    person_files(folder)
    port = free_port()
    with Proxy(folder, "tcdesk-password", port) as proxy:
        with Server(cases.program, folder, "desk.db", None, port=port) as server:
            server.connect().close()
            desk = Desk(proxy)
            body = desk.body("step 1 2 done bob")
            no_post, not_own = refused("this is no post of a step"), refused("the second person of the step is not the login")
            for name, client, want in (("ann, the first", desk.ann, not_own), ("cid, another", desk.cid, not_own)):
                cases.tell(f"{name}, signs for bob", want, client.post("/countersign", body))
            for name, client, changed, want in [
                    ("the first names himself", desk.ann, body.replace("done bob", "done ann"), refused("the second person of the step is the first")),
                    ("nobody is named", desk.bob, body.replace("done bob", "done -"), not_own),
                    ("a look signs", desk.look, body.replace("done bob", "done look"), refused("the login has neither the role approve nor the role release")),
                    ("enter signs", Client(proxy, "enter:secret"), body.replace("done bob", "done enter"), refused("the login has neither the role approve nor the role release")),
                    ("an execution that nobody began", desk.bob, body.replace("1 2", "2 2"), refused("the desk has no such step")),
                    ("a step that there is not", desk.bob, body.replace("1 2", "1 4"), refused("the desk has no such step"))]:
                cases.tell(name, want, client.post("/countersign", changed))
            for text in ("", "x", "[]", "{}", body[:-1], body + body, body.replace("done", "Done"), body.replace("step 1", "step  1"),
                         body.replace("step 1", "step 01"), body.replace("bob\"", "bob \""), body.replace("bob\"", "bob\\n\""), body.replace('"ann"', '"Ann"'),
                         body.replace('"ann"', '["ann"]'), body.replace('"number":3', '"number":0'), body.replace('"number":3', '"number":"3"'),
                         body.replace('"number":3', '"number":3.0'), body.replace('"moment":100', '"moment":-1'), body.replace('"moment":100', '"x":1'),
                         entry(3, act="places"), entry(3, act="approve 1")):
                cases.tell(f"a signature under {text!r}", no_post, desk.bob.post("/countersign", text))
            for name, value in (("Content_Type", "text/plain"), ("Content_Type", FORM), ("Origin", "https://evil.example.org"), ("Origin", "null"), ("Sec_Fetch_Site", "cross-site")):
                cases.tell(f"a signature with {name} {value}", 403, desk.bob.post("/countersign", body, **{name: value}).status)
            for method, path, status in (("PUT", "/countersign", 405), ("DELETE", "/countersign", 405), ("POST", "/countersign?", 404), ("POST", "/countersign/", 404),
                                       ("POST", "/%63ountersign", 404), ("GET", "/countersign?x", 404), ("GET", "/tcdesk-countersign.html", 404)):
                cases.tell(f"{method} {path}", status, desk.bob.ask(method, path, body if method != "GET" else None).status)
            forms(cases, desk, body)
            token = signed(desk.bob, body)
        lost = '{"proxy":"not known: the desk did not answer"}'
        cases.tell("a step, where the desk is stopped", Answer(502, lost), desk.ann.post("/acts", body, Tcdesk_Countersign=token))
        cases.tell("a signature, where the desk is stopped", Answer(502, lost), desk.bob.post("/countersign", body))
        with Server(cases.program, folder, "desk.db", None, port=port) as server:
            server.connect().close()
            first = desk.ann.post("/acts", body, Tcdesk_Countersign=token)
            cases.tell("the same, once the desk is back", (200, "step 2 100 ann done bob"), (first.status, desk.log()[-1]))
            cases.tell("and again", first, desk.ann.post("/acts", body, Tcdesk_Countersign=token))


def forms(cases: Cases, desk: Desk, body: str) -> None:
    """A browser signs by the form of the page, and by no form of another site."""
    page = desk.bob.get("/countersign")
    cases.tell("the page", (200, True, "text/html"), (page.status, '<form method="post" action="/countersign">' in page.text, desk.bob.lines["Content-Type"]))
    cases.tell("the page without a login", 401, Client(desk.proxy).get("/countersign").status)
    text, own = "post=" + quote_plus(body), desk.proxy.origin
    for origin, fetched in ((None, None), ("https://evil.example.org", None), ("null", None), (own, "cross-site"), (own + ".org", None)):
        cases.tell(f"the form of {origin}, {fetched}", 403, desk.bob.post("/countersign", text, Content_Type=FORM, Origin=origin, Sec_Fetch_Site=fetched).status)
    cases.tell("an act by a form", 403, desk.ann.post("/acts", text, Content_Type=FORM, Origin=own).status)
    for spoiled in ("", "post=", "x=" + quote_plus(body), f"{text}&{text}", text + "x", quote_plus(body)):
        cases.tell(f"a form {spoiled[:20]!r} of {len(spoiled)}", 403, desk.bob.post("/countersign", spoiled, Content_Type=FORM, Origin=own).status)
    answer = desk.bob.post("/countersign", text, Content_Type=FORM, Origin=own, Sec_Fetch_Site="same-origin")
    cases.tell("the form of the site", (200, "text/html; charset=utf-8"), (answer.status, desk.bob.lines["Content-Type"]))
    shown = re.findall("<code>(.*?)</code>", answer.text)
    cases.tell("what it shows", ["ann", "step 1 2 done bob", "3", "100"], shown[:4])
    cases.tell("and the step, as a text", True, shown[4].endswith("go &lt;on&gt;") and "<on>" not in answer.text)
    cases.tell("and a token", signed(desk.bob, body).split(".")[0], shown[5].split(".")[0])
