"""The same bodies with a login and without, and which bytes come to the desk.
"""
import json
import os
import re
from typing import Any, Iterable

from generate import http_posts as posts
from generate.http_words import BODY, Case, body_of, numbered, post
from login_asks import NOT_OWN, direct, entry, folder_in
from login_peer import ANN, BOB, Answer, Client, Proxy, StandIn, password_files, reply
from model.http import Number, object_in
from tests.http_cases import Cases
from tests.http_peer import Server



def nested() -> Iterable[Case]:
    """Bodies of lists and objects in each other, well closed or not."""
    for value in ("[1}", '{"a":1]', "[1,]", "[,1]", "[,]", "[1 2]", "[1:2]", '{"a":1,}', '{,"a":1}', '{"a"}', '{"a":}', "{1:2}", '{"a":1 "b":2}', '{"a",1}',
                  "[[1]", "[1]]", "{{}}", "[}", "{]", "[[}]", '{"a":[1}]', '"a":1', "[]", "{}", "[[],[]]", "[{},{}]", '{"a":[],"b":{}}', '[{"by":"bob"}]',
                  '{"a":{"by":"bob"},"by":"bob"}', '[1,{"a":[2,{"b":3}]},4]', "[ ]", "{ }", "[ 1 , 2 ]", "tru", "truee", "nulll", "[true,false,null]",
                  '"\\n\n"', '"\\u0041\x01"', '"\\"\t"', '"\\\\"', '"\\\\\\""', '"\\\\\\"', '"\\n\\x"', '"\\n\\ud83d"'):
        yield Case(f"another key is {value}", post("/acts", '{"x":' + value + "," + BODY[1:]))
        yield Case(f"the last key is {value}", post("/acts", BODY[:-1] + ',"x":' + value + "}"))
        yield Case(f"the person is {value}, and then ann", post("/acts", '{"by":' + value + "," + BODY[1:]))
        yield Case(f"the number is {value}", post("/acts", BODY[:-1] + ',"number":' + value + "}"))
    for body in ('[{"by":1},"ann"]', '[{"by":1},"ann",{"act":1},"places",{"number":1},7,{"moment":1},0]', '[{"by":"ann"},{"by":"ann"}]', '["by","ann"]'):
        yield Case(f"a list {body}", post("/acts", body))


def listed(cases: Cases, folder: str, proxy: Proxy, desk: int) -> None:
    """All bodies of the lists for HTTP: what is not in another's name is answered to ann's login as by a desk without one."""
    made = [*nested()]
    for name in (posts.shapes, posts.keys, posts.values, posts.loads, posts.acts, posts.fly):
        made += name()
    ann, bob, alike = Client(proxy, ANN), Client(proxy, BOB), 0
    os.mkdir(f"{folder}/plain")
    with Server(cases.program, f"{folder}/plain", "desk.db", None) as plain:
        plain.connect().close()
        for case in numbered(made):
            head, body = case.raw.split(b"\r\n\r\n", 1)
            method, path = head.decode().split(" ")[:2]
            by = (object_in(body) or {}).get("by") if method == "POST" and len(body) <= 65536 else "ann"
            if isinstance(by, str) and not isinstance(by, Number) and by != "ann":
                cases.tell(f"{case.name}, by {by!r}", Answer(403, NOT_OWN), ann.post(path, body))
            elif len(body) > 65536:
                cases.tell(case.name, 413, ann.post(path, body).status)
            else:
                alike += 1
                own, more = body if method == "POST" else None, dict[str, str]()
                if own and (second := second_of(own)):
                    cases.tell(f"{case.name}, which {second} has not signed", 403, ann.post(path, own).status)
                    if second == "ann":
                        continue
                    more["Tcdesk_Countersign"] = json.loads(bob.post("/countersign", own).text)["countersign"]
                cases.tell(case.name, direct(plain.port, method, path, own), ann.ask(method, path, own, **more))
        cases.tell("the places behind all lists", direct(plain.port, "GET", "/places"), direct(desk, "GET", "/places"))
    cases.tell("bodies that are answered alike", True, alike > 700)


def second_of(body: bytes) -> str:
    """The second person that the body of a step names; nothing where it names none."""
    found = re.fullmatch("step [0-9]+ [0-9]+ (?:done|skipped|failed) ([a-z0-9]+)", str((object_in(body) or {}).get("act")))
    return found[1] if found else ""


# ---- steps

def steps() -> Iterable[str]:
    """Bodies that name bob as the second person of a step, or nearly do."""
    tail = '"by":"ann","moment":100,"number":@}'
    for act in ("step 1 1 done bob", "step 1 1 done desk", "step 1 1 done a", "step 1 1 done " + "a" * 16, "step 1 1 done " + "a" * 17, "step 1 1 done Bob",
                "step 1 1 done bob ", " step 1 1 done bob", "step  1 1 done bob", "step 1  1 done bob", "step 1 1  done bob", "step 1 1 done  bob", "step\\t1 1 done bob",
                "step 1 1 done\\tbob", "step 1 1 done bob\\n", "step 1 1 done bob\\r", "\\nstep 1 1 done bob", "step 1 1 done bob\\u0000", "step\\u00001 1 done bob",
                "step\\u00a01 1 done bob", "step 1 1 done\\u00a0bob", "step 1 1 done bob - -", "step 1 1 done bob bob", "step 1 1 done bob -", "step 1 1 done - bob",
                "step 1 1 done", "step 1 1 done ", "step 1 1", "step", "step ", "STEP 1 1 done bob", "Step 1 1 done bob", "\\u0073tep 1 1 done bob",
                "step 1 1 done \\u0062ob", "step 01 1 done bob", "step 1 01 done bob", "step +1 1 done bob", "step 1.0 1 done bob", "step -1 1 done bob",
                "step 4294967295 1 done bob", "step 4294967296 1 done bob", "step 4294967297 1 done bob", "step 18446744073709551617 1 done bob",
                "step 1 4294967297 done bob", "step 1 1 DONE bob", "step 1 1 Done bob", "step 1 1 skipped bob", "step 1 1 failed bob", "step 1 1 done b\u043eb",
                "step 1 1 done b\u00f6b", "step 1 1 done b-b", "step 1 1 done --", "step 1 1 done bob" + " " * 200, "step 1 1 done " + "b" * 200,
                "steps 1 1 done bob", "ste 1 1 done bob", "begin warm step 1 1 done bob", "100 ann step 1 1 done bob", "# step 1 1 done bob"):
        yield f'{{"act":"{act}",{tail}'
    for keys in ('"act":"places","act":"step 1 1 done bob"', '"act":"step 1 1 done -","\\u0061ct":"step 1 1 done bob"', '"a\\u0063t":"step 1 1 done bob"',
                 '"x":{"act":"places"},"act":"step 1 1 done bob"', '"act":"step 1 1 done bob","x":"\\",\\"act\\":\\"places"',
                 '"act":["places"],"act":"step 1 1 done bob"', '"ACT":"places","act":"step 1 1 done bob"', '"act":"step 1 1 done bob","__proto__":{"act":"places"}',
                 '"act":"step 1 1 done bob","act ":"places"', '"act":"step 1 1 done bob","act\\u0000":"places"'):
        yield f"{{{keys},{tail}"


def spelled(cases: Cases, folder: str) -> None:
    """What a desk without a login would record of a second person, or refuse once it was read, does not come through the login without a token."""
    password_files(folder)
    with Server(cases.program, folder, "desk.db", None) as server, Proxy(folder, "tcdesk-password", server.port) as proxy:
        ann, named = Client(proxy, ANN), 0
        load = post_of("/procedures", {"csv": "step,text,second,request\n" + "".join(f"{it},look,no,\n" for it in range(1, 101)), "name": "warm"})
        cases.tell("a procedure", 200, ann.post(*load).status)
        for at, made in enumerate(steps()):
            # a desk of its own reads each of them where step 1 comes next
            cases.tell("an execution", 200, ann.post(*post_of("/acts", {"act": "begin warm"}, 2 * at + 2)).status)
            body = made.replace("@", str(2 * at + 3)).replace("step 1 1", f"step {at + 1} 1")
            came = ann.post("/acts", body)
            plain = direct(server.port, "POST", "/acts", body)
            is_read = plain.status not in (400, 413)
            named += is_read
            cases.tell(f"{body!r:.160}, which the desk answers {plain.text}", True, came.status == 403 if is_read else came.status in (400, 403, 413))
            recorded = [it for it in lines_of(ann.post(*post_of("/acts", {"act": f"log {at + 1}"}, 4000000000))) if it.startswith("step ")]
            cases.tell(f"whom the desk names by itself, {body!r:.160}", plain.status == 200, recorded != [])
        cases.tell("some of them name a second person", True, named > 12)


def lines_of(answer: Answer) -> list[str]:
    """The lines of an answer."""
    found: list[str] = json.loads(answer.text)["lines"]
    return found


def post_of(path: str, keys: dict[str, Any], number: int = 1) -> tuple[str, str]:
    """The path and the body of a post of ann's."""
    return path, body_of({"by": "ann", "moment": 100, "number": number, **keys})


# ---- what comes to the desk

def sent(cases: Cases, folder: str) -> None:
    """Which bytes come to the desk."""
    stand, files = StandIn(reply(b"{}")), folder_in(folder, "sent")
    password_files(files)
    with Proxy(files, "tcdesk-password", stand.port) as proxy:
        ann = Client(proxy, ANN)
        for came, wanted in spellings():
            cases.tell(f"the answer to {came:.200}", Answer(200, "{}"), ann.post("/acts", came))
            head = f"POST /acts HTTP/1.1\r\nHost: 127.0.0.1\r\nContent-Length: {len(wanted.encode())}\r\nConnection: close\r\n\r\n"
            cases.tell(f"what comes to the desk of {came:.200}", same(head + wanted), same(stand.came[-1].decode()))
        cases.tell("a question", Answer(200, "{}"), ann.ask("GET", "/report/0/1", entry(1), Cookie="x", Expect=None, Origin="https://evil.example.org"))
        cases.tell("what comes to the desk of a question", same("GET /report/0/1 HTTP/1.1\r\nHost: 127.0.0.1\r\nConnection: close\r\n\r\n"),
                   same(stand.came[-1].decode()))
        ann.ask("POST", "/places", entry(1))
        cases.tell("what comes to the desk of a POST elsewhere", same("POST /places HTTP/1.1\r\nHost: 127.0.0.1\r\nConnection: close\r\n\r\n"),
                   same(stand.came[-1].decode()))


def same(request: str) -> tuple[str, list[str], str]:
    """A request, with its header lines in order."""
    head, body = request.split("\r\n\r\n", 1)
    first, *lines = head.split("\r\n")
    return first, sorted(lines), body


def spellings() -> Iterable[tuple[str, str]]:
    """Bodies of ann's, and how each is written anew."""
    for digits in ("1", "4294967295", "4294967296", "9007199254740993", "18446744073709551615", "18446744073709551616", "9" * 308, "0", "-0", "7.0",
                   "1e2", "1E+2", "-1", "4294967295.0000000001", "4294967294.9999999999", "1e-400", "1.7976931348623157e308"):
        yield f'{{"by":"ann","number":{digits},"moment":{digits}}}', f'{{"by":"ann","moment":{digits},"number":{digits}}}'
    for came, wanted in [
            (' {\r\n\t"by" : "ann" , "number" : 1 }\n', '{"by":"ann","number":1}'), ('{"by":"bob","by":"ann"}', '{"by":"ann"}'),
            ('{"b\\u0079":"\\u0061nn","BY":"bob","x":[{"by":"bob"}],"__proto__":{"by":"bob"}}', '{"by":"ann"}'),
            ('{"by":"ann","act":"\\u00e9\\ud83d\\ude00\\/\\b\\f\\n\\r\\t\\u0000\\u001f\\"\\\\ \x7f\u2028"}',
             '{"act":"é😀/\\b\\f\\n\\r\\t\\u0000\\u001f\\"\\\\ \x7f\u2028","by":"ann"}'),
            ('{"by":"ann","number":"7","moment":null,"act":["x"]}', '{"act":null,"by":"ann","moment":null,"number":"7"}'),
            ('{"by":"ann","number":7,"number":true,"moment":{"number":8}}', '{"by":"ann","moment":null,"number":true}')]:
        yield came, wanted
