"""The posts that a server is sent, in lists: bodies of all kinds, acts that meet every refusal, loads, and replies that are longer than a
response.
"""
import json
from typing import Any, Callable, Iterator

from generate.http_words import BODY, ENTRY, OWN, Case, act, entry, get, load, post
from model.facts import MOST_ROWS, MOST_STEPS, PROCEDURE_HEADER, STACK_HEADER
from model.http import NO_PATH


def rows(count: int, apid: int = 7) -> str:
    """A stack of so many rows."""
    return "\n".join([STACK_HEADER] + [f"{at},{apid},8,1,,,a--c,no,,ok" for at in range(1, count + 1)]) + "\n"


def steps(count: int) -> str:
    """A procedure of so many steps."""
    return "\n".join([PROCEDURE_HEADER] + [f"{at},look,no," for at in range(1, count + 1)]) + "\n"


# ---- bodies

def shapes() -> Iterator[Case]:
    """Bodies that are, or are not, an object of JSON with the keys of an act."""
    tail = BODY[1:]
    for name, body, want in [
            ("spaces between all tokens", BODY.replace(",", " , ").replace('":', '" : ').replace("{", " { ").replace("}", " } "), 0),
            ("line ends and tabs between tokens", "\r\n\t" + BODY.replace(",", ",\r\n\t") + "\n", 0),
            ("keys in another order", f'{{"moment":100,"number":{OWN},"by":"ann","act":"places"}}', 0),
            ("other keys", '{"numbers":7,"x":[1,{"act":null}],"":"",' + tail, 0),
            ("an escaped key", BODY.replace('"act"', '"\\u0061c\\u0074"'), 0), ("an escaped person", BODY.replace('"ann"', '"\\u0061nn"'), 0),
            ("an escaped act", BODY.replace("- ok", "\\u002D o\\u006b"), 0),
            ("an escaped slash", entry(act="enter 5 a--c no 8 1 - - ok/3").replace("ok/3", "ok\\/3"), 0),
            ("nothing", "", 1), ("spaces", "  \r\n", 1), ("an open brace", "{", 1), ("a closed brace", "}", 1), ("an empty object", "{}", 1),
            ("no end", BODY[:-1], 1), ("two ends", BODY + "}", 1), ("two objects", BODY + BODY, 1), ("a word behind it", BODY + " x", 1),
            ("a comma behind it", BODY + ",", 1),
            ("NUL behind it", BODY + "\x00", 1), ("a comma before the end", BODY[:-1] + ",}", 1), ("a comma at the front", "{," + tail, 1),
            ("two commas", BODY.replace(",", ",,", 1), 1),
            ("no comma", BODY.replace(',"by"', ' "by"'), 1), ("no colon", BODY.replace(":", " ", 1), 1), ("single quotes", BODY.replace('"', "'"), 1),
            ("keys without quotes", '{act:"places",by:"ann",moment:100,number:7}', 1), ("a comment", "/* x */" + BODY, 1),
            ("a comment behind it", BODY + "// x", 1),
            ("a mark at the front", "\ufeff" + BODY, 1), ("a vertical tab", "\v" + BODY, 1), ("a form feed", "\f" + BODY, 1),
            ("a hard space", "\xa0" + BODY, 1),
            ("an array", f"[{BODY}]", 1), ("an empty array", "[]", 1), ("a text", json.dumps(BODY), 1), ("a number", "100", 1), ("null", "null", 1),
            ("true", "true", 1),
            ("a word", "nul", 1), ("NaN", "NaN", 1), ("a form", "act=places&by=ann&moment=100&number=7", 1), ("the act alone", ENTRY, 1),
            ("an object in an object", '{"body":' + BODY + "}", 1), ("keys in capitals", BODY.replace("act", "Act").replace('"by', '"By'), 1)]:
        yield Case(f"a body: {name}", post("/acts", body), want)
    yield from other_values()
    yield from bad_bytes()


def other_values() -> Iterator[Case]:
    """Values of JSON, and what is none, for a key that is not looked at, and for one that is named again."""
    tail = BODY[1:]
    for name, text, want in [
            ("null", "null", 0), ("NaN", "NaN", 1), ("Infinity", "Infinity", 1), ("minus Infinity", "-Infinity", 1), ("True", "True", 1),
            ("a huge number", "1e400", 1),
            ("a huge negative number", "-1e400", 1), ("a large number", "1e308", 0), ("a tiny number", "1e-400", 0), ("309 digits", "9" * 309, 1),
            ("308 digits", "9" * 308, 0),
            ("a leading zero", "01", 1), ("a sign", "+1", 1), ("no digit behind the point", "1.", 1), ("no digit before the point", ".5", 1),
            ("no digit of an exponent", "1e", 1),
            ("a sign alone", "-", 1), ("hexadecimal digits", "0x1", 1), ("an open array", "[", 1), ("an open text", '"', 1),
            ("a line end in a text", '"\n"', 1), ("a tab in a text", '"\t"', 1),
            ("NUL in a text", '"\x00"', 1), ("byte 1f in a text", '"\x1f"', 1), ("byte 7f in a text", '"\x7f"', 0),
            ("an escape that is none", '"\\x"', 1), ("an escaped quote", '"\\""', 0),
            ("all short escapes", '"\\"\\\\\\/\\b\\f\\n\\r\\t"', 0), ("a short hexadecimal escape", '"\\u12"', 1),
            ("a bad hexadecimal escape", '"\\u12g4"', 1),
            ("an escaped NUL", '"\\u0000"', 0), ("half a pair", '"\\ud83d"', 1), ("the other half", '"\\ude00"', 1),
            ("a turned pair", '"\\ude00\\ud83d"', 1),
            ("half a pair and more", '"\\ud83dx"', 1), ("two first halves", '"\\ud83d\\ud83d"', 1), ("a pair", '"\\ud83d\\ude00"', 0),
            ("letters of other tongues", '"é١😀"', 0),
            ("124 arrays", "[" * 124 + "]" * 124, 0), ("126 arrays", "[" * 126 + "]" * 126, 0), ("127 arrays", "[" * 127 + "]" * 127, 1),
            ("128 arrays", "[" * 128 + "]" * 128, 1),
            ("126 objects", '{"a":' * 126 + "1" + "}" * 126, 0), ("127 objects", '{"a":' * 127 + "1" + "}" * 127, 1),
            ("2,000 arrays", "[" * 2000 + "]" * 2000, 1),
            ("60,000 open arrays", "[" * 60000, 1), ("30,000 arrays", "[" * 30000 + "]" * 30000, 1),
            ("a list of 20,000", "[" + "1," * 20000 + "1]", 0)]:
        yield Case(f"another key is {name}", post("/acts", '{"x":' + text + "," + tail), want)
    for name, text in [("half a pair", '"\\ud83d"'), ("a huge number", "1e400"), ("127 arrays", "[" * 127 + "]" * 127), ("no JSON", "NaN")]:
        yield Case(f"a key that is named again is {name}", post("/acts", '{"moment":' + text + "," + tail), 1)


def bad_bytes() -> Iterator[Case]:
    """Bytes that are not UTF-8, in a text, in a key and behind the body."""
    body = BODY.encode()
    for name, raw in [
            ("byte ff", b"\xff"), ("a byte of more to come", b"\xc3"), ("a byte that goes on", b"\x80"), ("too long a form", b"\xc0\x80"),
            ("half a pair", b"\xed\xa0\x80"),
            ("past the last character", b"\xf4\x90\x80\x80"), ("a character that is cut", b"\xf0\x9f\x98")]:
        yield Case(f"in the act {name}", post("/acts", body.replace(b"- ok", raw)), 1)
        yield Case(f"in another key {name}", post("/acts", b'{"x' + raw + b'":1,' + body[1:]), 1)
        yield Case(f"behind it {name}", post("/acts", body + raw), 1)
    yield Case("a body in two bytes a letter", post("/acts", BODY.encode("utf-16")), 1)


def keys() -> Iterator[Case]:
    """Keys that lack, come twice, or are of another kind, for all three kinds of a post."""
    csv, plan = rows(1, apid=8), steps(1)
    posts: dict[str, dict[str, Any]] = {
             "/acts": {"act": ENTRY, "by": "ann", "moment": 100, "number": OWN},
             "/stacks": {"by": "ann", "csv": csv, "moment": 100, "name": "k1", "number": OWN},
             "/procedures": {"by": "ann", "csv": plan, "moment": 100, "name": "k1", "number": OWN}}
    others: dict[str, Any] = {"null": None, "true": True, "a list": ["ann"], "an object": {"a": 1}, "an empty list": []}
    for path, values in posts.items():
        for key in values:
            lacking = {it: value for it, value in values.items() if it != key}
            yield Case(f"{path} lacks {key}", post(path, json.dumps(lacking)), 1)
            wrong: dict[str, Any] = {**others, "a text": "100"} if key in ("moment", "number") else {**others, "a number": 5}
            for name, value in wrong.items():
                yield Case(f"{path}: {key} is {name}", post(path, json.dumps({**values, key: value})), 1)
                yield Case(f"{path}: {key} comes twice, the last {name}", post(path, json.dumps(values)[:-1] + f',"{key}":{json.dumps(value)}}}'), 1)
        yield Case(f"{path} has no key", post(path, "{}"), 1)
    for path, other in (("/stacks", "/acts"), ("/procedures", "/acts"), ("/acts", "/stacks"), ("/acts", "/procedures")):
        yield Case(f"{path} is given what belongs to {other}", post(path, json.dumps(posts[other])), 1)
    for first, want in (('"act":5', 0), ('"by":null', 0), ('"moment":"x"', 0), ('"by":"desk"', 0), ('"by":"bob"', 0), ('"moment":-1', 0),
                        ('"moment":4102444800', 0), ('"number":0', 0), ('"number":null', 0), ('"number":7', 0),
                        ('"act":"withdraw 1"', 0), (f'"act":"{"x" * 300}"', 0), ('"by":[]', 0)):
        yield Case(f"named twice, first {first[:20]}", post("/acts", "{" + first + "," + BODY[1:]), want)
    for last, want in (('"by":"desk"', 1), ('"by":"bob"', 0), ('"moment":-1', 1), ('"moment":101', 0), ('"act":"withdraw 0"', 2),
                       (f'"act":"{"x" * 300}"', 17), ('"b\\u0079":"eve"', 0), ('"number":0', 1), ('"number":7', 0),
                       ('"n\\u0075mber":4294967296', 1)):
        yield Case(f"named twice, last {last[:20]}", post("/acts", BODY[:-1] + "," + last + "}"), want)


LONG = "x" * 201


def values() -> Iterator[Case]:
    """Persons, moments and acts at their limits, and which test comes first."""
    yield from moments()
    yield from persons()
    yield from texts_of_acts()


def moments() -> Iterator[Case]:
    """Moments at their limits, and in other spellings."""
    for number, want in [
            ("0", 0), ("1", 0), ("4102444799", 0), ("4102444800", 1), ("4294967296", 1), ("18446744073709551615", 1), ("18446744073709551616", 1),
            ("9" * 40, 1), ("-1", 1), ("-0", 1),
            ("0.0", 1), ("100.0", 1), ("100.5", 1), ("1e2", 1), ("1E2", 1), ("100e0", 1), ("1e-400", 1), ("-100", 1), ("-9223372036854775808", 1),
            ("-9223372036854775809", 1), ("1e308", 1)]:
        yield Case(f"the moment {number[:30]}", post("/acts", BODY.replace("100", number)), want)
        yield Case(f"the moment {number[:30]} and a long act", post("/acts", entry(act=LONG).replace("100", number)), 17)
        stack = json.dumps({"by": "ann", "csv": rows(201), "moment": 1, "name": "m", "number": OWN}).replace('"moment": 1', f'"moment": {number}')
        yield Case(f"the moment {number[:30]} of a stack of 201 rows", post("/stacks", stack), 17)
    for number in ("1e400", "01", "+1", "NaN", "1.", '"1"', "null", ""):
        yield Case(f"no number for a moment, and a long act: {number}", post("/acts", entry(act=LONG).replace("100", number)), 1)


def persons() -> Iterator[Case]:
    """Persons, and what is none."""
    for name in ("", "desk", "Ann", "ann ", " ann", "a nn", "ann\n", "a-b", "a_b", "änn", "a" * 17, "ann\x00", "-", "ＡＮＮ", "١"):
        yield Case(f"the person {name!r}", post("/acts", entry(by=name)), 1)
        yield Case(f"the person {name!r} and a long act", post("/acts", entry(by=name, act=LONG)), 1)
        yield Case(f"the person {name!r} and a question", post("/acts", entry(by=name, act="places")), 1)
        yield Case(f"the person {name!r} of a stack", load("stack", "p1", rows(1), by=name), 1)
        yield Case(f"the person {name!r} of 201 rows", load("stack", "p1", rows(201), by=name), 1)
    for name in ("a", "0", "9z", "a" * 16, "desk1", "des"):
        yield Case(f"the person {name!r}", post("/acts", entry(by=name)), 0)


def texts_of_acts() -> Iterator[Case]:
    """Acts at the limit of their length, with letters of several bytes, and texts that are no acts."""
    for text, want in [
            ("x" * 200, 1), (LONG, 17), ("x" * 60000, 17), ("é" * 100, 1), ("é" * 101, 17), ("😀" * 50, 1), ("😀" * 51, 17), (" " * 200, 1),
            (" " * 201, 17), ("\n" * 200, 1),
            ("\n" * 201, 17), ("\x00" * 200, 1), ("\x00" * 201, 17), (ENTRY + " " * 174, 1), (ENTRY + " " * 175, 17), ("", 1), (" ", 1),
            (" " + ENTRY, 1), (ENTRY + " ", 1),
            (ENTRY + "\n", 1), (ENTRY + "\r", 1), (ENTRY.replace(" ", "  ", 1), 1), (ENTRY.replace(" ", "\t", 1), 1), (ENTRY.upper(), 1),
            ("enter", 1), ("#", 1), ("# " + ENTRY, 1),
            (f"100 ann {ENTRY}", 1), (f"{ENTRY}\n{ENTRY}", 1), ("stack s1 two.csv", 1), ("procedure p1 two.csv", 1), ("stack s1 /etc/passwd", 1),
            ("stack", 1),
            ("enter 05 a--c no 8 1 - - ok", 1), ("enter 2047 a--c no 8 1 - - ok", 0), ("enter 2048 a--c no 8 1 - - ok", 1),
            ("withdraw 4294967296", 1), ("withdraw 4294967295", 2),
            ("places", 0), ("link", 0), ("schedule", 0), ("history 1 0", 0), ("request 1", 0), ("log 1", 16), ("report 0 9", 0), ("places ", 1),
            ("history 1", 1), ("report 9 4102444800", 1), ("waiting", 0), ("waiting 1", 1), ("urgent 1", 0), ("urgent", 1), ("moves 0", 0), ("moves", 1), ("standing Entered 0", 0),
            ("standing entered 0", 1), ("standing Entered", 1), ("steps p1", 16), ("steps P1", 1), ("steps", 1)]:
        yield Case(f"the act {text[:30]!r} of {len(text.encode())} bytes", act(text), want)
    yield Case("a long act of a bad person at a bad moment", post("/acts", entry(act=LONG, by="desk", moment=-1)), 1)
    yield Case("a long act that lacks its person", post("/acts", entry(act=LONG, by=None)), 1)
    yield Case("a long act, spelled by escapes", post("/acts", BODY.replace(ENTRY, "\\u0041" * 201)), 17)
    yield Case("an act of 200 bytes, spelled by escapes", post("/acts", BODY.replace(ENTRY, "\\u0041" * 200)), 1)
    yield Case("101 letters of two bytes, spelled by escapes", post("/acts", BODY.replace(ENTRY, "\\u00e9" * 101)), 17)


# ---- loads

# What is wrong with a load besides its text, and what is wanted where the text is too long.
BESIDES: list[tuple[str, dict[str, Any], int]] = [
    ("alone", {}, 17), ("a bad name", {"name": "No"}, 17), ("no name", {"name": ""}, 17), ("a long name", {"name": "a" * 17}, 17),
    ("a bad moment", {"moment": -1}, 17),
    ("a late moment", {"moment": 4102444800}, 17), ("half a moment", {"moment": 0.5}, 17),
    ("both bad", {"moment": -1, "name": "No"}, 17), ("a bad person", {"by": "No"}, 1),
    ("the desk", {"by": "desk"}, 1), ("a name of another kind", {"name": 5}, 1), ("a moment of another kind", {"moment": "5"}, 1),
    ("a name that lacks", {"name": None}, 1), ("a bad number", {"number": 0}, 1), ("a number that lacks", {"number": None}, 1)]


def long_loads(kind: str, make: Callable[[int], str], most: int) -> Iterator[Case]:
    """Loads of as many rows as may be, and of more, which are refused for that before their other faults."""
    long = make(most + 1)
    ragged = make(most + 1).replace(",no,", ",", 3)
    yield Case(f"a {kind} of {most} rows", load(kind, "most", make(most)), 0)
    yield Case(f"a {kind} of a name that is used", load(kind, "most", make(1)), 9)
    yield Case(f"a {kind} that is too long, of a name that is used", load(kind, "most", long), 17)
    for name, keys_, want in BESIDES:
        for what, csv in (("rows too many", long), ("a bad header and rows too many", long.replace(",", ";")), ("unequal rows too many", ragged)):
            yield Case(f"a {kind}, {what}, and {name}", load(kind, **{"name": "x1", "csv": csv, **keys_}), want)
        yield Case(f"a {kind} of one row, and {name}", load(kind, **{"name": f"n{most}", "csv": make(1), **keys_}), 1 if keys_ else 0)
        yield Case(f"a {kind} of no row, and {name}", load(kind, **{"name": "x2", "csv": make(0), **keys_}), 1)
    for name, want in (("a" * 16, 0), ("0", 0), ("desk", 0), ("a-b", 1), ("a b", 1), ("é", 1), ("A", 1), ("a\n", 1)):
        yield Case(f"a {kind} of the name {name!r}", load(kind, name, make(1)), want)


def spelled_loads(kind: str, text: str) -> Iterator[Case]:
    """Loads of this text in its spellings, and of what is none; and bodies at their limit."""
    for name, csv, want in [
            ("CR LF", text.replace("\n", "\r\n"), 0), ("CR", text.replace("\n", "\r"), 0), ("no last line end", text[:-1], 0),
            ("empty lines", "\n\n" + text.replace("\n", "\n\n"), 0),
            ("a mark at the front", "\ufeff" + text, 0), ("two marks", "\ufeff\ufeff" + text, 1),
            ("quotes", '"' + text.replace(",", '","').replace("\n", '"\n"')[:-1], 0),
            ("nothing", "", 1), ("a header alone", text.split("\n", maxsplit=1)[0], 1),
            ("another header", text.replace("l", "L", 1).replace("s", "S", 1), 1), ("spaces", " " + text, 1),
            ("a column more", text.replace("\n", ",x\n"), 1), ("a column less", text.replace(",", "", 1), 1),
            ("line 2 first", text.replace("\n1,", "\n2,"), 1),
            ("letters of other tongues", text.replace("1,", "é,", 1), 1), ("NUL", text + "\x00", 1), ("many spaces", text + " " * 50000, 1),
            ("many empty lines", text + "\n" * 20000, 0)]:
        yield Case(f"a {kind} with {name}", load(kind, f"{kind[0]}{name.replace(' ', '')[:12].lower()}", csv), want)
    yield Case(f"a {kind}, its act beside it", load(kind, f"{kind[0]}act", text, act="withdraw 1"), 0)
    spare = 65536 - len(load(kind, "large", text, x="").split(b"\r\n\r\n", 1)[1])
    yield Case(f"a {kind} in a body of 65,536 bytes", load(kind, "large", text, x="x" * spare), 0)
    yield Case(f"a {kind} in a body of 65,537 bytes", load(kind, "larger", text, x="x" * (spare + 1)), 17)


def loads() -> Iterator[Case]:
    """Stacks and procedures: which test comes first, and what is loaded."""
    makes: list[tuple[str, Callable[[int], str], int]] = [("stack", rows, MOST_ROWS), ("procedure", steps, MOST_STEPS)]
    for kind, make, most in makes:
        yield from long_loads(kind, make, most)
        yield from spelled_loads(kind, make(1))
    yield Case("a stack with a target of service 11", load("stack", "t1", rows(1) + "2,7,11,5,1,,---c,no,,ok\n3,7,11,5,2,,---c,no,,ok\n"), 19)
    yield Case("a stack with a target on a later line", load("stack", "t2", f"{STACK_HEADER}\n1,7,11,5,2,,---c,no,,ok\n2,7,8,1,,,a--c,no,,ok\n"), 1)
    yield Case("a procedure of a request that nobody entered", load("procedure", "r1", steps(1) + "2,go,no,60000\n"), 2)
    yield Case("approval of 200 rows", act("approvestack most", by="bob"), 0)
    yield Case("a report of more than 200 lines", get("/report/0/4102444799"), 0)
    yield Case("a procedure of 100 steps", get("/procedures/most"), 0)
    yield from waits()
    yield Case("the same, by a post", act("report 0 4102444799"), 0)
    yield Case("a report at another route", get("/reports/0/4102444799"), NO_PATH)


def waits() -> Iterator[Case]:
    """More than 200 lines of what waits, which is cut as each reply is; and moves behind some of their numbers, and pages of what is urgent."""
    for at in range(3):
        yield Case(f"the stack {at} of 99 rows", load("stack", f"w{at}", rows(99, apid=20 + at)), 0)
        yield Case(f"its approval {at}", act(f"approvestack w{at}", "bob"), 0)
        yield Case(f"what waits then, {at}", get("/waiting"), 0)
    for after in (0, 1, 199, 200, 400, 500, 4294967295):
        yield Case(f"the moves behind {after}", get(f"/moves/{after}"), 0)
    for begin in (0, 1, 2, 50, 51, 4294967295):
        yield Case(f"what is urgent from line {begin} on", get(f"/urgent/{begin}"), 0)


# ---- acts

def acts() -> Iterator[Case]:
    """Acts that meet each refusal that a small desk has."""
    two = f"{STACK_HEADER}\n1,6,8,1,,,---c,no,,ok\n2,6,8,2,,,---c,no,1,ok\n"
    plan = f"{PROCEDURE_HEADER}\n1,look,no,\n2,go,yes,1\n"
    for by, text, want in [
            ("ann", ENTRY, 0), ("ann", "enter 5 ---c no 11 4 1 1060 ok", 0), ("ann", "enter 5 ---c no 11 5 2 - ok", 19),
            ("ann", "enter 5 ---c no 11 5 77 - ok", 2),
            ("ann", "enter 5 ---- yes 8 1 - - ok", 0), ("ann", "approve 1", 5), ("bob", "approve 9", 2), ("bob", "approve 1", 0),
            ("cid", "approve 1", 3), ("bob", "approve 3", 0),
            ("bob", "approve 3", 6), ("cid", "approve 3", 0), ("ann", "release 1", 11), ("ann", "release 9", 2), ("ann", ENTRY, 0),
            ("ann", "release 4", 4),
            ("ann", "enter 5 ---c no 11 4 4 1060 ok", 0), ("bob", "approve 5", 0), ("ann", "initiate none", 0), ("ann", "initiate none", 12),
            ("ann", "set vs 3", 12),
            ("ann", "release 5", 19), ("ann", "withdraw 4", 0), ("ann", "withdraw 4", 3), ("ann", "release 4", 3), ("ann", "close 4", 3),
            ("ann", "close 88", 2), ("ann", "set k 0", 1),
            ("ann", "set k 1", 0), ("ann", "set k 256", 1), ("bob", "request 1", 0), ("bob", "link", 0), ("bob", "schedule", 0),
            ("ann", "release 3", 0), ("ann", "release 1", 0),
            ("ann", ENTRY, 0), ("bob", "approve 6", 0), ("ann", "release 6", 10), ("ann", "link", 0), ("ann", "clcw", 0), ("ann", "tick", 0),
            ("ann", "history 1 0", 0),
            ("ann", "approvestack none", 13), ("ann", "begin none", 16), ("ann", "log 1", 16), ("ann", "step 1 1 done -", 16),
            ("ann", "step 1 1 Done -", 1), ("ann", "step 0 0 done -", 16)]:
        yield Case(f"{by} {text}", act(text, by), want)
    yield Case("ann loads a stack", load("stack", "s1", two), 0)
    yield Case("ann loads it again", load("stack", "s1", two), 9)
    yield Case("a procedure of the name of a stack", get("/procedures/s1"), 16)
    yield Case("ann loads a procedure of that name", load("procedure", "s1", plan), 0)
    yield Case("its steps", get("/procedures/s1"), 0)
    yield Case("what waits for approval", get("/waiting"), 0)
    yield Case("what is urgent", get("/urgent/1"), 0)
    yield Case("ann loads it again", load("procedure", "s1", plan), 9)
    for by, text, want in [
            ("bob", "approve 7", 13), ("ann", "approvestack s1", 5), ("bob", "approvestack s1", 0), ("bob", "approvestack s1", 6),
            ("ann", "release 8", 7), ("ann", "begin s1", 0),
            ("ann", "step 1 2 done bob", 14), ("ann", "step 1 1 done -", 0), ("ann", "step 1 2 done -", 15), ("ann", "step 1 2 done ann", 15),
            ("ann", "step 1 2 done bob", 3),
            ("ann", "step 1 2 skipped bob", 0), ("ann", "step 1 2 done bob", 14), ("ann", "log 1", 0), ("ann", "terminate", 0), ("ann", "link", 0),
            ("ann", "history 3 0", 0),
            ("ann", "report 0 4102444799", 0), ("ann", "places", 0), ("ann", "waiting", 0), ("ann", "moves 3", 0), ("ann", "steps s1", 0),
            ("ann", "standing Approved 0", 0), ("ann", "standing Riding 1", 0),
            # lists: requests 1, 4 and 6 may be named, 3 asks for no acceptance, and 2 is a command of the schedule
            ("ann", "enter 5 ---c no 11 4 1;6 1060;1061 ok", 0), ("bob", "request 9", 0), ("ann", "enter 5 ---c no 11 4 1;6 1060 ok", 1),
            ("ann", "enter 5 ---c no 11 4 1; 1060;1060 ok", 1), ("ann", "enter 5 ---c no 11 4 1;1 1060;1060 ok", 19),
            ("ann", "enter 5 ---c no 11 4 1;2 1060;1060 ok", 19), ("ann", "enter 5 ---c no 11 4 1;3 1060;1060 ok", 19),
            ("ann", "enter 5 ---c no 11 4 2;77 1060;1060 ok", 2), ("ann", "enter 5 ---c no 11 4 1;1;77 1060;1060;1060 ok", 2),
            ("ann", "enter 5 ---c no 11 4 1;2;3;4;5;6;7;8;9 1;1;1;1;1;1;1;1;1 ok", 1), ("ann", "enter 5 ---c no 11 5 1;6 - ok", 1)]:
        yield Case(f"{by} {text}", act(text, by), want)
    lists = f"{STACK_HEADER}\n1,6,8,1,,,a--c,no,,ok\n2,6,8,2,,,a--c,no,,ok\n3,6,11,4,{{}},1970-01-01T00:20:00Z;1970-01-01T00:21:00Z,---c,no,,ok\n"
    for name, named, want in (("two", "2;1", 0), ("one", "1", 1), ("twice", "1;1", 19), ("itself", "1;3", 1), ("spaced", "1; 2", 1)):
        yield Case(f"ann loads a stack whose insert names {named!r}", load("stack", name, lists.format(named)), want)


def fly() -> Iterator[Case]:
    """A request flies to its end, an insert with its activity, and one with two."""
    for by, text, want in [
            ("ann", "clock 1000", 0), ("ann", "clock 5", 12), ("ann", ENTRY, 0), ("ann", "enter 5 ---c no 11 4 1 1060 ok", 0),
            ("bob", "approve 1", 0), ("bob", "approve 2", 0),
            ("ann", "initiate none", 0), ("ann", "release 2", 0), ("ann", "up", 0), ("ann", "work", 0), ("ann", "clcw", 0), ("ann", "down", 0),
            ("ann", "down", 0), ("ann", "down", 0),
            ("ann", "schedule", 0), ("ann", "loseup 0", 0), ("ann", "losedown 7", 0), ("ann", "clock 2000", 0), ("ann", "down", 0),
            ("ann", "link", 0), ("ann", "initiate setvr 256", 1),
            # two more, by a list
            ("ann", ENTRY, 0), ("ann", ENTRY, 0), ("ann", "enter 5 ---c no 11 4 4;3 2100;2200 ok", 0), ("bob", "approve 3", 0), ("bob", "approve 4", 0),
            ("bob", "approve 5", 0), ("ann", "release 5", 0), ("ann", "release 3", 3), ("ann", "up", 0), ("ann", "work", 0), ("ann", "down", 0),
            ("ann", "schedule", 0), ("ann", "clock 2150", 0), ("ann", "down", 0), ("ann", "clcw", 0), ("ann", "down", 0), ("ann", "schedule", 0),
            ("ann", "request 5", 0), ("ann", "places", 0)]:
        yield Case(f"{by} {text}", act(text, by), want)
