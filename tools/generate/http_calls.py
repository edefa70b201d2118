"""Posts under the numbers of their callers, in lists: how a number is spelled, which test comes first, and what comes twice."""
import json
from typing import Iterator, Union

from generate.http_posts import LONG, rows, steps
from generate.http_words import ENTRY, Case, act, body_of, get, load, post
from model.facts import LAST_NUMBER, MOST_ROWS

# Numbers as JSON spells them, and what is wanted of a call under each.
SPELLINGS = [
    ("1", 0), ("7", 0), ("4294967295", 0), ("0", 1), ("4294967296", 1), ("18446744073709551615", 1), ("18446744073709551616", 1), ("9" * 40, 1), ("-0", 1),
    ("-1", 1), ("-4294967295", 1), ("-9223372036854775809", 1), ("1.0", 1), ("7.5", 1), ("0.0", 1), ("1e0", 1), ("1E0", 1), ("10e-1", 1), ("1e2", 1),
    ("1e-400", 1), ("1e308", 1)]
# What is no number, or no JSON at all.
OTHERS = ['"7"', '""', "null", "true", "false", "[7]", "[]", '{"number":7}', "01", "00", "+7", "7.", ".7", "0x7", "7e", "NaN", "1e400", "seven", ""]
KINDS = {"/acts": {"act": ENTRY}, "/stacks": {"csv": rows(1, apid=9)}, "/procedures": {"csv": steps(1)}}


def called(path: str, by: str, number: str, key: str = "number", **keys: object) -> bytes:
    """A POST to a path of what it takes, by a person, with a number that is spelled so at this key."""
    named = {} if path == "/acts" else {"name": f"c{by}"}
    body = body_of({**KINDS[path], "by": by, "moment": 100, **named, **keys})
    return post(path, f'{body[:-1]},"{key}":{number}}}')


def forms() -> Iterator[Case]:
    """The key `number` on each route, by persons of its own: its limits, its other spellings, what is none; named twice; and which test comes first."""
    for path in KINDS:
        first = path[1]
        for at, (number, want) in enumerate(SPELLINGS):
            yield Case(f"{path} under {number[:24]}", called(path, f"{first}{at}", number), want)
        for number in OTHERS:
            yield Case(f"{path} under {number}", called(path, first, number), 1)
        for one, other, want in (("7", "8", 0), ("0", "9", 0), ("-1", "10", 0), ('"x"', "11", 0), ("null", "12", 0), ("4294967296", "13", 0),
                                 ("14", "0", 1), ("15", '"15"', 1), ("16", "null", 1), ("17", "1.0", 1), ("18", "4294967296", 1)):
            by = f"{first}x{one if want else other}".replace('"', "")
            yield Case(f"{path} under {one}, and then under {other}", called(path, by, f'{one},"number":{other}'), want)
        for key, want in (("numbe", 1), ("Number", 1), ("number ", 1), ("", 1), ("n\\u0075mber", 0)):
            yield Case(f"{path}: a number at the key {key!r}", called(path, f"{first}y", "1", key), want)
    yield from orders()


def orders() -> Iterator[Case]:
    """Bodies with two faults, of which one is told: a number out of form comes before a text that is too long, a moment and a name."""
    for number, want in (("0", 1), ("4294967296", 1), ("1.0", 1), ('"1"', 1), ("1", 17)):
        yield Case(f"a long act under {number}", called("/acts", "eve", number, act=LONG), want)
        yield Case(f"a long stack under {number}", called("/stacks", "eve", number, csv=rows(MOST_ROWS + 1)), want)
        yield Case(f"a long act under {number} at no moment", called("/acts", "eve", number, act=LONG, moment=-1), want)
        yield Case(f"a long stack under {number} of no name", called("/stacks", "eve", number, csv=rows(MOST_ROWS + 1), name="No"), want)
    for number in ("0", "1"):
        yield Case(f"no moment under {number}", called("/acts", "eve", number, moment=-1), 1)
        yield Case(f"no name under {number}", called("/stacks", "eve", number, name="No"), 1)
        yield Case(f"the desk under {number}", called("/acts", "desk", number), 1)


# ---- what comes twice

def asked_so(number: object, by: str = "ann") -> Iterator[tuple[str, bytes]]:
    """Posts of a person under a number, each of which would be refused, or would do something, if nothing were kept for it."""
    yield "the same", act(ENTRY, by, number=number)
    for text in ("enter 6 a--c no 8 1 - - ok", "withdraw 1", "withdraw 77", "clock 5", "tick", "x", "", LONG, "é" * 101, f"100 ann {ENTRY}",
                 "stack s1 two.csv"):
        yield f"the act {text[:20]!r}", act(text, by, number=number)
    for text in ("places", "history 1 0", "history 77 0", "log 9", "waiting", "urgent 1", "moves 0", "standing Entered 0", "steps none"):
        yield f"the question {text!r}", act(text, by, number=number)
    for moment in (0, 4102444799, 4102444800, -1, 0.5, 10**30):
        yield f"the moment {moment}", act(ENTRY, by, moment, number)
        yield f"a long act at the moment {moment}", act(LONG, by, moment, number)
    for kind, text in (("stack", rows(1, apid=9)), ("procedure", steps(1))):
        for name, csv in (("fresh", text), ("No", text), ("", text), ("a" * 17, text), ("fresh", ""), ("fresh", "x"), ("fresh", text * 300),
                          ("No", text * 300)):
            yield f"a {kind} of the name {name[:5]!r} and {len(csv)} bytes", load(kind, name, csv, by, number=number)
        yield f"a {kind} of no name at no moment", load(kind, "No", text, by, -1, number)


def kinds_asked(number: object) -> Iterator[tuple[str, bytes]]:
    """Posts that are refused as they are read, also where something is kept for their number: a key is not there or of another kind, or JSON ends early."""
    for key in ("act", "by", "moment"):
        yield f"an act without {key}", post("/acts", body_of({"act": ENTRY, "by": "ann", "moment": 100, "number": number, key: None}))
        value: object = "100" if key == "moment" else 5
        yield f"{key} of another kind", post("/acts", body_of({"act": ENTRY, "by": "ann", "moment": 100, "number": number, key: value}))
    for key in ("by", "csv", "moment", "name"):
        keys = {"by": "ann", "csv": rows(1), "moment": 100, "name": "s1", "number": number, key: None}
        yield f"a stack without {key}", post("/stacks", body_of(keys))
        yield f"an act at /stacks, and no {key}", post("/stacks", json.dumps({"act": ENTRY, **keys}))
    yield "the desk", act(ENTRY, "desk", number=number)
    yield "no person", act(ENTRY, "Ann", number=number)
    yield "no JSON", post("/acts", body_of({"act": ENTRY, "by": "ann", "moment": 100, "number": number})[:-1])


Step = tuple[str, Union[str, bytes], int, int]  # a person, what is asked, the number, and the refusal that is wanted


def steps_of(told: list[Step]) -> Iterator[Case]:
    """Cases of these steps: a text is an act, and what is bytes is sent as it is."""
    for by, asked, number, want in told:
        raw = asked if isinstance(asked, bytes) else act(asked, by, number=number)
        yield Case(f"{by} under {number}: {asked[:24]!r}", raw, want)


def repeats() -> Iterator[Case]:
    """Acts that come twice."""
    for number in (1, 7, LAST_NUMBER):
        yield Case(f"ann's first call under {number}", act(ENTRY, number=number), 0)
        for name, raw in asked_so(number):
            yield Case(f"a repeat under {number}: {name}", raw, 0)
        for name, raw in kinds_asked(number):
            yield Case(f"a post under {number}: {name}", raw, 1)
    yield from steps_of([
        # each person has numbers of one's own
        ("bob", ENTRY, 7, 0), ("bob", ENTRY, 7, 0), ("bob", "withdraw 1", 7, 0), ("ann", "withdraw 1", 7, 0), ("bob", "approve 1", 8, 0),
        ("bob", "approve 1", 8, 0), ("cid", "approve 1", 8, 3), ("cid", "approve 2", 8, 0), ("cid", "approve 1", 8, 0),
        # a refusal is not kept: what is accepted later under its number is done then
        ("ann", "withdraw 77", 9, 2), ("ann", "withdraw 77", 9, 2), ("ann", LONG, 9, 17), ("ann", "x", 9, 1), ("ann", ENTRY, 9, 0),
        ("ann", "withdraw 77", 9, 0), ("ann", LONG, 9, 0), ("ann", "release 1", 10, 11), ("ann", "initiate none", 11, 0), ("ann", "release 1", 10, 0),
        ("ann", "release 1", 10, 0), ("ann", "release 1", 12, 3), ("ann", "initiate none", 11, 0), ("ann", "initiate none", 12, 12),
        # what was told is told again, though the request has gone on
        ("ann", "withdraw 3", 13, 0), ("ann", ENTRY, LAST_NUMBER, 0), ("ann", "withdraw 3", 13, 0), ("ann", "withdraw 3", 14, 3)])
    yield from questions()
    yield from without_rows()


def questions() -> Iterator[Case]:
    """Questions under numbers: each is answered anew, and its number is free; where something is kept for it, that is the answer."""
    yield from steps_of([
        ("ann", "places", 20, 0), ("ann", ENTRY, 21, 0), ("ann", "places", 20, 0), ("ann", "history 77 0", 20, 2), ("ann", "request 1", 20, 0),
        ("ann", "log 77", 20, 16), ("ann", "places", 21, 0), ("ann", "history 1 0", 21, 0), ("ann", "history 77 0", 21, 0), ("ann", ENTRY, 20, 0),
        ("ann", "places", 20, 0), ("ann", ENTRY, 20, 0), ("bob", "places", 20, 0), ("bob", "report 0 4102444799", 20, 0), ("bob", "link", 20, 0),
        ("bob", "schedule", 20, 0), ("bob", "tick", 20, 0), ("bob", "link", 20, 0),
        ("bob", "waiting", 20, 0), ("bob", "moves 1", 20, 0), ("bob", "standing Entered 0", 22, 0), ("bob", "steps none", 22, 16),
        ("bob", "waiting", 22, 0), ("bob", "urgent 1", 22, 0), ("bob", ENTRY, 22, 0), ("bob", "urgent 1", 22, 0), ("bob", "waiting", 22, 0)])
    for path, want in (("/places", 0), ("/requests/1", 0), ("/waiting", 0), ("/urgent/1", 0), ("/moves/1", 0), ("/procedures/none", 16)):
        yield Case(f"a question that is asked by a GET of {path}", get(path), want)


def without_rows() -> Iterator[Case]:
    """Acts that make no row, each of which is sent twice, and then the questions that would show a second one."""
    link = ["set t1 7", "set t1 8", "set k 2", "set k 3", "set limit 4", "set limit 5", "clcw", "clcw", "tick", "work", "up", "up", "down", "down",
            "losedown 0", "loseup 0", "terminate", "set vs 9", "initiate check", "tick", "terminate", "clock 1000", "clock 1000", "clock 2000"]
    for at, text in enumerate(link, 100):
        for name in ("", " again", " at last"):
            yield Case(f"cid under {at}: {text}{name}", act(text, "cid", number=at), 0)
            yield Case(f"the link behind {text}{name}", act("link", "cid", number=99), 0)
    yield Case("the first clock again", act("clock 1000", "cid", number=100 + link.index("clock 1000")), 0)
    yield Case("a clock that goes back", act("clock 1000", "cid", number=98), 12)


def loads_again() -> Iterator[Case]:
    """Loads that come twice, over all three routes."""
    two, plan, bad = rows(2), steps(2), rows(2) + "x"
    yield from steps_of([
        ("ann", load("stack", "s1", bad, number=1), 1, 1), ("ann", load("stack", "No", two, number=1), 1, 1),
        ("ann", load("stack", "s1", rows(MOST_ROWS + 1), number=1), 1, 17), ("ann", load("stack", "s1", two, number=1), 1, 0),
        ("ann", load("stack", "s1", two, number=1), 1, 0), ("ann", load("stack", "s1", two, number=2), 2, 9),
        ("bob", load("stack", "s1", two, "bob", number=1), 1, 9), ("bob", load("stack", "s2", two, "bob", number=1), 1, 0),
        ("ann", load("procedure", "p1", plan, number=1), 1, 0), ("ann", load("procedure", "p1", plan, number=3), 3, 0),
        ("ann", load("procedure", "p1", plan, number=3), 3, 0), ("ann", load("procedure", "p1", plan, number=4), 4, 9),
        ("ann", "begin p1", 4, 0), ("ann", "begin p1", 4, 0), ("ann", "begin p1", 3, 0), ("ann", "log 1", 5, 0), ("ann", "log 2", 5, 16),
        ("ann", "steps p1", 5, 0), ("ann", "steps p2", 5, 16), ("ann", get("/procedures/p1"), 5, 0),
        ("bob", "approvestack s1", 6, 0), ("bob", "approvestack s1", 6, 0), ("bob", "approvestack s1", 7, 6)])
    for number in (1, 3, 4):
        for name, raw in asked_so(number):
            yield Case(f"a repeat under {number}: {name}", raw, 0)


def longer() -> Iterator[Case]:
    """Replies of 200 lines and of more, of which 200 are shown, and as many are told to be left out each time."""
    for at, count in enumerate((MOST_ROWS - 2, MOST_ROWS - 1, MOST_ROWS), 1):
        for name in ("", " again", " at last"):
            yield Case(f"a stack of {count} rows{name}", load("stack", f"s{at}", rows(count, apid=at), number=at), 0)
            yield Case(f"its approval{name}", act(f"approvestack s{at}", "bob", number=at), 0)
            yield Case(f"a report{name}", act("report 0 4102444799", "bob", number=9), 0)
    yield Case("an act under a number of many lines", act(ENTRY, number=3), 0)
    yield Case("a question under a number of many lines", act("places", "bob", number=3), 0)
