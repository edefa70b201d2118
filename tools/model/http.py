"""A plain reading of the desk's HTTP side: which front of an input decides an answer, and what; what a body posts; and the exact bytes of a
response to what the desk replies. It is written from the definitions (HTTP/1.1 by RFC 9112, JSON by RFC 8259, and this desk's own limits), and
asks no server.
"""
import csv
import io
import json
import math
import re
from typing import Any, Callable, NamedTuple, NoReturn, Optional, Sequence, Union

from model.facts import (FOREIGN_STATUS, LAST_MOMENT, LAST_NUMBER, LONGEST_ACT, LONGEST_BODY, LONGEST_HEAD, LONGEST_TEXT, MARK, MOST_ANSWERED, MOST_FIELDS,
                         MOST_LINE_ENDS, MOST_ROWS, MOST_STEPS, NAME, NO_PATH_STATUS, OTHER_METHOD_STATUS, PHRASES, THE_DESK, Refusal, status_of)
from page_parts import policy

MOST_RECORDS = {"stack": MOST_ROWS, "procedure": MOST_STEPS}


class Refused(NamedTuple):
    """An answer that needs no desk: the status, and the number of the refusal."""
    status: int
    refusal: int


class Asks(NamedTuple):
    """A question for the desk, as a script spells it."""
    act: str


class Shows(NamedTuple):
    """The board."""


class Tells(NamedTuple):
    """How the desk was opened."""


class Acts(NamedTuple):
    """An act, or a question, that a person posts under a number of the person's own; the moment is none where it is out of form."""
    by: str
    number: int
    moment: Optional[int]
    act: str


class Loads(NamedTuple):
    """A stack or a procedure that a person posts so; neither its name nor its text was looked at yet."""
    by: str
    number: int
    moment: Optional[int]
    kind: str
    name: str
    csv: str


class Post(NamedTuple):
    """What a head posts to: its kind, and how many bytes of a body belong to it."""
    kind: str
    size: int


Called = Union[Acts, Loads]
Asked = Union[Refused, Asks, Shows, Tells, Called]
Headers = Sequence[tuple[bytes, bytes]]
BAD, LARGE = (Refused(status_of(it), it) for it in (Refusal.BAD_TEXT, Refusal.TOO_LONG))
FOREIGN, NO_PATH, OTHER_METHOD = (Refused(it, Refusal.BAD_TEXT) for it in (FOREIGN_STATUS, NO_PATH_STATUS, OTHER_METHOD_STATUS))


# ---- a front of an input

TOKEN = rb"[!#$%&'*+\-.^_`|~0-9A-Za-z]+"
FIELD = rb"(" + TOKEN + rb"):([\t -~\x80-\xff]*)\r?\n"
HEAD = re.compile(rb"(" + TOKEN + rb") ([!-~\x80-\xff]+) HTTP/1\.[01]\r?\n((?:" + FIELD + rb")*)\r?\n")
EMPTY_LINE = re.compile(rb"\n\r?\n")
NUMBER = re.compile(rb"0|[1-9][0-9]*")
POSTS = {b"/acts": "act", b"/stacks": "stack", b"/procedures": "procedure"}


def number_to(last: int) -> Callable[[bytes], bool]:
    """Whether a text spells a number up to this one."""
    return lambda text: NUMBER.fullmatch(text) is not None and len(text) <= len(str(last)) and int(text) <= last


def is_name(text: str) -> bool:
    """Whether a text is in the form of a name."""
    return NAME.fullmatch(text) is not None


IS_NUMBER, IS_MOMENT = number_to(LAST_NUMBER), number_to(LAST_MOMENT)
# The questions: the form of the path, the word of the act, and what each text in the path has to be.
QUESTIONS: list[tuple[re.Pattern[bytes], str, Callable[[bytes], bool]]] = [
    (re.compile(rb"/places"), "places", IS_NUMBER), (re.compile(rb"/requests/([^/]+)"), "request", IS_NUMBER),
    (re.compile(rb"/history/([^/]+)/([^/]+)"), "history", IS_NUMBER), (re.compile(rb"/report/([^/]+)/([^/]+)"), "report", IS_MOMENT),
    (re.compile(rb"/waiting"), "waiting", IS_NUMBER), (re.compile(rb"/urgent/([^/]+)"), "urgent", IS_NUMBER), (re.compile(rb"/moves/([^/]+)"), "moves", IS_NUMBER),
    (re.compile(rb"/procedures/([^/]+)"), "steps", lambda text: is_name(text.decode("utf-8")))]
# What no act asks for.
VIEWS: dict[bytes, Union[Shows, Tells]] = {b"/board": Shows(), b"/opening": Tells()}


def head_end(text: bytes) -> Optional[int]:
    """How many bytes the first head text takes, with the CR and LF bytes before it; none where no empty line has ended one."""
    found = EMPTY_LINE.search(text, len(text) - len(text.lstrip(b"\r\n")))
    return found.end() if found else None


def is_utf8(text: bytes) -> bool:
    """Whether these bytes are UTF-8."""
    try:
        text.decode("utf-8")
    except UnicodeDecodeError:
        return False
    return True


def values(fields: Headers, name: bytes) -> list[bytes]:
    """The values of the header lines with this name, without the spaces and tabs round them."""
    return [value.strip(b" \t") for found, value in fields if found.lower() == name]


def posted_to(kind: str, lengths: list[bytes]) -> Union[Refused, Post]:
    """What a head asks that posts to a route, and has these Content-Lengths."""
    if len(lengths) != 1 or not NUMBER.fullmatch(lengths[0]):
        return BAD
    is_large = len(lengths[0]) > len(str(LONGEST_BODY)) or int(lengths[0]) > LONGEST_BODY
    return LARGE if is_large else Post(kind, int(lengths[0]))


def got(target: bytes) -> Union[None, Refused, Asks, Shows, Tells]:
    """What a path asks by a GET: the board, how the desk was opened, or a question with texts, each of which has to be right; none where it is no such path."""
    for form, word, is_right in QUESTIONS:
        found = form.fullmatch(target)
        if found:
            return Asks(" ".join([word] + [it.decode() for it in found.groups()])) if all(is_right(it) for it in found.groups()) else BAD
    return VIEWS.get(target)


def judged(head: bytes) -> Union[Refused, Asks, Shows, Tells, Post]:
    """What a head text asks, in the order of the tests."""
    found = HEAD.fullmatch(head)
    fields = re.findall(FIELD, found[3]) if found else []
    if not found or len(fields) > MOST_FIELDS or not is_utf8(found[2]):
        return LARGE if head.count(b"\n") > MOST_LINE_ENDS else BAD
    method, target = found[1], found[2]
    question = got(target)
    if target not in POSTS and question is None:
        return NO_PATH
    if method != (b"POST" if target in POSTS else b"GET"):
        return OTHER_METHOD
    if values(fields, b"transfer-encoding"):
        return BAD
    lengths = values(fields, b"content-length")
    if question is None:
        return posted_to(POSTS[target], lengths)
    return question if lengths in ([], [b"0"]) else BAD


# The hosts by which a desk is called, whatever its port.
OWN_HOSTS = ("127.0.0.1", "localhost")


def hosts_of(port: int, *names: str) -> tuple[str, ...]:
    """The hosts by which a desk at this port is called, with these further names."""
    return tuple(host for name in (*OWN_HOSTS, *names) for host in (name, f"{name}:{port}"))


def is_foreign(head: bytes, hosts: Sequence[str]) -> bool:
    """Whether a head text, which is a request's, calls the desk by another host, or is a POST that a page of another site sends."""
    found = HEAD.fullmatch(head)
    fields = re.findall(FIELD, found[3]) if found else []
    if not found or len(fields) > MOST_FIELDS or not is_utf8(found[2]):
        return False
    own = {it.encode().lower() for it in hosts}
    origins = {scheme + it for scheme in (b"http://", b"https://") for it in own}
    called, origin, site = (values(fields, name) for name in (b"host", b"origin", b"sec-fetch-site"))
    is_called = not called or len(called) == 1 and called[0].lower() in own
    scheme, slashes, host = origin[0].partition(b"//") if origin else (b"", b"", b"")
    is_from = not origin or len(origin) == 1 and scheme + slashes + host.lower() in origins
    is_own = is_from and (not site or site in ([b"same-origin"], [b"none"]))
    return not is_called or found[1] == b"POST" and not is_own


def decided(front: bytes, hosts: Sequence[str] = OWN_HOSTS) -> Optional[Asked]:
    """What is served of a front of an input by itself; none where it decides nothing."""
    end = head_end(front[:LONGEST_HEAD])
    if end is None:
        return LARGE if len(front) > LONGEST_HEAD else None
    head = front[:end].lstrip(b"\r\n")
    found = judged(head)
    body = front[end:end + found.size] if isinstance(found, Post) else b""
    if isinstance(found, Post) and len(body) < found.size:
        return None
    if is_foreign(head, hosts):
        return FOREIGN
    return posted(found.kind, body) if isinstance(found, Post) else found


def answer_to(text: bytes, hosts: Sequence[str] = OWN_HOSTS) -> Optional[Asked]:
    """What is served of the shortest front of an input that decides anything; none where no front does. A longer front of the same input decides what a
    shorter one has decided: the tests try that on all fronts of some inputs."""
    return decided(text, hosts)


# ---- a body

class Number(str):
    """A number of JSON, as it is spelled."""


class Members(list[tuple[str, Any]]):
    """The members of an object of JSON, in order."""


def depth_of(value: Any) -> int:
    """How deep a value of JSON nests. A value error where it holds half of a surrogate pair, or a number past all floats."""
    if isinstance(value, Members):
        return 1 + max([0] + [depth_of(key) + depth_of(it) for key, it in value])
    if isinstance(value, list):
        return 1 + max([0] + [depth_of(it) for it in value])
    if isinstance(value, Number) and math.isinf(float(value)):
        raise ValueError("a number past all floats")
    if isinstance(value, str):
        value.encode("utf-8")
    return 0


def no_constant(word: str) -> NoReturn:
    """Python's reader takes NaN and Infinity, which are no JSON."""
    raise ValueError(word)


def object_in(body: bytes) -> Optional[dict[str, Any]]:
    """The members of the one JSON object that a body is, of a key that is named twice the last; none where it is no such thing."""
    try:
        value = json.loads(body.decode("utf-8"), parse_int=Number, parse_float=Number, parse_constant=no_constant, object_pairs_hook=Members)
        return dict(value) if isinstance(value, Members) and depth_of(value) <= 127 else None
    except (ValueError, RecursionError):
        return None


def whole_in(number: str, least: int, most: int) -> Optional[int]:
    """What a number of JSON tells: whole, spelled without a fraction, an exponent or a sign, and between these two; none where it is no such number."""
    return int(number) if re.fullmatch("[0-9]+", number) and least <= int(number) <= most else None


def is_too_long(kind: str, text: str) -> bool:
    """Whether a text of comma-separated values has more than the rows that a stack or a procedure may have, or too many bytes."""
    rows = [it for it in csv.reader(io.StringIO(text.removeprefix(MARK.decode("utf-8")), newline="")) if it]
    return len(rows) > 1 + MOST_RECORDS[kind] or len(text.encode("utf-8")) > LONGEST_TEXT


def posted(kind: str, body: bytes) -> Asked:
    """What a whole body posts, in the order of the tests that stand before the kept replies."""
    keys, texts = object_in(body), ("act", "by") if kind == "act" else ("by", "csv", "name")
    wanted: dict[str, type] = {**dict.fromkeys(texts, str), "moment": Number, "number": Number}
    if keys is None or any(type(keys.get(key)) is not form for key, form in wanted.items()):
        return BAD
    by, number, moment = keys["by"], whole_in(keys["number"], 1, LAST_NUMBER), whole_in(keys["moment"], 0, LAST_MOMENT)
    if not is_name(by) or by == THE_DESK or number is None:
        return BAD
    return Acts(by, number, moment, keys["act"]) if kind == "act" else Loads(by, number, moment, kind, keys["name"], keys["csv"])


def fault_of(called: Called) -> Optional[Refusal]:
    """What refuses a call for its text, its moment or its name, before the desk reads it; none where nothing does."""
    if len(called.act.encode("utf-8")) > LONGEST_ACT if isinstance(called, Acts) else is_too_long(called.kind, called.csv):
        return Refusal.TOO_LONG
    return Refusal.BAD_TEXT if called.moment is None or isinstance(called, Loads) and not is_name(called.name) else None


# ---- a response

ESCAPES = {'"': '\\"', "\\": "\\\\", "\b": "\\b", "\f": "\\f", "\n": "\\n", "\r": "\\r", "\t": "\\t"}


def quoted(text: str) -> str:
    """A text as a string of JSON, with the shortest escapes, and none where none is needed."""
    return '"' + "".join(ESCAPES.get(it) or (f"\\u{ord(it):04x}" if it < " " else it) for it in text) + '"'


def response(status: int, lines: Sequence[str], refusal: int) -> bytes:
    """The bytes of a response with these lines."""
    shown, more = lines[:MOST_ANSWERED], max(0, len(lines) - MOST_ANSWERED)
    body = f'{{"lines":[{",".join(quoted(it) for it in shown)}],"more":{more},"refusal":{int(refusal)}}}'.encode("utf-8")
    head = [f"HTTP/1.1 {status} {PHRASES[status]}", "Content-Type: application/json", f"Content-Length: {len(body)}", "Connection: close", ""]
    return "".join(f"{it}\r\n" for it in head).encode("ascii") + body


PAGE_LINES = ["Content-Type: text/html; charset=utf-8", "Cache-Control: no-store",
              f"Content-Security-Policy: {policy()}; frame-ancestors 'none'", "X-Content-Type-Options: nosniff"]


def page_response(page: bytes) -> bytes:
    """The bytes of the response with this page."""
    head = ["HTTP/1.1 200 OK", *PAGE_LINES, f"Content-Length: {len(page)}", "Connection: close", ""]
    return "".join(f"{it}\r\n" for it in head).encode("ascii") + page


def refusal_in(answer: bytes) -> int:
    """The number of the refusal that a response tells; 0 where that is none, as in a page."""
    found = re.search(rb'"refusal":([0-9]+)\}\Z', answer)
    return int(found[1]) if found else 0


def refused_response(refused: Refused) -> bytes:
    """The bytes of a response that needs no desk."""
    return response(refused.status, [Refusal(refused.refusal).line], refused.refusal)


def reply_response(reply: Sequence[str]) -> bytes:
    """The bytes of the response to what the desk replied, as a list of lines."""
    refused = re.fullmatch("refused ([0-9]+) [A-Za-z]+", reply[0])
    refusal = int(refused[1]) if refused and len(reply) == 1 else 0
    return response(status_of(refusal), reply, refusal)
