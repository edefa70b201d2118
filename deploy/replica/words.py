"""What a desk refuses as it stands, whatever it holds: such a request never comes into the log. Where this reader is in doubt it refuses nothing: then all desks do,
alike, at its place.

It knows the desk's paths and limits (`docs/manual/http.md`), and a body by what every post has to have.
"""
import json
import re
from typing import Any, NamedTuple, Optional, Sequence

MOST_BODY, MOST_HEAD, MOST_FIELDS, MOST_LINE_ENDS, LONGEST_ACT = 65_536, 8192, 64, 66, 200
LAST_NUMBER, LAST_MOMENT = 4_294_967_295, 4_102_444_799
NEWEST = "?newest"
MEMORY_OR_DISK = 503  # what a desk answers that was refused memory (30), or whose file failed (31, 32)
NUMBER = re.compile("0|[1-9][0-9]*")
NAME = re.compile("[a-z0-9]{1,16}")
POSTS = {"/acts": ("act", "by"), "/stacks": ("by", "csv", "name"), "/procedures": ("by", "csv", "name")}
QUESTIONS = [(re.compile(f"/{path}"), last) for path, last in (
    ("places", 0), ("waiting", 0), ("board", 0), ("requests/([^/]+)", LAST_NUMBER), ("history/([^/]+)/([^/]+)", LAST_NUMBER), ("moves/([^/]+)", LAST_NUMBER),
    ("urgent/([^/]+)", LAST_NUMBER), ("report/([^/]+)/([^/]+)", LAST_MOMENT), ("procedures/([^/]+)", 0))]


class Answer(NamedTuple):
    """What is answered, with the header lines that belong to it."""
    status: int
    body: bytes
    headers: tuple[tuple[str, str], ...] = (("Content-Type", "application/json"),)

    def has_failed(self) -> bool:
        """Whether it says that the desk's file failed. A question that was refused memory left the desk as it was."""
        return self.status == MEMORY_OR_DISK and not self.body.endswith(b'"refusal":30}')


def refused(status: int, line: str, refusal: int) -> Answer:
    """A refusal, as a desk spells it."""
    return Answer(status, b'{"lines":["refused %d %s"],"more":0,"refusal":%d}' % (refusal, line.encode(), refusal))


BAD, LONG, FULL = refused(400, "BadText", 1), refused(413, "TooLong", 17), refused(409, "DeskFull", 18)
FOREIGN, NO_PATH, OTHER_METHOD = BAD._replace(status=403), BAD._replace(status=404), BAD._replace(status=405)
Fields = Sequence[tuple[bytes, bytes]]


def hosts_of(address: str, port: int) -> frozenset[bytes]:
    """The hosts by which a desk is called that listens there."""
    return frozenset(f"{name}{end}".lower().encode() for name in ("127.0.0.1", "localhost", address) for end in ("", f":{port}"))


def values_of(fields: Fields, wanted: bytes) -> list[bytes]:
    """The values of all lines of this name."""
    return [value.strip(b" \t") for name, value in fields if name.lower() == wanted]


def is_foreign(method: str, fields: Fields, hosts: frozenset[bytes]) -> bool:
    """Whether the desk is called by another host, or a page of another site sends a POST, as its browser says."""
    called, origins, site = (values_of(fields, name) for name in (b"host", b"origin", b"sec-fetch-site"))
    is_called = not called or len(called) == 1 and called[0].lower() in hosts
    scheme, _, host = b"".join(origins[:1]).partition(b"//")
    is_from = not origins or len(origins) == 1 and scheme in (b"http:", b"https:") and host.lower() in hosts
    return not is_called or method == "POST" and not (is_from and site in ([], [b"same-origin"], [b"none"]))


def of_head(method: str, path: str, fields: Fields, hosts: frozenset[bytes]) -> Optional[Answer]:
    """What a head is refused by a desk that these hosts call; none where its body says more, or it asks a question."""
    size = len(method) + len(path.encode("utf-8", "surrogateescape")) + 13 + sum(len(name) + len(value) + 4 for name, value in fields)
    if size > MOST_HEAD or len(fields) > MOST_LINE_ENDS - 2:
        return LONG
    if "\udc80" <= max(path) <= "\udcff":
        return BAD
    if is_foreign(method, fields, hosts):
        return FOREIGN
    question = next(((found.groups(), last) for form, last in QUESTIONS if (found := form.fullmatch(path))), None)
    if path not in POSTS and not question:
        return NO_PATH
    if method != ("POST" if path in POSTS else "GET"):
        return OTHER_METHOD
    if values_of(fields, b"transfer-encoding"):
        return BAD
    lengths = [value.decode("latin-1") for value in values_of(fields, b"content-length")]
    if not question:
        return of_length(lengths)
    return None if lengths in ([], ["0"]) and all(is_asked(text, question[1]) for text in question[0]) else BAD


def of_length(lengths: Sequence[str]) -> Optional[Answer]:
    """What a post is refused for the length of its body, as it is told."""
    if len(lengths) != 1 or not NUMBER.fullmatch(lengths[0]):
        return BAD
    return LONG if len(lengths[0]) > 5 or int(lengths[0]) > MOST_BODY else None


def is_asked(text: str, last: int) -> bool:
    """Whether a text of a question's path is a number up to this one, or a name where that is 0."""
    return bool(NUMBER.fullmatch(text)) and len(text) < 11 and int(text) <= last if last else bool(NAME.fullmatch(text))


def of_body(path: str, body: bytes) -> Optional[Answer]:
    """What a whole body is refused, as every desk refuses it."""
    keys = object_in(body)
    if keys is None or any(type(keys.get(key)) is not str for key in POSTS[path]):
        return BAD
    number, moment = keys.get("number"), keys.get("moment")
    if not isinstance(number, Number) or not isinstance(moment, Number) or not is_asked(number, LAST_NUMBER) or number == "0":
        return BAD
    return None if NAME.fullmatch(keys["by"]) and keys["by"] != "desk" else BAD


class Number(str):
    """A number of JSON, as it is spelled."""


def object_in(body: bytes) -> Optional[dict[str, Any]]:
    """The one JSON object that a body is; none where it is surely none."""
    try:
        value = json.loads(body.decode("utf-8"), parse_int=Number, parse_float=Number, strict=True)
    except (ValueError, RecursionError):
        return None
    return value if isinstance(value, dict) else None


def shortened(path: str, body: bytes) -> bytes:
    """A body that is answered alike, and takes less room: an act that is too long is refused for that, or answered by the reply that is kept under its number."""
    keys = object_in(body) if path == "/acts" and len(body) > 1000 else None
    if not keys or set(keys) != {"act", "by", "moment", "number"} or not is_asked(keys["moment"], LAST_MOMENT) or re.search("[\ud800-\udfff]", keys["act"]):
        return body
    if len(keys["act"].encode()) <= LONGEST_ACT:
        return body
    return json.dumps({"act": "-" * (LONGEST_ACT + 1), "by": keys["by"], "moment": 0, "number": int(keys["number"])}).encode()
