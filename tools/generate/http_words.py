"""How requests of HTTP are spelled: heads and bodies, and a case with what is wanted of its answer."""
import json
from typing import Any, Iterable, NamedTuple, Union

from model.http import Refused

NOTHING = "nothing"  # what is wanted where no front of the input decides anything
ENTRY = "enter 5 a--c no 8 1 - - ok"
OWN = 3_000_000_000  # stands for a number of its own, which each case of a list is given as the list is sent


Want = Union[None, int, str, Refused]


class Case(NamedTuple):
    """Bytes that a peer sends, and what is wanted: the number of the refusal, 0 for none, NO_PATH, OTHER_METHOD or NOTHING; None where the plain
    reading alone says it."""
    name: str
    raw: bytes
    want: Want = None


def numbered(cases: Iterable[Case], behind: int = 0) -> list[Case]:
    """These cases, each with a number of its own, as many bytes long, in place of OWN: so none of them repeats another, nor one of the `behind` that were sent
    before them."""
    return [it._replace(raw=it.raw.replace(b"%d" % OWN, b"%d" % (OWN + at))) for at, it in enumerate(cases, behind + 1)]


def get(path: str, *lines: str, end: str = "\r\n") -> bytes:
    """A GET of this path, with these header lines."""
    return "".join(f"{it}{end}" for it in (f"GET {path} HTTP/1.1", "Host: 127.0.0.1", *lines, "")).encode()


def post(path: str, body: Union[str, bytes], *lines: str, length: object = None, end: str = "\r\n") -> bytes:
    """A POST of this body, with these header lines."""
    body = body.encode() if isinstance(body, str) else body
    length = len(body) if length is None else length
    head = (f"POST {path} HTTP/1.1", "Host: 127.0.0.1", "Content-Type: application/json", f"Content-Length: {length}", *lines, "")
    return "".join(f"{it}{end}" for it in head).encode() + body


def body_of(values: dict[str, Any]) -> str:
    """The compact JSON of these keys; one that is None is left out."""
    return json.dumps({key: it for key, it in values.items() if it is not None}, separators=(",", ":"), ensure_ascii=False)


def entry(**keys: Any) -> str:
    """The body that enters a request, with these keys changed."""
    return body_of({"act": ENTRY, "by": "ann", "moment": 100, "number": OWN, **keys})


def act(text: str, by: str = "ann", moment: object = 100, number: object = OWN) -> bytes:
    """A POST of an act."""
    return post("/acts", entry(act=text, by=by, moment=moment, number=number))


def load(kind: str, name: object, csv: str, by: str = "ann", moment: object = 100, number: object = OWN, **keys: Any) -> bytes:
    """A POST of a load."""
    return post(f"/{kind}s", body_of({"by": by, "csv": csv, "moment": moment, "name": name, "number": number, **keys}))


BODY, PLACES = entry(), get("/places")
