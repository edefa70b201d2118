"""What the cases of the login share: bodies, and what is read of answers.
"""
import json
import os
from concurrent.futures import ThreadPoolExecutor
from http.client import HTTPConnection
from typing import Any, Callable, Iterable, Optional, Union

from generate.http_words import ENTRY, body_of
from login_peer import Answer, Client
from tests.http_peer import HERE


BAD_TEXT = '{"lines":["refused 1 BadText"],"more":0,"refusal":1}'
NOT_OWN = '{"proxy":"refused: by is not the name of the login"}'


def entry(number: Any, by: Optional[str] = "ann", **keys: Any) -> str:
    """The body that enters a request under a number."""
    return body_of({"act": ENTRY, "by": by, "moment": 100, "number": number, **keys})


def places(count: int) -> Answer:
    """The answer to GET /places where so many requests were entered."""
    return Answer(200, f'{{"lines":["places {count}: {count}{" 0" * 14}"],"more":0,"refusal":0}}')


def direct(port: int, method: str, path: str, body: Union[str, bytes, None] = None) -> Answer:
    """The answer of a desk without a login."""
    peer = HTTPConnection(HERE, port, timeout=60)
    peer.request(method, path, body.encode() if isinstance(body, str) else body, {"Host": "127.0.0.1"})
    answer = peer.getresponse()
    text = answer.read().decode()
    peer.close()
    return Answer(answer.status, text)


def words(answer: Answer) -> list[str]:
    """The words of the first line of an answer."""
    line: str = json.loads(answer.text)["lines"][0]
    return line.split(" ")


def entered(client: Client) -> int:
    """How many requests stand at any place."""
    return int(words(client.get())[1][:-1])


def counted(found: Iterable[int]) -> dict[int, int]:
    """How often each of these was found."""
    there = list(found)
    return {it: there.count(it) for it in set(there)}


def folder_in(folder: str, name: str) -> str:
    """A new folder in another."""
    os.mkdir(f"{folder}/{name}")
    return f"{folder}/{name}"
