"""What stands at a place of the log: an entry, sealed by the replica that wrote it."""
import hashlib
import hmac
from typing import NamedTuple, Optional

COMPARE, TICK, SKIP, VOID = "compare", "tick", "skip", "void"  # in place of a path; a post's begins with a slash


class Entry(NamedTuple):
    """A mark, which no other entry has; a path and a body as they came, or one of the words above; until when a post may be carried out for the first time; when
    it was sent to the log, both by the log's clock; and up to which place its writer had carried out the log by then, each post in time."""
    mark: str
    path: str
    body: bytes
    latest: int = 0
    sent: int = 0
    done: int = 0

    def is_post(self) -> bool:
        """Whether a desk is to carry it out."""
        return self.path.startswith("/")

    def named(self) -> int:
        """The place that a `skip` or a `void` names; 0 where it names none."""
        return int(self.body) if self.path in (SKIP, VOID) and self.body.isdigit() and len(self.body) < 13 else 0

    def text(self) -> bytes:
        """As it lies in the log, but for the seal."""
        return f"{self.mark} {self.path} {self.latest} {self.sent} {self.done}\n".encode() + self.body


def entry_of(text: bytes) -> Optional[Entry]:
    """The entry that is spelled so; none where none is."""
    head, _, body = text.partition(b"\n")
    try:
        mark, path, latest, sent, done = head.decode().split(" ")
        return Entry(mark, path, body, int(latest), int(sent), int(done))
    except ValueError:
        return None


class Seal:
    """The seal of a desk: its replicas alone have the key."""

    def __init__(self, key: bytes) -> None:
        """All replicas of the desk have this one."""
        self.key = key

    def of(self, where: str, text: bytes) -> bytes:
        """The seal of a text that lies there: it is none of the same text elsewhere."""
        return hmac.new(self.key, where.encode() + b"\n" + text, hashlib.sha256).hexdigest().encode()

    def sealed(self, where: str, text: bytes) -> bytes:
        """A text with its seal."""
        return self.of(where, text) + b" " + text

    def opened(self, where: str, sealed: bytes) -> Optional[bytes]:
        """The text; none where no replica of this desk put it there."""
        seal, _, text = sealed.partition(b" ")
        return text if hmac.compare_digest(seal, self.of(where, text)) else None
