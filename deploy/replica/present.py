"""Which machines there are, by their names, and how each stands. It is told by keys that last as long as a lease, and a name is its owner's alone."""
import hashlib
import json
import os
from typing import NamedTuple, Optional

from clock import now
from etcd import Etcd, holds, is_free, put, span

TOLD_AGAIN = 1.0  # seconds after which the place of a machine is told again, where nothing else changed


class State(NamedTuple):
    """Whether a machine is in; its place; and the place at which its desks failed last, how often in a row, and whether it stays out for that."""
    is_in: bool
    place: int = 0
    failed_at: int = 0
    failed: int = 0
    stays_out: bool = False


class There(NamedTuple):
    """A machine as it told of itself: the text, who owns the name, and how it stands."""
    text: bytes
    owner: str
    state: State


def there_of(text: bytes) -> There:
    """What a machine told; a text that does not read is of nobody, and out."""
    try:
        told = json.loads(text)
        place, failed_at, failed = map(int, told["places"])
        return There(text, str(told["owner"]), State(bool(told["in"]), place, failed_at, failed, bool(told["stays_out"])))
    except (ValueError, KeyError, TypeError):
        return There(text, "", State(False))


def owner_of(folder: str) -> str:
    """Who owns a name: a folder of a machine, until that begins anew."""
    with open("/proc/sys/kernel/random/boot_id", encoding="ascii") as file:
        return hashlib.sha256(f"{file.read()}{os.path.realpath(folder)}".encode()).hexdigest()[:16]


class Present:
    """The machines that there are, and this one among them."""

    def __init__(self, etcd: Etcd, root: str, name: str, owner: str, seconds: int) -> None:
        """This one is not there yet."""
        self.etcd, self.root, self.name, self.owner, self.seconds = etcd, f"{root}/machine/", name, owner, seconds
        self.leased, self.told, self.told_at = "", State(False), 0.0
        self.is_owned, self.is_taken = False, False  # whether the name is this machine's, or another one's

    def tell(self, state: State) -> None:
        """Keeps the lease of this machine, takes its name where nobody has it, and tells how it stands, where that is not told yet."""
        if not self.leased or not self.etcd.keep(self.leased):
            self.leased, self.told_at = self.etcd.lease(self.seconds), 0.0
        there = self.own()
        self.is_taken = there is not None and there.owner != self.owner
        if self.is_taken:
            self.is_owned = False
            return
        is_told = there is not None and self.told_at > 0 and (state == self.told or state._replace(place=self.told.place) == self.told
                                                              and now() - self.told_at < TOLD_AGAIN)
        if is_told or self.write(there, state):
            self.is_owned = True

    def own(self) -> Optional[There]:
        """What stands under the name of this machine."""
        key = self.root + self.name
        found = self.etcd.ask(span(key, key + "\0")).pairs
        return there_of(found[0].value) if found else None

    def write(self, there: Optional[There], state: State) -> bool:
        """Tells how this machine stands, if nothing else came to its name. Whether it did."""
        key = self.root + self.name
        if self.etcd.write([holds(key, there.text) if there else is_free(key)], [put(key, self.text(state), self.leased)]):
            return False
        self.told, self.told_at = state, now()
        return True

    def text(self, state: State) -> bytes:
        """How this machine stands, as it lies in etcd."""
        return json.dumps({"owner": self.owner, "in": state.is_in, "places": [state.place, state.failed_at, state.failed], "stays_out": state.stays_out}).encode()

    def all(self) -> dict[str, There]:
        """All machines."""
        return {name: there_of(text) for name, text in self.etcd.below(self.root).items()}

    def reserve(self) -> str:
        """The last machine, by its name, of those that are in; none of fewer than two."""
        names = sorted(name for name, it in self.all().items() if it.state.is_in)
        return names[-1] if len(names) > 1 else ""

    def may_leave(self) -> bool:
        """Whether this machine may leave because it wants to. Then it has told that it is out, while all others that there are were in: no two leave so."""
        there = self.all()
        others = {name: it for name, it in there.items() if name != self.name}
        if not others or not self.is_owned or not all(it.state.is_in for it in others.values()):
            return False
        state = self.told._replace(is_in=False)
        if self.etcd.write([holds(self.root + name, it.text) for name, it in others.items()], [put(self.root + self.name, self.text(state), self.leased)]):
            return False
        self.told = state
        return True
