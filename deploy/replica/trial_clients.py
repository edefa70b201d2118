"""Clients for the trial: each sends its posts one after the other, and each post again, to the next machine, until an answer says what became of it. Now and
then it asks a question, mostly for the newest. Others leave after 1 to 4 seconds, and send nothing again. Which try was sent when is written down."""
import random
import threading
import time
from http.client import HTTPException
from typing import NamedTuple, Optional, Sequence

from generate.http_days import posted_day
from generate.http_words import body_of
from model.rows import Tables
from trial_machines import Member

AT_ONCE = 10
LIMIT = 4.0  # seconds that a client waits for an answer
LOOKS = 10  # posts between two questions of a client
NEWEST = "?newest"


class Post(NamedTuple):
    """A path and a body."""
    path: str
    body: bytes


class Told(NamedTuple):
    """A post, its answer, the place as of which that is, how often it was sent, when first, and when it was answered; and each try with its outcome, in words."""
    post: Post
    status: int
    answer: bytes
    place: int
    tries: int
    sent: float
    at: float
    history: str = ""


class Try(NamedTuple):
    """A post that was sent to a machine, when, and for how many seconds its sender was told to wait, or said that it waits."""
    post: Post
    machine: str
    at: float
    seconds: float


class Look(NamedTuple):
    """A question by GET, its answer, the place as of which that is, and the place of the answer before, where the newest was asked for; else 0."""
    path: str
    status: int
    answer: bytes
    place: int
    least: int


class Script(NamedTuple):
    """What the clients send, in this order, and the paths that they ask for."""
    posts: list[Post]
    paths: list[str]


def random_script(seed: int, count: int, tables: Tables) -> Script:
    """So many posts by a seed, or a few less, for a desk that has these tables. A third of them repeat one of before, or spoil it."""
    made = posted_day(random.Random(seed), tables, 0, 1, [], count).exchanges
    posts = [Post(it.call.path, body_of(dict(it.call.keys)).encode()) for it in made if it.call]
    paths = [it.raw.split(b" ", 2)[1].decode() for it in made if not it.call]
    return Script(posts, [*paths, "/places", "/requests/1", "/history/1/0", "/none"])


class Dealer:
    """Deals out posts: so many at once as were let go, and then a few a second."""
    SLOWLY = 0.05

    def __init__(self, script: Script) -> None:
        """None is let go yet."""
        self.posts, self.paths, self.dealt, self.free, self.is_over = script.posts, script.paths, 0, 0, False
        self.changed = threading.Condition()

    def let_go(self, count: int) -> None:
        """So many more."""
        with self.changed:
            self.free += count
            self.changed.notify_all()

    def end(self) -> None:
        """No more."""
        with self.changed:
            self.is_over = True
            self.changed.notify_all()

    def next(self) -> Optional[Post]:
        """The next post; none where there are no more."""
        with self.changed:
            if self.free <= 0 and not self.is_over:
                self.changed.wait(self.SLOWLY * AT_ONCE)
            if self.is_over or self.dealt == len(self.posts):
                return None
            self.free, self.dealt = max(0, self.free - 1), self.dealt + 1
            return self.posts[self.dealt - 1]


class Client(threading.Thread):
    """One client, which has a machine of its own, and goes to the next one where nothing is known."""

    def __init__(self, dealer: Dealer, members: Sequence[Member], at: int) -> None:
        """It was told nothing yet."""
        super().__init__(daemon=True)
        self.dealer, self.members, self.home, self.at = dealer, members, at, at
        self.told: list[Told] = []
        self.tries: list[Try] = []
        self.looks: list[Look] = []
        self.dice, self.fault = random.Random(at), ""

    def run(self) -> None:
        """All posts that it is dealt."""
        try:
            while post := self.dealer.next():
                self.told.append(self.send(post))
                if len(self.told) % LOOKS == 0:
                    self.at = self.home
                    self.look(self.told[-1].place)
        except Exception as why:  # which the trial tells
            self.fault = f"{type(why).__name__} {why}"

    def send(self, post: Post) -> Told:
        """Sends a post until something is known of it."""
        tries, began, history = 0, time.monotonic(), ""
        while True:
            tries += 1
            self.tries.append(Try(post, self.members[self.at].name, time.monotonic(), self.members[self.at].net.times.patience))
            told = self.ask(self.at, "POST", post.path, post.body)
            if told and told[0] not in (502, 503, 504):
                return Told(post, *told, tries, began, time.monotonic(), f"{history}{self.members[self.at].name} {told[0]}")
            history = history[:300] + f"{self.members[self.at].name} {told[0] if told else 'nothing'} after {time.monotonic() - began:.1f} s, "
            self.at = (self.at + 1) % len(self.members)
            time.sleep(0.05)

    def ask(self, at: int, method: str, path: str, body: Optional[bytes] = None, patience: float = LIMIT, waits: int = 0) -> Optional[tuple[int, bytes, int]]:
        """What one machine answers; none where it does not."""
        try:
            return self.members[at].ask(method, path, body, patience, waits)
        except (OSError, HTTPException):
            return None

    def look(self, place: int) -> None:
        """Asks some machine a question, two times of three for the newest: then its answer is as of no earlier place than this one, that of the last post."""
        path, is_newest = self.dice.choice(self.dealer.paths), self.dice.randrange(3) > 0
        told = self.ask(self.dice.randrange(len(self.members)), "GET", path + NEWEST * is_newest, None, 2.0)
        if told and told[0] not in (502, 503, 504):
            self.looks.append(Look(path, *told, place * is_newest))



class Leaver(Client):
    """One that sends each post once, says that it waits for 1 to 4 seconds, and leaves then."""

    def run(self) -> None:
        """A post each so often, until the dealer ends."""
        number = 0
        while not self.dealer.is_over:
            number += 1
            post = Post("/acts", body_of({"act": "enter 5 a--c no 8 1 - - ok", "by": f"lea{self.home}", "moment": 1, "number": number}).encode())
            self.at = self.dice.randrange(len(self.members))
            waits, began = self.dice.randrange(1, 5), time.monotonic()
            self.tries.append(Try(post, self.members[self.at].name, began, waits))
            told = self.ask(self.at, "POST", post.path, post.body, waits, waits)
            if told and told[0] not in (502, 503, 504):
                self.told.append(Told(post, *told, 1, began, time.monotonic()))
            time.sleep(0.2)


class Watcher(threading.Thread):
    """Sees when each place of the log was first given to a desk, by any follower: between which two moments."""

    def __init__(self, members: Sequence[Member]) -> None:
        """It has seen nothing."""
        super().__init__(daemon=True)
        self.members, self.is_over, self.gap = members, False, 0.0
        self.seen: list[tuple[float, float]] = [(0.0, 0.0)]  # by the place

    def run(self) -> None:
        """Looks, again and again."""
        before = time.monotonic()
        while not self.is_over:
            began = time.monotonic()
            place = max((it.begun() for it in self.members), default=0)
            self.seen += [(before, time.monotonic())] * (place + 1 - len(self.seen))
            self.gap, before = max(self.gap, time.monotonic() - before), began
            time.sleep(0.005)
