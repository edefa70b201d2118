"""The server stopped dead at each of its calls on the files of a desk, or these failed from each one on, and what was posted to it sent again.

A server is sent an act, a load or a release under a number, and is stopped (tools/faults/stop_io.c) at call 1, 2, 3 and so on of those that change or
sync the file or its log, until it ends by itself; each stop in the four ways of tools/faults/stop_kept.py. Whether or not an answer came, the same bytes
are sent to a new server on the file, and once more. What was posted has to be there once, and each of these answers has to be what it would have been,
had nothing been stopped. What is right stands here, and what lies in the file is read by SQLite; no run of the program is held against another.

Of what lies there as the stopped server left it, rows and reply have to be there both or neither, and both where an answer had come. A release whose
service an opening has ended is refused 11 where it was not done; once the service was initiated anew it is done under the same number.

Where the calls fail, the server cannot open the desk, or answers 31 and then 32: what was told 31 may be there whole, what was told 32 is not.
"""
import os
import shutil
import tempfile
from collections import Counter
from concurrent.futures import ThreadPoolExecutor
from typing import Callable, Iterable, NamedTuple

from faults.kept_runs import stack_of
from faults.stop_kept import NOTHING_TO_HALVE, STOPPED, WAYS
from generate.http_words import ENTRY, body_of, post
from model.facts import MOST_ROWS, Cause, Place
from model.http import reply_response
from model.kept import connect, sqlite3
from tests.asked import ASKED
from tests.http_peer import Ended, Fault, Late, Server, in_time, run
from tests.new_desks import holds_no_table
from tests.runs import Tried, made_shim, quick_folder

AT_ONCE = 4
ANSWERED, UNHEARD, UNDONE, NOT_HALVED, THE_END = "answered", "done, and not answered", "not done", "nothing to halve", "the end"
STORE, STOPPED_ROOM = (reply_response([it]) for it in ("refused 31 Store", "refused 32 Stopped"))

Row = tuple[int, str, str, str]  # of the history: the request, from where, to where, why
Key = tuple[str, int]  # whose a kept reply is, and its number
Carried = tuple[int, int, int]  # an insert, a position in its list, and the request that is named there
LAST_NUMBER = 2**32 - 1


class Stands(NamedTuple):
    """What lies in the file of a desk: the history without who and when, the kept replies, and what inserts name behind their first activity."""
    moves: list[Row]
    replies: dict[Key, str]
    cargo: list[Carried]


class Mend(NamedTuple):
    """What a call is refused with where an opening came before it was done; and the call that has to be done then, so that it is done, with its lines."""
    refused: str
    number: int
    act: str
    lines: list[str]


class Run(NamedTuple):
    """What is posted to the server that is stopped, the last of which is sent again: its number, its lines, and the rows that it makes."""
    name: str
    posts: list[bytes]
    number: int
    lines: list[str]
    added: list[Row]
    # The lines of the desk before it, and what is posted there before; neither, where there is no file yet. The rows that these make.
    left: tuple[str, ...] = ()
    posted: tuple[bytes, ...] = ()
    before: list[Row] = []
    mend: list[Mend] = []
    # The rows of an opening behind it.
    opened: list[Row] = []
    # What inserts name behind their first activity: those before it, and what it adds.
    cargo: list[Carried] = []
    added_cargo: list[Carried] = []


def called(number: int, act: str) -> bytes:
    """The post of an act of ann."""
    return post("/acts", body_of({"act": act, "by": "ann", "moment": 100, "number": number}))


def moved(request: int, before: Place, to: Place, cause: Cause) -> Row:
    """A row of the history."""
    return request, before.word, to.word, cause.word


def entered(requests: int) -> list[Row]:
    """The rows of so many entries."""
    return [moved(request, Place.NOWHERE, Place.ENTERED, Cause.ENTER) for request in range(1, requests + 1)]


ENTERED = ["ok request 1 5/0", "move 1 100 ann 1 - Entered enter"]
LOAD = post("/stacks", body_of({"by": "ann", "csv": stack_of(MOST_ROWS).decode(), "moment": 100, "name": "many", "number": 7}))
LOADED = [f"ok stack many {MOST_ROWS} 1", *(f"move {it} 100 ann {it} - Entered enter" for it in range(1, MOST_ROWS + 1))]
# Of each tenth row, which inserts the eight before it.
LOADED_CARGO = [(row, position, row - 9 + position) for row in range(10, MOST_ROWS + 1, 10) for position in range(2, 9)]
INSERT = "enter 5 ---c no 11 4 2;1 60;61 ok"
APPROVED = [*entered(3), *(moved(it, Place.ENTERED, Place.APPROVED, Cause.APPROVE) for it in (1, 2, 3))]
RELEASED = [moved(3, Place.APPROVED, Place.QUEUED, Cause.RELEASE), *(moved(it, Place.APPROVED, Place.RIDING, Cause.RELEASE) for it in (2, 1)),
            moved(3, Place.QUEUED, Place.SENT, Cause.TRANSMIT)]

RUNS = (
    Run("an entry, on a desk that is made", [called(7, ENTRY)], 7, ENTERED, entered(1)),
    Run("the repeat of an entry", [called(7, ENTRY)], 7, ENTERED, [], posted=(called(7, ENTRY),), before=entered(1)),
    Run("an act that makes no row", [called(LAST_NUMBER, "tick")], LAST_NUMBER, ["ok"], [], left=("100 ann places",)),
    Run(f"a load of {MOST_ROWS} rows", [LOAD], 7, LOADED, entered(MOST_ROWS), left=("100 ann places",), added_cargo=LOADED_CARGO),
    Run("the entry of an insert of two", [called(7, INSERT)], 7, ["ok request 3 5/2", "move 3 100 ann 3 - Entered enter"], entered(3)[2:],
        left=(f"100 ann {ENTRY}",) * 2, before=entered(2), added_cargo=[(3, 2, 1)]),
    Run("a release, by which two ride", [called(6, "initiate none"), called(7, "release 3")], 7,
        ["ok", "move 7 100 ann 3 Approved Queued release", "move 8 100 ann 2 Approved Riding release", "move 9 100 ann 1 Approved Riding release",
         "move 10 100 ann 3 Queued Sent transmit"], RELEASED,
        left=(*(f"100 ann {it}" for it in (ENTRY, ENTRY, INSERT)), *(f"100 bob approve {it}" for it in (1, 2, 3))), before=APPROVED,
        mend=[Mend("refused 11 ServiceNotActive", 8, "initiate none", ["ok", "started"])],
        opened=[*(moved(it, Place.RIDING, Place.DOUBTFUL, Cause.OPEN) for it in (1, 2)), moved(3, Place.SENT, Place.DOUBTFUL, Cause.OPEN)],
        cargo=[(3, 2, 1)]),
)


def text_of(lines: list[str]) -> str:
    """These lines, as a reply is kept."""
    return "".join(f"{it}\n" for it in lines)


def stands_in(path: str) -> Stands:
    """What lies in the file and in the log beside it; nothing where no table does. It raises sqlite3.Error where that is no desk."""
    with tempfile.TemporaryDirectory(dir=os.path.dirname(path)) as folder:
        for end in ("", "-wal"):
            if os.path.exists(path + end):
                shutil.copy(path + end, f"{folder}/copy.db{end}")
        if holds_no_table(f"{folder}/copy.db"):
            return Stands([], {}, [])
        connection = connect(f"{folder}/copy.db", "mode=rw")
        try:
            moves = connection.execute("SELECT request, from_place, to_place, cause FROM move ORDER BY seq").fetchall()
            requests = connection.execute("SELECT num, place FROM request ORDER BY num").fetchall()
            replies = connection.execute("SELECT person, number, body FROM reply").fetchall()
            cargo = connection.execute("SELECT request, position, target FROM cargo ORDER BY rowid").fetchall()
        finally:
            connection.close()
    if dict(requests) != {request: to for request, _, to, _ in moves}:
        raise sqlite3.DatabaseError(f"requests and history are apart: {requests}, {moves}")
    return Stands([moved(request, Place(before), Place(to), Cause(cause)) for request, before, to, cause in moves],
                  {(person, number): body for person, number, body in replies}, cargo)


class Sent(NamedTuple):
    """The answers to what was sent, up to the first that did not come; how the server ended, and what it says where it is not stopped."""
    answers: list[bytes]
    ended: Ended
    says: str

    def is_whole(self, posts: list[bytes]) -> bool:
        """Whether all was answered."""
        return len(self.answers) == len(posts) and self.answers[-1] != b""


class Trial:
    """A run, and the desk that it begins with, in a folder of its own."""

    def __init__(self, program: str, work: str, shim: str, kind: Run) -> None:
        self.program, self.shim, self.kind, self.key = program, shim, kind, ("ann", kind.number)
        self.right = reply_response(kind.lines)
        self.folder = tempfile.mkdtemp(dir=work)
        self.left = tempfile.mkdtemp(dir=self.folder)
        if kind.left:
            run(program, self.left, kind.left, "--db", "desk.db")
        if kind.posted:
            self.send(self.left, list(kind.posted))

    def send(self, folder: str, posts: list[bytes], **settings: str) -> Sent:
        """Sends these posts to a server of the desk in a folder, a connection each."""
        env = {"LD_PRELOAD": self.shim, "STOP_FILE": f"{folder}/desk.db", **settings} if settings else {}
        answers: list[bytes] = []
        with Server(self.program, folder, "desk.db", len(posts), env=env) as server:
            try:
                for it in posts:
                    answers.append(server.exchange(it))
                    if not answers[-1]:
                        break
            except Fault as fault:
                if "has ended" not in str(fault):
                    raise
            return Sent(answers, server.end(), server.says)

    def copy(self) -> str:
        """A new folder with a copy of the desk that the run begins with."""
        return str(shutil.copytree(self.left, tempfile.mkdtemp(dir=self.folder), dirs_exist_ok=True))

    def calls(self) -> int:
        """How many calls a server makes that is not stopped."""
        sent = self.send(self.copy(), self.kind.posts, STOP_AT="0")
        told = sent.ended.err.splitlines()[-1]
        if sent.answers[-1] != self.right or not told.isdigit() or told == "0":
            raise AssertionError(f"{self.kind.name} is not answered, or its calls are not seen: {sent!s:.900}")
        return int(told)

    def stop(self, number: int, way: str) -> str:
        """Stops a server at a call, and sends again what was posted: how that went; of a fault, what it is."""
        folder = self.copy()
        try:
            sent = self.send(folder, self.kind.posts, STOP_AT=str(number), **WAYS[way])
            if sent.ended.status == NOTHING_TO_HALVE:
                return NOT_HALVED
            if sent.ended.status == 0 and sent.answers[-1] == self.right:
                return THE_END
            if sent.ended.status != STOPPED:
                return f"it did not stop: {sent}"
            lies = stands_in(f"{folder}/desk.db")
            how = ANSWERED if sent.is_whole(self.kind.posts) else UNHEARD if self.key in lies.replies else UNDONE
            return self.wrong_left(sent, lies, [self.right]) or self.again(folder, lies) or how
        except Late:
            raise
        except (Fault, sqlite3.Error) as fault:
            return f"it goes no further: {fault}"
        finally:
            shutil.rmtree(folder)

    def fail(self, number: int, _: str) -> str:
        """Has the calls of a server fail from this one on, and sends again what was posted: how that went; of a fault, what it is."""
        folder = self.copy()
        try:
            sent = self.send(folder, self.kind.posts, FAIL_FROM=str(number))
            last = sent.answers[-1] if sent.is_whole(self.kind.posts) else b""
            if sent.ended.status == 0 and last == self.right:
                return THE_END
            if sent.ended.status not in (0, 2) or sent.ended.status == 0 and last not in (STORE, STOPPED_ROOM):
                return f"it ended in no way that it may: {sent}"
            lies = stands_in(f"{folder}/desk.db")
            is_done = self.key in lies.replies
            if last == STOPPED_ROOM and is_done and not self.kind.posted:
                return f"it was told 32, and is done: {lies}"
            how = {self.right: ANSWERED, STORE: f"31, {'' if is_done else 'not '}done", STOPPED_ROOM: "32"}.get(last, "not opened")
            return self.wrong_left(sent, lies, [self.right, STORE, STOPPED_ROOM]) or self.again(folder, lies) or how
        except Late:
            raise
        except (Fault, sqlite3.Error) as fault:
            return f"it goes no further: {fault}"
        finally:
            shutil.rmtree(folder)

    def wrong_left(self, sent: Sent, lies: Stands, allowed: list[bytes]) -> str:
        """What is wrong of what a server answered and left that was disturbed, and whose answer may be one of these."""
        kind, is_done, last = self.kind, self.key in lies.replies, sent.answers[-1] if sent.is_whole(self.kind.posts) else b""
        if last and last not in allowed:
            return f"it answered {last!r}"
        if not is_done and (kind.posted or last == self.right):
            return "its reply is not kept"
        moves, cargo = kind.before + (kind.added if is_done else []), kind.cargo + (kind.added_cargo if is_done else [])
        is_right = (lies.moves, lies.cargo) == (moves, cargo) and lies.replies.get(self.key, text_of(kind.lines)) == text_of(kind.lines)
        return "" if is_right else f"it left {lies}"

    def again(self, folder: str, lies: Stands) -> str:
        """Sends the call to a new server, and once more; what is wrong of its answers, or of what stands then."""
        kind, call, is_done = self.kind, self.kind.posts[-1], self.key in lies.replies
        posts, wanted, replies = [call, call], [self.right, self.right], {**lies.replies, self.key: text_of(kind.lines)}
        for mend in [] if is_done else kind.mend:
            posts = [call, call, called(mend.number, mend.act), *posts]
            wanted = [reply_response([mend.refused])] * 2 + [reply_response(mend.lines)] + wanted
            replies["ann", mend.number] = text_of(mend.lines)
        sent = self.send(folder, posts)
        if sent.answers != wanted or sent.ended != Ended(0, sent.ended.out, sent.says):
            return f"sent again: {sent}"
        found = stands_in(f"{folder}/desk.db")
        right = Stands(kind.before + kind.added + (kind.opened if is_done else []), replies, kind.cargo + kind.added_cargo)
        return "" if found == right else f"sent again, it leaves {found}"


KNOWN = (ANSWERED, UNHEARD, UNDONE, NOT_HALVED, "31, done", "31, not done", "32", "not opened")


def tell(trial: Trial, pool: ThreadPoolExecutor, how: Callable[[int, str], str], ways: Iterable[str]) -> tuple[Counter[str], list[str]]:
    """Tries a run, disturbed at each call in these ways, some at a time, and says how that went. Gives that, and what was bad."""
    counts, bad, calls, name = Counter[str](), list[str](), in_time(trial.calls), trial.kind.name
    tried = [(number, way) for number in range(1, calls + 2) for way in ways]
    for (number, way), verdict in zip(tried, pool.map(lambda it: in_time(lambda: how(*it)), tried)):
        is_known = verdict in KNOWN or verdict == THE_END and number > calls
        counts[verdict if is_known else "bad"] += 1
        bad += [] if is_known else [f"{name}, call {number} of {calls}, {way}: {verdict:.900}"]
    print(f"{name}: {calls} calls: {', '.join(f'{number} {it}' for it, number in sorted(counts.items()))}", flush=True)
    return counts, bad


class Posts(Tried):
    """Servers that are stopped, or whose disk fails, and what was posted sent again."""

    def setUp(self) -> None:
        """A folder to work in, and the runs, each with the desk that it begins with."""
        folder = tempfile.TemporaryDirectory(prefix="posts-", dir=quick_folder())
        self.addCleanup(folder.cleanup)
        shim = made_shim("stop_io", folder.name)
        self.trials = [Trial(ASKED.program, folder.name, shim, it) for it in RUNS]

    def all_of(self, what: str, of: Callable[[Trial], Callable[[int, str], str]], ways: Iterable[str], wanted: list[str]) -> None:
        """Tries all runs so; each of them has to meet what is wanted, but where the call was done before."""
        with ThreadPoolExecutor(AT_ONCE) as pool:
            told = [(it.kind, *tell(it, pool, of(it), ways)) for it in self.trials]
        bad = [it for _, _, list_ in told for it in list_]
        print(f"{what}: {sum(counts.total() for _, counts, _ in told)} runs, {len(bad)} bad")
        self.no_faults(bad + [f"{what}, {kind.name}: never {it}" for kind, counts, _ in told for it in wanted if not counts[it] and not kind.posted])

    def test_stops(self) -> None:
        """All stops of all runs."""
        self.all_of("posts stopped", lambda it: it.stop, WAYS, [ANSWERED, UNHEARD, UNDONE, THE_END])

    def test_failing(self) -> None:
        """The calls of all runs failed, from each one on."""
        self.all_of("posts over a disk that fails", lambda it: it.fail, ["failing"], [ANSWERED, "31, not done", "not opened", THE_END])
