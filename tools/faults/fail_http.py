"""The server's reads and writes failed, its memory refused, its disk taken away.

By fail_io.c each read in turn of what has come fails: nothing is written, no act is made, and 33 is told on standard error; the write of each
number fails, or takes nothing: a front of the response went out, the act stands once, and 34 is told; all come in short pieces: the response is the
same. By fail_malloc.c each request for memory from the first connection on is refused, one a run, of a post, of a question behind it and of the post
again: each response is right, or tells that there was no memory (30, and nothing has changed; or 31 where the database had none, and then 32), or is not
there; an act that was answered stands, one that was refused 30 does not. By a limit on the size of files the database fails: 31, and from then on 32; where
no count of connections is given, or it is asked for, the server ends then with status 3. By fail_looks.c the system reports on the desk's file with an error, while the port
is in use: the file stays as it was.
After each run the same is sent again under its number, to a server that lacks nothing: it is answered as it would have been, and was done once in all.
There is a line for each run that failed.
"""
import errno
import os
import resource
import shutil
import signal
import socket
import subprocess
import tempfile
import time
import unittest
from collections import Counter
from typing import Callable, NamedTuple, Optional, Sequence, Union

from generate import http_posts as posts, http_requests as requests
from generate.http_words import BODY, ENTRY, PLACES, Case, Want, act, get, load, post
from model.http import LARGE, NO_PATH, OTHER_METHOD, Refused, answer_to, reply_response
from tests.asked import ASKED
from tests.http_peer import FAIR, PATIENCE, SLOW, Ended, Expected, Fault, Late, Server, in_time, parted, received, run, send
from tests.plain_runs import kept_tables
from tests.runs import bytes_of, made_shim, quick_folder

MOST_BAD = 10
MOST_BEHIND = 1000  # reads behind an answer
MOST_ENDLESS = 4 * 73_728  # the same, where there is no end of what is read: so many in each of few turns
READ_FAULT, NO_MEMORY, WRITE_FAULT = "33 ReadFault", "30 Memory", "34 WriteFault"  # what is told of a connection that was not answered
MEMORY, STORE, STOPPED = (reply_response([it]) for it in ("refused 30 Memory", "refused 31 Store", "refused 32 Stopped"))


Counts = tuple[Optional[int], Optional[int]]  # how often is read, and written; none where that is not known


class Runs:
    """The program, a folder to work in with an empty desk, the libraries that are preloaded, and how many runs there were."""

    def __init__(self, program: str, folder: str) -> None:
        self.program, self.folder = program, folder
        self.counts: Counter[str] = Counter()
        self.seen: Counter[str] = Counter()
        for name in ("fail_io", "fail_malloc"):
            made_shim(name, folder)
        run(program, folder, [], "--db", "left.db")
        self.left = "left.db"

    def bad(self, name: str, *what: object) -> None:
        """Tells of a run that was bad."""
        self.counts["bad"] += 1
        print(f"{name}: {', '.join(f'{it!r:.300}' for it in what)}", flush=True)
        if self.counts["bad"] >= MOST_BAD:
            raise Fault("too many runs were bad")

    def server(self, connections: Optional[int], library: Optional[str] = None, words: Sequence[str] = (), first: Optional[Callable[[], None]] = None,
               settings: Optional[dict[str, int]] = None) -> Server:
        """The server of a copy of the desk that was left, with this library preloaded; what this tells by descriptor 9 is in the file `told`."""
        for end in ("", "-wal"):
            if os.path.exists(f"{self.folder}/kept.db{end}"):
                os.remove(f"{self.folder}/kept.db{end}")
        shutil.copy(f"{self.folder}/{self.left}", f"{self.folder}/kept.db")
        env = {**{it: str(value) for it, value in (settings or {}).items()}, **({"LD_PRELOAD": f"{self.folder}/{library}.so"} if library else {})}
        return Server(self.program, self.folder, "kept.db", connections, words, env=env, told=f"{self.folder}/told", first=first)

    def told(self) -> str:
        """What a library told."""
        with open(f"{self.folder}/told", encoding="ascii") as file:
            return file.read()

    def entered(self) -> int:
        """How many requests the file tells, which has to be a desk's."""
        return int(run(self.program, self.folder, [], "--db", "kept.db").split(":")[0].removeprefix("places "))

    def again(self, raws: Sequence[bytes]) -> list[bytes]:
        """What these are answered by a server of the same file that lacks nothing."""
        with Server(self.program, self.folder, "kept.db", len(raws)) as server:
            got = [server.exchange(it) for it in raws]
            ended = server.end()
        return got if ended == Ended(0, "", server.says) else [*got, repr(ended).encode()]


# ---- streams

class Wanted(NamedTuple):
    """What a run with failing streams has to do: the answers, how often is read at least and how often written, where that is known, how many
    requests stand, and what is told of the first connection."""
    answers: list[bytes]
    counts: Counts
    entered: int
    end: str = "answered"


def is_counted(wanted: Counts, counts: tuple[int, int], behind: int) -> bool:
    """Whether so often was read and written. Behind its answers a server may read so much more, so that no peer loses its answer."""
    least, writes = wanted
    return (least is None or least <= counts[0] <= least + behind) and writes in (None, counts[1])


def stream(runs: Runs, name: str, raws: Sequence[bytes], wanted: Wanted, within: float = PATIENCE, **settings: int) -> None:
    """One run with these settings of fail_io.c, on these requests, within so many seconds. More is late."""
    in_time(lambda: streamed(runs, name, raws, wanted, within, settings))


def streamed(runs: Runs, name: str, raws: Sequence[bytes], wanted: Wanted, within: float, settings: dict[str, int]) -> None:
    """The same, once."""
    runs.counts["streams"] += 1
    began = time.monotonic()
    with runs.server(len(raws), "fail_io", ("--verbose",), settings={"SOCKETS": 1, **settings}) as server:
        got = [server.exchange(it) for it in raws]
        took, (ended, ends) = time.monotonic() - began, parted(server.end())
    if took > within:
        raise Late(f"{name}: {took:.1f} s, and not within {within}")
    reads, writes = (int(it) for it in runs.told().split())
    counts, behind = (reads, writes), MOST_ENDLESS if "READ_LINE_ENDS" in settings else MOST_BEHIND * len(raws)
    found = Wanted(got, wanted.counts if is_counted(wanted.counts, counts, behind) else counts, runs.entered(), ends[0])
    if found != wanted or ends[1:] != ["answered"] * (len(raws) - 1) or ended != Ended(0, "", server.says):
        runs.bad(f"{name}, {settings}", found, wanted, ended)


def each_fails(runs: Runs, request: bytes, entered: int, step: int) -> None:
    """Of a request that enters so many, of the question behind it, and of the request again: each read of the first, or each stepth, fails, each write
    fails, or takes nothing."""
    raws, name = [request, PLACES, request], repr(request[:12])
    right = Expected(runs.folder, [Case("", it) for it in raws]).responses
    before = Expected(runs.folder, [Case("", PLACES)]).responses[0]
    for at in range(1, len(request) + 1, step):
        wanted = Wanted([b"", before, right[2]], (at + len(PLACES) + len(request), 2), entered, READ_FAULT)
        stream(runs, f"a read of {name}", raws, wanted, READ_MOST=1, READ_FAIL_AT=at)
    for how in ("WRITE_FAIL_AT", "WRITE_NOTHING_AT"):
        stream(runs, f"the write of {name}", raws, Wanted([b"", *right[1:]], (None, 3), entered, WRITE_FAULT), **{how: 1})
        for at in range(1, len(right[0]) + 1, step):
            wanted = Wanted([right[0][:at - 1], *right[1:]], (None, at + len(right[1]) + len(right[2])), entered, WRITE_FAULT)
            stream(runs, f"a write of {name}", raws, wanted, WRITE_MOST=1, **{how: at})
    for most in (1, 2, 3, 7, 100, 4096):
        stream(runs, f"short pieces of {name}", raws, Wanted(right, (None, None), entered), READ_MOST=most, WRITE_MOST=most)


def streams(runs: Runs) -> None:
    """Each read and each write of an exchange fails in turn; and the longest requests come a byte a read."""
    for request, entered, step in ((act(ENTRY), 1, 1), (PLACES, 0, 4), (load("stack", "s1", posts.rows(3)), 3, 7)):
        each_fails(runs, request, entered, step)
    body = BODY + " " * (65536 - len(BODY))
    for name, request, entered in (("a body of 65,536 bytes", post("/acts", body), 1), ("a head of 8,192 bytes", requests.padded(8192), 0),
                                   ("64 lines and a body of 65,536 bytes", post("/acts", body, *["a: b"] * 61), 1),
                                   ("a head of 8,192 bytes and a body of 65,536", requests.sized(8192, body), 1)):
        right = Expected(runs.folder, [Case("", request)]).responses
        stream(runs, f"{name}, a byte a read", [request], Wanted(right, (len(request), 1), entered), SLOW, READ_MOST=1)
    endless = Expected(runs.folder, [Case("", b"\n" * 8193)]).responses
    stream(runs, "line ends without end", [PLACES], Wanted(endless, (8193, 1), 0), SLOW, READ_MOST=1, READ_LINE_ENDS=1)


# ---- memory

class Exchange:
    """A request, the right response, that to the request again, and those to /places before and after it; how many requests stand then, and which
    replies are kept. On a desk that was called so before it is a repeat, and enters nothing more."""

    def __init__(self, runs: Runs, raw: bytes, is_called: bool = False) -> None:
        made = Expected(runs.folder, [Case("", it) for it in (raw, PLACES, raw)])
        self.raw, (self.right, self.after, self.again) = raw, made.responses
        self.before = self.after if is_called else Expected(runs.folder, [Case("", PLACES)]).responses[0]
        self.enters, self.keeps = int(self.after.split(b"places ")[1].split(b":")[0]), made.calls.desk.tables().reply
        self.left = "called.db" if is_called else "left.db"
        self.stopped = self.right if isinstance(answer_to(raw), Refused) else STOPPED

    def ways(self) -> list[list[bytes]]:
        """What the request, the question behind it and the request again may be answered, where one request for memory is refused to one of them, or
        to none. What asks nothing of the desk is answered by a stopped one as ever."""
        right, after, again = self.right, self.after, self.again
        return [[right, after, again],
                [MEMORY, self.before, right], [STORE, STOPPED, STOPPED], [b"", self.before, right], [b"", after, again],
                [right, MEMORY, again], [right, STORE, self.stopped], [right, b"", again],
                [right, after, MEMORY], [right, after, STORE], [right, after, b""]]

    def untold(self, at: int, got: Sequence[bytes]) -> set[str]:
        """What may be told of the connection at this place, which was not answered: 34 where an act stands that it asked, 30 where it was not done. Of what
        does nothing both may be: a response is written to memory before it is sent, and 34 is told where that finds none."""
        if at == 0 and got[1] == self.before != self.after:
            return {NO_MEMORY}
        return {WRITE_FAULT} if at == 0 and got[1] == self.after != self.before else {NO_MEMORY, WRITE_FAULT}


def kind_of(it: Exchange, response: bytes) -> str:
    """What a response is called where the runs are counted."""
    return {it.right: "right", it.before: "right", it.after: "right", it.again: "right", MEMORY: "refused 30", STORE: "refused 31", STOPPED: "refused 32",
            b"": "not answered"}.get(response, "another")


def look_at_ends(runs: Runs, it: Exchange, got: Sequence[bytes], ends: Sequence[str]) -> None:
    """Whether of each connection is told that it was answered, or why not."""
    for at, (response, end) in enumerate(zip(got, ends)):
        runs.seen[f"told {end}"] += 1
        if end not in ({"answered"} if response else it.untold(at, got)):
            runs.bad("how a connection ended", at, end, response)


def refused(runs: Runs, it: Exchange, at: int) -> bool:
    """One run with the request for memory of this number refused. False where it was not made."""
    got: list[bytes] = []
    ended: Union[Ended, Fault]
    with runs.server(3, "fail_malloc", ("--verbose",), settings={"FAIL_AT": at, "FAIL_BEHIND_ACCEPT": 1}) as server:
        try:
            for raw in (it.raw, PLACES, it.raw):
                got.append(server.exchange(raw))
            ended, ends = parted(server.end())
            look_at_ends(runs, it, got, ends)
        except Late:
            raise
        except Fault as fault:
            ended = fault
    if not runs.told():
        return False
    runs.counts["memory"] += 1
    runs.seen.update(kind_of(it, response) for response in got)
    # Where all were answered the memory was wanted as the desk was closed.
    closings = [Ended(0, "", server.says)]
    closings += [Ended(2, "", f"{server.says}tcdesk: cannot use {what}\n") for what in ("memory", "kept.db") if b"" not in got]
    if got not in it.ways() or ended not in closings:
        runs.bad(f"request {at} for memory of {it.raw[:20]!r}", got, ended)
    once(runs, it, f"request {at} for memory of {it.raw[:20]!r}, and again")
    return True


def once(runs: Runs, it: Exchange, name: str) -> None:
    """Sends the request again to a server that lacks nothing: it was done once in all."""
    got, kept = in_time(lambda: runs.again([it.raw, PLACES])), kept_tables(f"{runs.folder}/kept.db", "mode=ro&immutable=1")
    if got not in ([it.right, it.after], [it.again, it.after]) or kept is None or (len(kept.request), kept.reply) != (it.enters, it.keeps):
        runs.bad(name, got, kept and kept.reply)


def called(runs: Runs, raw: bytes) -> None:
    """A desk that was called so before, to be left for runs of repeats."""
    runs.left = "left.db"
    def once_called() -> None:
        with runs.server(1) as server:
            server.exchange(raw)
            server.end()
    in_time(once_called)
    shutil.copy(f"{runs.folder}/kept.db", f"{runs.folder}/called.db")


def memory(runs: Runs) -> None:
    """Each request for memory of an exchange and of its repeats, or each of some steps, is refused in turn."""
    entry, stack = act(ENTRY), load("stack", "s1", posts.rows(3))
    others: list[tuple[bytes, int]] = [(act("tick"), 3), (act("report 0 9"), 1), (get("/history/1/0"), 2), (b"GET /none HTTP/1.1\n\n", 2),
                                       (requests.padded(8193), 2), (act("x" * 201), 1), (post("/acts", "{"), 2)]
    for raw, step, is_called in ((entry, 1, False), (entry, 1, True), (stack, 5, False), (stack, 5, True), *((*it, False) for it in others)):
        if is_called:
            called(runs, raw)
        it, at = Exchange(runs, raw, is_called), 1
        runs.left = it.left
        while in_time(lambda: refused(runs, it, at)):
            at += step
        if at == 1:
            runs.bad(f"{raw[:20]!r}: no request for memory was counted")
    runs.left = "left.db"
    if not all(runs.seen[it] for it in ("right", "refused 30", "refused 31", "refused 32", f"told {NO_MEMORY}", f"told {WRITE_FAULT}")):
        runs.bad("no run was right, or none was refused 30, 31 or 32, or told so", dict(runs.seen))


# ---- the disk

def small_files(size: int) -> Callable[[], None]:
    """No file of the process may pass this size."""
    def limit() -> None:
        signal.signal(signal.SIGXFSZ, signal.SIG_IGN)
        resource.setrlimit(resource.RLIMIT_FSIZE, (size, size))
    return limit


def full_disk() -> list[Case]:
    """Cases of a desk whose database cannot be written: an act finds it so, and from then on all that reaches the desk is refused for that, whatever its text,
    its moment and its name are."""
    return [Case("a question", PLACES, 0), Case("an act", act(ENTRY), 31), Case("a question behind it", PLACES, 32),
            Case("the act again", act(ENTRY), 32), Case("an act behind it", act(ENTRY, number=8), 32), Case("a history", get("/history/1/0"), 32),
            Case("a posted question", act("link", number=9), 32), Case("a report", get("/report/0/9"), 32),
            Case("a stack", load("stack", "s1", posts.rows(3)), 32), Case("a procedure", load("procedure", "p1", posts.steps(3)), 32),
            Case("an act that is none", act("x"), 32), Case("an act that is too long", act("x" * 201), 32),
            Case("an act at no moment", act(ENTRY, moment=-1), 32), Case("a stack of a bad name", load("stack", "No", posts.rows(1)), 32),
            Case("a long stack of a bad name", load("stack", "No", posts.rows(201)), 32),
            Case("a bad person", act(ENTRY, "desk"), 1), Case("a bad number", act(ENTRY, number=0), 1), Case("no number", act(ENTRY, number=None), 1),
            Case("a bad number of a long act", act("x" * 201, number=0), 1), Case("no JSON", post("/acts", "{"), 1),
            Case("a number out of form", get("/requests/x"), 1), Case("no path", get("/none"), NO_PATH), Case("another method", get("/acts"), OTHER_METHOD),
            Case("a long body", post("/acts", "", length=65537), LARGE), Case("a question in the end", PLACES, 32)]


def stopping(runs: Runs, count: Optional[int], words: Sequence[str], late: bytes) -> tuple[list[bytes], Ended, str]:
    """What a server whose disk is full answers to a question, to an act, and to this act, whose last byte comes then; how it ended, and what it said
    first."""
    with runs.server(count, words=words, first=small_files(5000)) as server:
        server.listening()
        began = time.monotonic()
        with server.connect() as waits:
            send(waits, late[:-1])
            got = [server.exchange(PLACES), server.exchange(act(ENTRY))]
            send(waits, late[-1:])
            got.append(received(waits))
        if time.monotonic() - began > FAIR:
            raise Late("what is on its way as a desk stops")
        return got, server.end(), server.listens


def stops(runs: Runs) -> None:
    """The same, where the server is to end by that: what is on its way is answered, and it ends with status 3 and its reason, whatever count is left."""
    it, late = Exchange(runs, act(ENTRY)), act(ENTRY, number=8)
    says = "tcdesk: kept.db has stopped: its tables could not be written\n"
    counts: tuple[tuple[Optional[int], list[str]], ...] = ((None, []), (None, ["--end-when-stopped"]), (9, ["--end-when-stopped"]))
    for count, words in counts:
        got, ended, listens = in_time(lambda: stopping(runs, count, words, late))
        runs.counts["disk"] += 1
        if got != [it.before, STORE, STOPPED] or ended != Ended(3, "", listens + says):
            runs.bad(f"a server that stops, {count} {words}", got, ended)
        once(runs, it, f"a server that stopped, {count} {words}, and then longer files")


def served(runs: Runs, told: Sequence[Case], size: int) -> tuple[list[bytes], Ended, str]:
    """What a server whose files may not pass this size answers to these cases; how it ended, and what it has to say."""
    with runs.server(len(told), first=small_files(size)) as server:
        return [server.exchange(case.raw) for case in told], server.end(), server.says


def disk(runs: Runs) -> None:
    """The database cannot be written: 31, and then 32 of all that reaches the desk. The same number is done once, where there is room again."""
    told, it = full_disk(), Exchange(runs, act(ENTRY))
    right = Expected(runs.folder, told)
    ends: dict[Want, bytes] = {31: STORE, 32: STOPPED}
    wanted = [ends.get(case.want, response) for case, response in zip(told, right.responses)]
    # with fewer bytes than some hundred the file cannot be opened
    for size in (1000, 4151, 4152, 5000):
        got, ended, says = in_time(lambda: served(runs, told, size))
        runs.counts["disk"] += 1
        for case, response, found in zip(told, wanted, got):
            if response != found:
                runs.bad(f"files of {size} bytes: {case.name}", found, response)
        if (ended.status, ended.err) not in ((0, says), (2, f"{says}tcdesk: cannot use kept.db\n")):
            runs.bad(f"files of {size} bytes", ended)
        once(runs, it, f"files of {size} bytes, and then longer ones")


# ---- a file on which the system does not report

def refused_port(runs: Runs, name: str, port: int, error: int) -> Ended:
    """How a server ends on a desk's file, at a port that is in use, where each look at the file fails with this error; 0 for none."""
    env = {**os.environ, "LD_PRELOAD": f"{runs.folder}/fail_looks.so", "LOOK_FILE": name, "LOOK_ERROR": str(error)}
    done = subprocess.run([runs.program, "serve", name, str(port)], cwd=runs.folder, env=env, stdin=subprocess.DEVNULL, capture_output=True,
                          timeout=PATIENCE, check=False)
    return Ended(done.returncode, done.stdout.decode("ascii"), done.stderr.decode("ascii"))


def desks_in(folder: str) -> dict[str, bytes]:
    """The bytes of each desk's file in a folder; and which logs stand beside them, of which a look may write one that holds nothing."""
    return {it: bytes_of(f"{folder}/{it}") if it.endswith(".db") else b"" for it in os.listdir(folder) if ".db" in it}


def looks(runs: Runs) -> None:
    """At a port in use, a file on which the system does not report is told as one that cannot be used, and is left; only where it says that none is there is one made,
    and removed."""
    made_shim("fail_looks", runs.folder)
    stood = desks_in(runs.folder)
    no_file, no_port = "tcdesk: cannot use {}\n", "tcdesk: cannot use port {}\n"
    cases = [(errno.EIO, "left.db", no_file), (errno.EACCES, "left.db", no_file + "tcdesk: because there is no permission for it\n"), (0, "left.db", no_port),
             (0, "none.db", no_port)]
    with socket.socket() as taken:
        taken.bind(("127.0.0.1", 0))
        taken.listen()
        port = int(taken.getsockname()[1])
        for error, name, says in cases:
            runs.counts["looks"] += 1
            ended = refused_port(runs, name, port, error)
            left = desks_in(runs.folder)
            if ended != Ended(2, "", says.format(name if says != no_port else port)) or left != stood:
                runs.bad(f"a port in use, and the error {error} of {name}", ended, sorted(left))


class HttpFaults(unittest.TestCase):
    """Faults of a server."""

    def setUp(self) -> None:
        """A folder to work in, and no run yet."""
        folder = tempfile.TemporaryDirectory(prefix="fail-http-", dir=quick_folder())
        self.addCleanup(folder.cleanup)
        self.runs = Runs(ASKED.program, folder.name)

    def tearDown(self) -> None:
        """How many runs there were; none may have been bad."""
        counts = self.runs.counts
        seen = ", ".join(f"{count} {name}" for name, count in sorted(self.runs.seen.items()))
        print(f"fail http: {counts['streams']} stream runs, {counts['memory']} memory runs ({seen}),"
              f" {counts['disk']} of the disk, {counts['looks']} of a port in use, {counts['bad']} bad")
        self.assertEqual(0, counts["bad"], "runs were bad")

    def test_streams(self) -> None:
        """Reads and writes that fail, or take little."""
        streams(self.runs)

    def test_memory(self) -> None:
        """Memory that is refused."""
        memory(self.runs)

    def test_disk(self) -> None:
        """A disk that is full."""
        disk(self.runs)
        stops(self.runs)

    def test_looks(self) -> None:
        """A file on which the system does not report."""
        looks(self.runs)
