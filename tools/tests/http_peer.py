"""How the tools for HTTP start the built program's server, speak to it over real sockets, and know what it has to answer: a response is what
model/http.py makes of what the plain desk replies.
"""
import os
import random
import re
import socket
import struct
import subprocess
import time
from typing import Callable, Iterable, Optional, Sequence, TypeVar, Union

from generate.http_words import NOTHING, Case
from model.calls import Calls
from model.desk import Desk
from model.facts import status_of
from model.http import Acts, Asks, Called, Loads, Refused, answer_to, fault_of, refusal_in, reply_response
from tests.new_desks import said_first, said_then, without_beside
from tests.runs import Ended

PATIENCE = float(os.environ.get("PATIENCE", "60"))  # seconds for one exchange, or for the program to begin or to end
SLOW = PATIENCE / 12  # seconds in which a request that comes a byte at a time has to be answered: 5, where nobody asks for more patience
TRIES = 5  # of what was late
FAIR = 4.0  # seconds in which a test has to send what a server waits for: that lets a peer go of which no byte came for 5
HERE = "127.0.0.1"
RST = struct.pack("ii", 1, 0)  # a socket that is closed resets its connection


Found = TypeVar("Found")


class Fault(Exception):
    """What goes no further."""


class Late(Fault):
    """A test or a server had no processor for so long that a peer was let go meanwhile, or that nothing could be in time: what came says nothing of
    the program, and the case is tried again."""


def in_time(tried: Callable[[], Found], again: Callable[[], object] = lambda: None) -> Found:
    """What that comes to, which is tried again where it was late, after this; five times at most."""
    for _ in range(1, TRIES):
        try:
            return tried()
        except Late as late:
            print(f"tried again: {late}", flush=True)
            again()
    return tried()


def told_of_one(line: str) -> tuple[int, str]:
    """The number of the connection of which a line tells, and how that ended."""
    number, how = line.removeprefix("tcdesk: connection ").strip().split(": ")
    return int(number), how


def parted(ended: Ended) -> tuple[Ended, list[str]]:
    """How a program ended but for what it said of connections; and how it said that each of these ended, in the order in which they were taken: those
    that end beside each other are told in any order. There has to be one line of each."""
    lines = ended.err.splitlines(keepends=True)
    told = sorted(told_of_one(it) for it in lines if it.startswith("tcdesk: connection "))
    is_each = [number for number, _ in told] == list(range(1, len(told) + 1))
    rest = "".join(it for it in lines if not it.startswith("tcdesk: connection "))
    return ended._replace(err=rest), [how if is_each else f"{number}: {how}" for number, how in told]


# ---- the server

def reserved_port() -> tuple[socket.socket, int]:
    """A port that nobody has, below those that the system gives to those who connect, and a socket that holds it. Until that is closed nobody else
    who asks so gets the port. A server that is told it does: both allow that an address is used again, and the socket does not listen."""
    while True:
        held, port = socket.socket(), random.randrange(20000, 30000)
        try:
            held.bind((HERE, port))
        except OSError:
            held.close()
            continue
        held.setsockopt(socket.SOL_SOCKET, socket.SO_REUSEADDR, 1)
        return held, port


RESERVED: list[socket.socket] = []  # the ports that were given out, which stay reserved for as long as this process lives


def free_port() -> int:
    """A port that nobody has, for a server that allows that its address is used again."""
    held, port = reserved_port()
    RESERVED.append(held)
    return port


class Server:
    """The program as it serves a desk in a file, for so many connections. It is killed at the end of the block, if it has not ended."""

    def __init__(self, program: str, folder: str, database: str, count: Optional[int], words: Sequence[str] = (), env: Optional[dict[str, str]] = None,
                 first: Optional[Callable[[], None]] = None, port: Optional[int] = None, told: Optional[str] = None, stdin: int = subprocess.DEVNULL) -> None:
        """Starts it in a session of its own, without a word for how many connections where that is None, with these variables beside those of this process,
        after that call, and with that standard input. What it writes to descriptor 9 comes into the file `told`."""
        def begin() -> None:
            if told:
                os.dup2(os.open(told, os.O_WRONLY | os.O_CREAT | os.O_TRUNC), 9)
            if first:
                first()
        self.reserved: Optional[socket.socket] = None
        if port is None:
            self.reserved, port = reserved_port()
        self.port, self.count = port, count
        self.first = said_first(folder, ["serve", database])
        self.files = [open(f"{folder}/served.{it}", "w+b") for it in ("out", "err")]
        words = [program, "serve", database, str(self.port), *([] if count is None else [str(count)]), *words]
        self.process = subprocess.Popen(words, cwd=folder, stdin=stdin, stdout=self.files[0], stderr=self.files[1], close_fds=False,
                                        preexec_fn=begin, env={**os.environ, **(env or {})}, start_new_session=True)

    def __enter__(self) -> "Server":
        return self

    def __exit__(self, *_: object) -> None:
        if self.process.poll() is None:
            self.process.kill()
        self.process.wait()
        for file in self.files:
            file.close()
        if self.reserved:
            self.reserved.close()

    @property
    def listens(self) -> str:
        """What it says on the standard error until it listens: also that its desk is a new one, where that is so."""
        return f"{self.first}tcdesk: listening on {HERE}:{self.port}\n"

    @property
    def says(self) -> str:
        """All that it says there, where every connection was served."""
        return f"{self.listens}tcdesk: ended after {self.count} connections\n"

    def connect(self) -> socket.socket:
        """A connection to it. Before it listens a connection is refused, so that none is counted; one that is reset comes to a server that just ended."""
        end = time.monotonic() + PATIENCE
        while True:
            peer = socket.socket()
            peer.settimeout(PATIENCE)
            peer.setsockopt(socket.IPPROTO_TCP, socket.TCP_NODELAY, 1)
            try:
                peer.connect((HERE, self.port))
                return peer
            except (ConnectionRefusedError, ConnectionResetError):
                peer.close()
                if self.process.poll() is not None:
                    raise Fault(f"the server has ended: {self.said()}") from None
                if time.monotonic() > end:
                    raise Fault("the server does not listen") from None
                time.sleep(0.002)

    def said(self) -> Ended:
        """How the program ended and what it printed, once it has ended."""
        texts = []
        for file in self.files:
            file.seek(0)
            texts.append(file.read().decode("latin-1"))
        return Ended(self.process.returncode, texts[0], without_beside(texts[1]))

    def end(self) -> Ended:
        """Waits for the program to end by itself."""
        try:
            self.process.wait(PATIENCE)
        except subprocess.TimeoutExpired:
            raise Fault("the server does not end after its last connection") from None
        return self.said()

    def listening(self) -> None:
        """Waits until it says that it listens."""
        end = time.monotonic() + PATIENCE
        while True:
            with open(self.files[1].name, encoding="latin-1") as said:
                if f"tcdesk: listening on {HERE}:{self.port}\n" in said.read():
                    return
            if self.process.poll() is not None or time.monotonic() > end:
                raise Fault(f"the server does not listen: {self.said()}")
            time.sleep(0.002)

    def quiet(self) -> None:
        """Waits until it has taken all connections that were made, has read all that was sent to it, and sleeps."""
        end = time.monotonic() + PATIENCE
        while unread(self.port) or state_of(self.process.pid) != "S":
            if time.monotonic() > end:
                raise Late("the server does not read what was sent to it")
            time.sleep(0.002)

    def exchange(self, raw: bytes, size: Optional[int] = None, pause: float = 0.0, shuts: bool = False) -> bytes:
        """Sends these bytes, in pieces of this size, and reads the answer to its end; what came of it where the time is over. It is late where the
        answer is not whole and the server could have let the peer go."""
        began = time.monotonic()
        got = self.exchanged(raw, size, pause, shuts)
        if time.monotonic() - began >= FAIR and not is_response(got):
            raise Late(f"{raw[:20]!r}: {time.monotonic() - began:.1f} s, and no answer")
        return got

    def exchanged(self, raw: bytes, size: Optional[int], pause: float, shuts: bool) -> bytes:
        """The same, however long it takes."""
        with self.connect() as peer:
            try:
                send(peer, raw, size, pause)
                if shuts:
                    peer.shutdown(socket.SHUT_WR)
            except (BrokenPipeError, ConnectionResetError):
                pass
            except OSError as fault:
                if fault.errno != 107:  # the peer has closed by now
                    raise
            return received(peer)


def is_response(got: bytes) -> bool:
    """Whether these bytes are a whole response."""
    head, end, body = got.partition(b"\r\n\r\n")
    length = re.search(rb"\r\nContent-Length: (\d+)(?:\r\n|\Z)", head)
    return bool(end and length and len(body) == int(length[1]))


def connections() -> list[list[str]]:
    """The lines of the system's table of sockets for those that listen, are connected, or have been left by their peer alone."""
    with open("/proc/net/tcp", encoding="ascii") as file:
        rows = [line.split() for line in file.readlines()[1:]]
    return [row for row in rows if row[3] in ("01", "08", "0A")]


def unread(port: int) -> bool:
    """Whether something lies before the server at this port: a connection that it has not taken, or bytes that it has not read."""
    return any(row[1].endswith(f":{port:04X}") and int(row[4].split(":")[1], 16) for row in connections())


def state_of(process: int) -> str:
    """What the system says of a process: R where it runs or waits for a processor, S where it sleeps, T where it was stopped."""
    with open(f"/proc/{process}/stat", encoding="latin-1") as file:
        return file.read().rpartition(")")[2].split()[0]


def send(peer: socket.socket, raw: bytes, size: Optional[int] = None, pause: float = 0.0) -> None:
    """Sends these bytes in pieces of this size, with so many seconds between them."""
    size = size or max(1, len(raw))
    for at in range(0, len(raw), size):
        if at and pause:
            time.sleep(pause)
        peer.sendall(raw[at:at + size])


def received(peer: socket.socket) -> bytes:
    """What comes until the peer closes. A reset behind the last byte is an end too: so a system closes where bytes were left unread."""
    got, end = b"", time.monotonic() + PATIENCE
    while time.monotonic() < end:
        try:
            more = peer.recv(65536)
        except ConnectionResetError:
            return got
        except TimeoutError:
            break
        if not more:
            return got
        got += more
    return got + b"[and no end within the time]"


def reset(peer: socket.socket) -> None:
    """Closes a connection by a reset, and waits until that was sent: a program that another thread just starts has the connection until it begins."""
    peer.setsockopt(socket.SOL_SOCKET, socket.SO_LINGER, RST)
    port, end = peer.getsockname()[1], time.monotonic() + PATIENCE
    peer.close()
    while any(row[1].endswith(f":{port:04X}") for row in connections()):
        if time.monotonic() > end:
            raise Late("a connection that was reset is there still")
        time.sleep(0.002)


# ---- what has to be answered

def run(program: str, folder: str, lines: Iterable[str], *words: str, seconds: float = 900) -> str:
    """Runs a script of these lines, which says nothing on the standard error but of a new desk. It fails if that takes more than so many seconds."""
    with open(f"{folder}/script.tc", "w", encoding="ascii", newline="") as file:
        file.write("".join(f"{it}\n" for it in lines))
    words = ("run", *words, "script.tc")
    first = said_first(folder, words)
    ran = subprocess.run([program, *words], cwd=folder, stdin=subprocess.DEVNULL, capture_output=True, timeout=seconds, check=False)
    ended = Ended(ran.returncode, ran.stdout.decode("latin-1"), said_then(first, ran.returncode, ran.stderr.decode("latin-1")))
    if ended.status > 1 or ended.err:
        raise Fault(f"a run of a script: {ended}")
    return ended.out


def line_of(asked: Union[Asks, Called], folder: str, number: int) -> Optional[str]:
    """The script's line that asks the same of the desk; none where no line can, and the desk cannot read the act."""
    if isinstance(asked, Asks):
        return f"0 zed {asked.act}"
    if fault_of(asked):
        return None
    if isinstance(asked, Loads):
        with open(f"{folder}/load{number}.csv", "w", encoding="utf-8", newline="") as file:
            file.write(asked.csv)
        return f"{asked.moment} {asked.by} {asked.kind} {asked.name} load{number}.csv"
    is_line = re.fullmatch("[ -~]*", asked.act) and asked.act.split(" ")[0] not in ("stack", "procedure")
    return f"{asked.moment} {asked.by} {asked.act}" if is_line else None


def wanted(want: Union[int, Refused]) -> tuple[str, int]:
    """The status and the refusal of what a case wants by its writer."""
    if isinstance(want, Refused):
        return f"{want.status}", int(want.refusal)
    return f"{status_of(want)}", want


class Expected:
    """The responses that a list of cases has to be given, one after the other, by a new desk or by this one, which goes on; the lines of a script
    that asks the same, without what a kept reply answers, whose files are written to a folder; and what the writer of a case and the plain reading dispute."""

    def __init__(self, folder: str, cases: Sequence[Case], desk: Optional[Desk] = None) -> None:
        """Asks the plain desk."""
        self.calls = Calls(desk or Desk())
        self.lines: list[str] = []
        self.told: list[str] = []
        self.responses: list[bytes] = []
        self.refusals: set[int] = set()
        self.disputed: list[tuple[Case, object]] = []
        for at, case in enumerate(cases):
            asked = answer_to(case.raw)
            self.add(case, b"" if asked is None else self.answer(asked, folder, at) if isinstance(asked, (Asks, Acts, Loads)) else self.calls.response(asked))

    def answer(self, asked: Union[Asks, Called], folder: str, at: int) -> bytes:
        """The response of the desk."""
        kept = None if isinstance(asked, Asks) else self.calls.kept_for(asked)
        line = None if kept else line_of(asked, folder, at)
        reply = self.calls.reply(asked)
        self.lines += [line] if line else []
        self.told += [] if kept else reply
        return reply_response(reply)

    def add(self, case: Case, response: bytes) -> None:
        """One response more, none where nothing is answered."""
        self.responses.append(response)
        found: object = NOTHING
        if response:
            status, refusal = response.split(b" ")[1].decode(), refusal_in(response)
            self.refusals.add(refusal)
            found = (status, refusal)
        want = case.want
        if want is not None and found != (NOTHING if isinstance(want, str) else wanted(want)):
            self.disputed.append((case, found))
