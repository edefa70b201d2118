"""How a server ends, and what it tells of its opening: by the end of its standard input, by signals to the start script of dist/, and by a desk that has stopped;
each time what is on its way is answered, and the file alone is the whole desk. A desk that was killed is opened again, and `GET /opening` tells it.
"""
import os
import resource
import select
import shutil
import signal
import socket
import subprocess
import time
from contextlib import contextmanager
from typing import Iterator, Optional

from generate.http_words import ENTRY, PLACES, Case, act, get
from model.desk import Desk
from model.http import reply_response
from tests.asked import ASKED, TOP
from tests.http_cases import Served
from tests.http_peer import PATIENCE, Ended, Server, received, run, send
from tests.plain_runs import kept_tables, unlike

LAST, SLACK = 5.0, 4.0  # seconds that what is on its way has at most, and that a busy machine may add
BY_INPUT = "tcdesk: ended with the standard input\n"
STORE, STOPPED = (reply_response([it]) for it in ("refused 31 Store", "refused 32 Stopped"))


def small_files() -> None:
    """No file of the process may grow past a desk of a few requests."""
    signal.signal(signal.SIGXFSZ, signal.SIG_IGN)
    resource.setrlimit(resource.RLIMIT_FSIZE, (5000, 5000))


def interruptible() -> None:
    """An interrupt reaches the start script: a shell cannot trap one that was ignored as it began, as behind `&` in a script."""
    signal.signal(signal.SIGINT, signal.SIG_DFL)


class Ends(Served):
    """Servers that end."""

    def setUp(self) -> None:
        """The start script, in a folder of its own, with the program beside it."""
        super().setUp()
        os.makedirs(f"{self.cases.work}/start/x86_64-linux-gnu")
        shutil.copy(f"{TOP}/dist/tcdesk", f"{self.cases.work}/start/tcdesk")
        os.symlink(os.path.realpath(ASKED.program), f"{self.cases.work}/start/x86_64-linux-gnu/tcdesk")
        self.script = f"{self.cases.work}/start/tcdesk"

    def started(self, folder: str, *words: str, count: Optional[int] = None) -> Server:
        """A server that the start script runs."""
        return Server(self.script, folder, "desk.db", count, words, first=interruptible)

    def whole(self, name: str, folder: str, desk: Desk) -> None:
        """A copy of the file alone holds all of a desk."""
        shutil.copy(f"{folder}/desk.db", f"{folder}/alone.db")
        self.cases.tell(f"{name}: the file alone", "", unlike(kept_tables(f"{folder}/alone.db", "mode=ro&immutable=1"), desk.tables()))

    def worked(self, name: str, server: Server, folder: str) -> Desk:
        """Two acts and a question, and the plain desk that answers the same."""
        desk = Desk()
        made = self.cases.expected(folder, [Case("", act(ENTRY, number=1)), Case("", act(ENTRY, number=2)), Case("", PLACES)], desk)
        for raw, right in zip((act(ENTRY, number=1), act(ENTRY, number=2), PLACES), made.responses):
            self.cases.tell(f"{name}: {raw[:12]!r}", right, server.exchange(raw))
        return desk

    def test_input(self) -> None:
        """A server that ends with its standard input, which is a pipe or a socket: bytes before the end are nothing to it."""
        for kind in ("a pipe", "a socket"):
            folder = self.cases.folder()
            if kind == "a pipe":
                theirs, ours = os.pipe()
            else:
                theirs, ours = (it.detach() for it in socket.socketpair())
            with self.cases.server(folder, None, "--until-eof", stdin=theirs) as server:
                os.close(theirs)
                desk = self.worked(kind, server, folder)
                os.write(ours, b"x\n" * 9000)
                self.cases.tell(f"{kind}: behind its bytes", None, server.process.poll())
                os.close(ours)
                self.cases.tell(f"{kind}: its end", Ended(0, "", server.listens + BY_INPUT), server.end())
            self.whole(kind, folder, desk)

    def test_no_input(self) -> None:
        """A standard input that cannot be waited for is told, and nothing is made; with a count the server may end by that."""
        folder = self.cases.folder()
        with open(f"{folder}/input", "w+b") as file:
            for name, stdin in (("/dev/null", subprocess.DEVNULL), ("a file", file.fileno())):
                with self.cases.server(folder, None, "--until-eof", stdin=stdin) as server:
                    self.cases.tell(f"{name} as the input", Ended(2, "", "tcdesk: cannot use standard input\n"), server.end())
        self.cases.tell("what it made", False, os.path.exists(f"{folder}/desk.db"))
        theirs, ours = os.pipe()
        with self.cases.server(folder, 1, "--until-eof", stdin=theirs) as server:
            server.exchange(PLACES)
            self.cases.ended("a count before the end of the input", server)
        os.close(theirs)
        os.close(ours)

    def test_on_its_way(self) -> None:
        """What is on its way as the input ends is answered, if it is whole soon; a peer that says no more is let go, and nobody is taken any more."""
        folder = self.cases.folder()
        theirs, ours = os.pipe()
        with self.cases.server(folder, None, "--until-eof", stdin=theirs) as server:
            os.close(theirs)
            desk = Desk()
            right = self.cases.expected(folder, [Case("", act(ENTRY))], desk).responses[0]
            server.exchange(PLACES)  # a port takes connections before the desk is open
            with self.cases.soon("what was on its way", LAST + SLACK), server.connect() as late, server.connect() as silent:
                with self.cases.soon("what is on its way"):
                    send(late, act(ENTRY)[:-1])
                    send(silent, PLACES[:-1])
                    server.quiet()  # it has taken both
                    os.close(ours)
                    time.sleep(0.5)
                    self.cases.tell("while something is on its way", None, server.process.poll())
                    send(late, act(ENTRY)[-1:])
                    self.cases.tell("what was on its way", right, received(late))
                self.cases.tell("what was never whole", b"", received(silent))
                self.cases.tell("its end", Ended(0, "", server.listens + BY_INPUT), server.end())
        self.whole("what was on its way", folder, desk)

    @contextmanager
    def signalled(self, name: str) -> Iterator[Server]:
        """A desk that the start script serves, which was worked; then, behind what is done, it has ended well, and its file is whole."""
        folder = self.cases.folder()
        with self.started(folder) as server:
            desk = self.worked(name, server, folder)
            yield server
            self.cases.tell(f"{name}: its end", Ended(0, "", server.listens + BY_INPUT), server.end())
        self.whole(name, folder, desk)

    def test_signals(self) -> None:
        """TERM and INT, to the script alone or to it and the program, are the end; HUP is nothing."""
        for number in (signal.SIGTERM, signal.SIGINT):
            with self.signalled(f"{number.name} to the script") as server:
                os.kill(server.process.pid, number)
            with self.signalled(f"{number.name} to all") as server:
                os.killpg(server.process.pid, number)
            with self.signalled(f"{number.name} twice") as server:
                os.kill(server.process.pid, number)
                os.kill(server.process.pid, number)
        with self.signalled("HUP") as server:
            for _ in range(3):
                os.killpg(server.process.pid, signal.SIGHUP)
                time.sleep(0.2)
                self.cases.tell("a question behind HUP", True, b"places 2: 2 0" in server.exchange(PLACES))
            os.kill(server.process.pid, signal.SIGTERM)

    def test_killed(self) -> None:
        """The script is killed: its end of the pipe is closed, and the server ends by that, its file whole."""
        folder, (ends, end) = self.cases.folder(), os.pipe()
        os.set_inheritable(end, True)
        with self.started(folder) as server:
            os.close(end)  # the script and all that it starts have it, and nobody writes to it
            desk = self.worked("the script is killed", server, folder)
            server.process.kill()
            server.process.wait()
            self.cases.tell("its end, in time", [ends], select.select([ends], [], [], PATIENCE)[0])
            self.cases.tell("what it said", server.listens + BY_INPUT, server.said().err)
        os.close(ends)
        self.whole("the script was killed", folder, desk)

    def test_status(self) -> None:
        """The script ends as the program does: by a count, by words that are none, and where the caller asks for the end of the input."""
        folder = self.cases.folder()
        with self.started(folder, count=1) as server:
            server.exchange(PLACES)
            self.cases.ended("a count, by the script", server)
        ran = subprocess.run([self.script, "serve", "desk.db", "0"], cwd=folder, stdin=subprocess.DEVNULL, capture_output=True, check=False)
        self.cases.tell("no port, by the script", (2, b""), (ran.returncode, ran.stdout))
        ran = subprocess.run([self.script, "serve", "--help"], cwd=folder, stdin=subprocess.DEVNULL, capture_output=True, check=False)
        self.cases.tell("help, by the script", (0, True, b""), (ran.returncode, b"--until-eof" in ran.stdout, ran.stderr))
        with self.started(folder, "--until-eof") as server:
            self.cases.tell("the input of the caller", Ended(2, "", "tcdesk: cannot use standard input\n"), server.end())

    def test_stopped(self) -> None:
        """A desk that has stopped, served by the script: 31 is answered, and it ends with status 3, which tells why; with a count it answers 32 on."""
        for count, ends in ((None, True), (4, False)):
            folder = self.cases.folder()
            run(ASKED.program, folder, [], "--db", "desk.db")
            with Server(self.script, folder, "desk.db", count, first=small_files) as server:
                told = [server.exchange(it) for it in (act(ENTRY, number=1), *([] if ends else [PLACES, get("/board"), get("/opening")]))]
                ended = server.end()
            self.cases.tell(f"a desk that stops, {count}", [STORE, *([] if ends else [STOPPED, STOPPED, reply_response(["opening 0 at 0"])])], told)
            says = "tcdesk: desk.db has stopped: its tables could not be written\n"
            self.cases.tell(f"how it ended, {count}", (3, server.listens + says) if ends else (0, server.says), (ended.status, ended.err))

    def test_opening(self) -> None:
        """Before and after a kill: what moved since nothing tells of the opening, and the next one counts its own moves."""
        folder, desk = self.cases.folder(), Desk()
        for turn, moment in enumerate((0, 500, 900)):
            desk = Desk.opened(desk.tables(), moment) if turn else desk
            texts = (ENTRY, "approve 1", "initiate none", "release 1")
            raws = [act(it, "bob" if it == "approve 1" else "ann", number=10 * turn + at) for at, it in enumerate(texts, 1)]
            asked = [get("/opening"), *raws, get("/opening"), get("/board")]
            made = self.cases.expected(folder, [Case("", it) for it in asked], desk)
            line = f'"opening {desk.stood} at {moment}"'.encode()
            self.cases.tell(f"the opening {turn}, as it is due", [True, True], [line in made.responses[at] for at in (0, -2)])
            with self.cases.server(folder, None, "--at", str(moment)) as server:
                for raw, right in zip(asked, made.responses):
                    self.cases.tell(f"opening {turn}: {raw[:18]!r}", right, server.exchange(raw))
                server.process.kill()
