"""The program's server over real sockets: each byte of its answers.

What has to be answered is computed by a plain reading of the requirements; what the desk replies to an act is what a run
of the same acts prints. Sent are requests by lists, an act's bytes cut after each byte, in pieces of many sizes and a byte at a time, and what
rude peers send; each costs its own connection alone. After each act the places are asked for, after each list all histories; the file that was
served has to hold the plain desk's tables, the kept replies among them, and is opened and asked again. Then come words, files and ports that cannot
be used. There is a line for each case that failed.
"""
import os
import random
import re
import shutil
import socket
import subprocess
import time
from contextlib import suppress
from typing import Callable, Sequence

from generate import http_calls as calls, http_posts as posts, http_requests as requests
from generate.http_words import BODY, ENTRY, PLACES, Case, act, entry, get, load, numbered, post
from model.http import decided
from tests.http_cases import Cases, Served
from tests.http_peer import PATIENCE, SLOW, Ended, Server, free_port, parted, received, reserved_port, reset, run, send
from tests.new_desks import without_beside
from tests.runs import bytes_of

SEED = 20311126
FULL = {8, 18}  # the refusals of a desk that is full, which one test alone meets


class Pieces(Served):
    """Requests that are cut, that come in pieces, and that come slowly."""

    def test_cut(self) -> None:
        """The bytes of a request cut after each byte but the last: nothing is answered, no act is made, and 33 is told on standard error. What a
        front decides stays decided."""
        cases = self.cases
        for raw, closes in ((act(ENTRY), "a shut end"), (post("/acts", BODY, end="\n"), "a closed connection"), (act(ENTRY), "a reset"),
                            (get("/history/1/0"), "a shut end"), (b"\r\n\n" + load("stack", "s1", posts.rows(1)), "a shut end")):
            folder, fronts = cases.folder(), range(len(raw))
            name = f"{raw[:12]!r} cut by {closes}"
            last = cases.expected(folder, [Case("", raw)] + [Case("", PLACES, 0)] * 2)
            none = cases.expected(folder, [Case("", PLACES, 0)]).responses[0]
            for at in fronts:
                cases.tell(f"{name} after {at} bytes decides", None, decided(raw[:at]))
            told: list[str] = []
            with cases.server(folder, len(raw) + len(fronts[::7]) + 2, "--verbose") as server:
                for at in fronts:
                    told += ["33 ReadFault", "answered"] if at % 7 == 0 else ["33 ReadFault"]
                    if closes == "a shut end":
                        cases.tell(f"{name} after {at} bytes", b"", server.exchange(raw[:at], shuts=True))
                    else:
                        peer = server.connect()
                        send(peer, raw[:at])
                        (reset if closes == "a reset" else socket.socket.close)(peer)
                    if at % 7 == 0:
                        cases.tell(f"the places after {name} after {at} bytes", none, server.exchange(PLACES))
                cases.tell(f"{name}: all of it", last.responses[0], server.exchange(raw))
                cases.tell(f"{name}: the places", last.responses[1], server.exchange(PLACES))
                ended, ends = parted(server.end())
                cases.tell(f"{name}: the program's end", Ended(0, "", server.says), ended)
                cases.tell(f"{name}: what is told of each connection", told + ["answered"] * 2, ends)

    def test_pieces(self) -> None:
        """The bytes of requests in pieces of each size, with and without pauses: the answer is the same."""
        cases = self.cases
        dice, told = random.Random(SEED), []
        raws = [act(ENTRY), post("/acts", BODY, end="\n"), b"\r\n\n" + PLACES, get("/none"), post("/acts", "{"), act("x" * 201), act(ENTRY) + PLACES,
                load("stack", "s1", posts.rows(200)), requests.padded(8192), requests.padded(8193), b"\n" * 8193]
        for raw in raws:
            for size in (1, 2, 3, 7, 16, 61, 500, 4095, 4096, 4097):
                for pause in (0.0, 0.001):
                    if len(raw) / size * pause < 0.3:
                        told.append((Case(f"{raw[:20]!r} in pieces of {size}, {pause} s between them", raw), size, pause))
        for _ in range(60):
            told.append((Case("an act in random pieces", act(ENTRY)), dice.randrange(1, 150), dice.choice([0.0, 0.0005, 0.002])))
        folder, sent = cases.folder(), numbered(it for it, _, _ in told)
        made = cases.expected(folder, sent)
        with cases.server(folder, len(told)) as server:
            for (_, size, pause), case, response in zip(told, sent, made.responses):
                cases.tell(case.name, response, server.exchange(case.raw, size, pause))
            cases.ended("pieces", server)

    def test_slow(self) -> None:
        """The longest heads and bodies, a byte at a time."""
        cases = self.cases
        size = len(BODY)
        told = [Case("a body of 65,536 bytes", post("/acts", BODY + " " * (65536 - size)), 0),
                Case("a head of 8,192 bytes", requests.padded(8192), 0),
                Case("a head of 8,192 bytes of line ends", b"\n" * (8192 - len(PLACES)) + PLACES, 0),
                Case("8,193 bytes and no head", b"GET /" + b"a" * 8188, 17),
                Case("a head of 64 lines and a body", post("/acts", BODY + " " * 30000, *["a: b"] * 61), 0),
                Case("8,193 line ends", b"\r\n" * 4096 + b"\n", 17),
                Case("a longest head and a longest body", requests.sized(8192, BODY + "\n" * (65536 - size)), 0)]
        told = numbered(told)
        folder = cases.folder()
        made = cases.expected(folder, told)
        with cases.server(folder, len(told)) as server:
            for case, response in zip(told, made.responses):
                with cases.soon(f"{case.name}, a byte at a time", SLOW):
                    cases.tell(f"{case.name}, a byte at a time", response, server.exchange(case.raw, 1))
            cases.ended("slow", server)


def leaves(raw: bytes, how: str) -> Callable[[Server], None]:
    """Connects, sends these bytes, and leaves in this way, without reading an answer."""
    def done(server: Server) -> None:
        peer = server.connect()
        try:
            send(peer, raw)
            if how == "half":
                peer.recv(10)
        except OSError:
            pass
        (reset if how == "reset" else socket.socket.close)(peer)
    return done


def found(pattern: bytes, text: bytes) -> re.Match[bytes]:
    """Where a pattern stands in a text, in which it has to stand."""
    there = re.search(pattern, text)
    assert there, f"{pattern!r} does not stand in {text!r:.300}"
    return there


class RudePeers(Served):
    """Peers that reset, go away or stay, and servers that end."""

    def test_rude(self) -> None:
        """Peers that reset, that go away, and that send garbage: each costs its own connection, and the next one is answered."""
        cases = self.cases
        dice, folder = random.Random(SEED), cases.folder()
        told = {f"{name}, {how}": leaves(raw, how) for how in ("closed", "reset", "half") for name, raw in (
            ("a question", PLACES), ("a long answer", get("/report/0/4102444799")), ("an act that is refused", act("withdraw 9")),
            ("a bad head", b"x\r\n\r\n"),
            ("a front of a head", PLACES[:9]), ("a front of a body", act(ENTRY)[:-1])) if how != "half" or "front" not in name}
        told |= {f"nothing, {how}": leaves(b"", how) for how in ("closed", "reset")}
        sizes = (1, 10, 300, 5000, 9000, 100000)
        told |= {f"garbage {at}": leaves(dice.randbytes(dice.choice(sizes)), dice.choice(["closed", "reset"])) for at in range(60)}
        none = cases.expected(folder, [Case("", PLACES, 0)]).responses[0]
        with cases.server(folder, 2 * len(told) * 3) as server:
            for name in [it for it in told for _ in range(3)]:
                told[name](server)
                cases.tell(f"the places after a peer that leaves: {name}", none, server.exchange(PLACES))
            cases.ended("rude peers", server)

    def test_stays(self) -> None:
        """Peers that read their answer and do not close: the next one is answered all the same, and soon."""
        cases = self.cases
        folder = cases.folder()
        none = cases.expected(folder, [Case("", PLACES, 0)]).responses[0]
        with cases.server(folder, 6) as server:
            server.listening()
            for more in (b"", b"x", b"x" * 3000):
                with cases.soon("the next peer", SLOW), server.connect() as peer:
                    send(peer, PLACES)
                    cases.tell("a peer that stays", none, received(peer))
                    with suppress(OSError):  # it was let go by now
                        send(peer, more)
                    cases.tell("the next peer", none, server.exchange(PLACES))
            cases.ended("peers that stay", server)

    def test_lost_answers(self) -> None:
        """Acts whose peers go away before the answer: each is made once or not at all, those that were answered were made, and the file has them. As they
        are sent again each is made once in all."""
        cases = self.cases
        folder, acts = cases.folder(), 60
        with cases.server(folder, 3 * acts + 2) as server:
            for at in range(acts):
                leaves(act(ENTRY, f"r{at}"), ("closed", "reset")[at % 2])(server)
                leaves(act(ENTRY, f"c{at}") + b"x" * 5000, "reset")(server)
                cases.tell("an act between those whose answers are lost", b"HTTP/1.1 200", server.exchange(act(ENTRY, f"a{at}"))[:12])
            report, places = server.exchange(act("report 0 4102444799")), server.exchange(PLACES)
            cases.ended("answers that are lost", server)
        entered = int(found(rb"places (\d+): \1 0", report)[1])
        cases.tell("acts whose answers are lost, in all", True, acts <= entered <= 3 * acts)
        cases.tell("the places are those of the report", found(rb"places [^\"]*", report)[0], found(rb"places [^\"]*", places)[0])
        history = run(cases.program, folder, ["0 zed report 0 4102444799"], "--db", "desk.db")
        authors = re.findall(r"^ *\d+ \S+ \S+ (\w+) ", history, re.MULTILINE)
        cases.tell("acts that were made twice", len(authors), len(set(authors)))
        cases.tell("acts that were answered and do not stand", set(), {f"a{at}" for at in range(acts)} - set(authors))
        cases.tell("what the file tells", entered, len(authors))
        self.sent_again(folder, [act(ENTRY, f"{kind}{at}") for at in range(acts) for kind in "rca"])

    def sent_again(self, folder: str, raws: list[bytes]) -> None:
        """Sends entries again of which some stand, and all once more: each stands once."""
        cases = self.cases
        with cases.server(folder, 2 * len(raws) + 1) as server:
            told = [server.exchange(it) for it in raws]
            cases.tell("acts that are sent again", {b"HTTP/1.1 200"}, {it[:12] for it in told})
            cases.tell("the requests that they entered", len(raws), len({found(rb"ok request (\d+) ", it)[1] for it in told}))
            cases.tell("acts that are sent once more", told, [server.exchange(it) for it in raws])
            cases.tell("requests in all", b"places %d: %d 0" % (len(raws), len(raws)), found(rb"places \d+: \d+ 0", server.exchange(PLACES))[0])
            cases.ended("acts that are sent again", server)

    def test_order(self) -> None:
        """Two peers at once: the one whose request is whole first is served first, though the other connected before and has begun its own."""
        cases = self.cases
        folder = cases.folder()
        made = cases.expected(folder, [Case("", PLACES, 0), Case("", act(ENTRY), 0)])
        with cases.server(folder, 2) as server:
            server.listening()
            with cases.soon("two peers"), server.connect() as first, server.connect() as second:
                send(first, act(ENTRY)[:-1])
                send(second, PLACES)
                cases.tell("the second of two peers, whose request is whole", made.responses[0], received(second))
                first.settimeout(0.2)
                try:
                    cases.tell("the first peer, before its request is whole", "no answer", first.recv(1))
                except TimeoutError:
                    cases.tell("the first peer waits", "", "")
                first.settimeout(PATIENCE)
                send(first, act(ENTRY)[-1:])
                cases.tell("the first of two peers", made.responses[1], received(first))
            cases.ended("two peers", server)

    def test_counts(self) -> None:
        """So many connections are served, neither fewer nor more, on a desk that was left with a request on its way."""
        cases = self.cases
        folder = cases.folder()
        left = [f"0 ann {ENTRY}", "0 bob approve 1", "0 ann initiate none", "0 ann release 1"]
        run(cases.program, folder, left, "--db", "desk.db")
        for number in (1, 2, 5):
            shutil.copy(f"{folder}/desk.db", f"{folder}/plain.db")
            opened = run(cases.program, folder, [], "--db", "plain.db", "--at", "500", "--w", "30")
            moves = "".join(f"{it}\n" for it in opened.splitlines() if it.startswith("move "))
            with cases.server(folder, number, "--at", "500", "--w", "30", "--vc", "5") as server:
                for at in range(number - 1):
                    cases.tell("a connection of nothing", b"", server.exchange(b"", shuts=True))
                    cases.tell(f"{at + 1} of {number} connections", None, server.process.poll())
                time.sleep(0.1)
                cases.tell(f"before the last of {number} connections", None, server.process.poll())
                told = server.exchange(act("link"))
                cases.tell("the window of --w", True, b"flags --- w 30" in told)
                cases.ended(f"{number} connections", server, moves)
                try:
                    with socket.create_connection(("127.0.0.1", server.port), PATIENCE):
                        cases.tell(f"after {number} connections", "no more", "one more")
                except ConnectionRefusedError:
                    cases.tell(f"after {number} connections", "", "")
                with cases.server(folder, 1, port=server.port) as again:
                    again.exchange(PLACES)
                    cases.ended("the port, at once again", again)

    def test_ringed(self) -> None:
        """The link of a server is two rings, where it is told so: three control words are put where two have room. K is at most half of W."""
        cases = self.cases
        told = [*3 * [("clcw", b'["ok"]')], ("link", b"link up 0 down 2 premise kept"), ("set k 4", b"refused 12 BadDirective"),
                ("set k 3", b'["ok"]'), ("link", b" k 3 t1 ")]
        with cases.server(cases.folder(), len(told), "--ring", "2", "--w", "6") as server:
            for at, (text, want) in enumerate(told, 1):
                cases.tell(f"{text} over a ring of 2", True, want in server.exchange(act(text, number=at)))
            cases.ended("a server over a ring", server)

    def test_killed(self) -> None:
        """A server that is killed: what was answered stands, and is answered again."""
        cases = self.cases
        folder, answered = cases.folder(), dict[bytes, bytes]()
        for round_ in range(3):
            with cases.server(folder, 1000) as server:
                cases.tell("acts of before the server was killed", answered, {it: server.exchange(it) for it in answered})
                raws = [act(ENTRY, f"k{round_}n{at}") for at in range(10 + round_)]
                answered |= {it: server.exchange(it) for it in raws}
                cases.tell("acts before the server is killed", {b"HTTP/1.1 200 OK"}, {answered[it].split(b"\r\n")[0] for it in raws})
                server.process.kill()
            told = run(cases.program, folder, ["0 zed report 0 4102444799"], "--db", "desk.db")
            wanted = [f"k{it}n{at}" for it in range(round_ + 1) for at in range(10 + it)]
            cases.tell("what was answered before the server was killed", wanted, re.findall(r"\b(k\d+n\d+) ", told))


def began(cases: Cases, folder: str, words: Sequence[str]) -> Ended:
    """How the program ended that was started to serve with these words, and has to end by itself."""
    ran = subprocess.run([cases.program, "serve", *words], cwd=folder, stdin=subprocess.DEVNULL, capture_output=True, timeout=PATIENCE, check=False)
    return Ended(ran.returncode, ran.stdout.decode("latin-1"), without_beside(ran.stderr.decode("latin-1")))


def full() -> list[str]:
    """Lines after which all 16,384 identities of one application process and 1,000 stacks stand."""
    files = ["many"] * 81 + ["rest"] + ["one"] * 918
    return [f"{at} ann stack x{at} {name}.csv" for at, name in enumerate(files)]


class WordsAndFiles(Served):
    """Words, files and ports that cannot be used, and a desk that is full."""

    def test_words(self) -> None:
        """Words that are none: the usage is told, before any file or port is looked at."""
        cases = self.cases
        folder, port = cases.folder(), str(free_port())
        with open(f"{folder}/noise.db", "wb") as file:
            file.write(random.Random(SEED).randbytes(8192))
        huge = "99999999999999999999"
        options = (["--w", "3"], ["--w", "0"], ["--w", "256"], ["--vc", "64"], ["--at", "4102444800"], ["--ring", "0"], ["--ring", "4097"],
                   ["--ring", "x"], ["--ring"], ["--at", "-1"], ["--colour"], ["--db", "x.db"], ["--host"], ["--host", "a", "--host", "b"],
                   ["--until-eof=1"], ["--end-when-stopped=1"], ["--until"])
        words: list[list[str]] = [
            [], ["{db}"], ["{db}", port, "1", "x"],
            *(["{db}", it, "1"] for it in ("0", "65536", "-1", "x", "", "80.0", huge, "0x50")),
            *(["{db}", port, it] for it in ("0", "1000001", "-1", "x", "", "1.0", huge)),
            *(["{db}", port, "1", *it] for it in options)]
        for more in words:
            for db in ("new.db", "noise.db", "none/new.db"):
                asked = [it.format(db=db) for it in more]
                ran = began(cases, folder, asked)
                cases.tell(f"serve {' '.join(asked)}", (2, "", True), (ran.status, ran.out, ran.err != "" and "cannot use" not in ran.err))
        cases.tell("serve with an odd window", Ended(2, "", "tcdesk: --w must be even\n"), began(cases, folder, ["new.db", port, "1", "--w", "3"]))
        cases.tell("files that words left", ["noise.db"], os.listdir(folder))

    def test_files_and_ports(self) -> None:
        """Files and ports that cannot be used, the file first."""
        cases = self.cases
        folder = cases.folder()
        run(cases.program, folder, [f"0 ann {ENTRY}"], "--db", "desk.db")
        whole = bytes_of(f"{folder}/desk.db")
        texts = {"noise.db": random.Random(SEED).randbytes(8192), "text.db": b"no database\n" * 100, "cut.db": whole[:len(whole) // 2]}
        for name, text in texts.items():
            with open(f"{folder}/{name}", "wb") as file:
                file.write(text)
        os.mkdir(f"{folder}/folder")
        os.symlink("nowhere.db", f"{folder}/link")
        held, number = reserved_port()
        with held:
            held.listen()
            taken, port = str(number), str(free_port())
            for name in [*texts, "folder", "link", "none/new.db", ":memory:"]:
                for it in (port, taken):
                    cases.tell(f"serve {name} at a port", Ended(2, "", f"tcdesk: cannot use {name}\n"), began(cases, folder, [name, it, "1"]))
            for name, text in texts.items():
                cases.tell(f"{name} stays as it is", text, bytes_of(f"{folder}/{name}"))
            before, moment = sorted(os.listdir(folder)), os.stat(f"{folder}/desk.db").st_mtime_ns
            for name in ("new.db", "desk.db"):
                want = Ended(2, "", f"tcdesk: cannot use port {taken}\n")
                cases.tell(f"serve {name} at a port that is taken", want, began(cases, folder, [name, taken, "1"]))
            cases.tell("the files, where the port is taken", before, sorted(os.listdir(folder)))
            cases.tell("when desk.db was written", moment, os.stat(f"{folder}/desk.db").st_mtime_ns)
        cases.tell("desk.db, where the port is taken", whole, bytes_of(f"{folder}/desk.db"))
        left = sorted(it for it in os.listdir(folder) if it.endswith(".db"))
        cases.tell("files that were made", sorted([*texts, "desk.db"]), left)
        with cases.server(folder, 2) as server:
            server.exchange(PLACES)
            cases.tell("a file that is served", Ended(2, "", "tcdesk: cannot use desk.db\n"), began(cases, folder, ["desk.db", port, "1"]))
            server.exchange(PLACES)
            cases.ended("a file that is served", server)

    def test_filled(self) -> None:
        """A desk on which no more stacks, or no more requests of one application process, may stand."""
        cases = self.cases
        name = "a full desk"
        told = [Case("the stack 1,001", load("stack", "more", posts.rows(1, apid=9)), 18), Case("an identity in use", act(ENTRY), 8),
                Case("an identity in use, in a stack", load("stack", "more", posts.rows(1, apid=5)), 8),
                Case("another process", act("enter 9 a--c no 8 1 - - ok"), 0),
                Case("withdraw 1", act("withdraw 1"), 0), Case("an identity that is free again", act(ENTRY), 0), Case("the next one", act(ENTRY), 8)]
        cases.play(name, told, full(), {"many.csv": posts.rows(200, apid=5), "rest.csv": posts.rows(184, apid=5), "one.csv": posts.rows(1, apid=6)})
        cases.tell("the refusals of a desk that is full", set(), FULL - cases.refusals)


LISTS = {"sizes": requests.sizes, "heads": requests.heads, "lengths": requests.lengths, "behind": requests.behind, "shapes": posts.shapes,
         "keys": posts.keys, "values": posts.values, "loads": posts.loads, "acts": posts.acts, "a flight": posts.fly,
         "numbers": calls.forms, "repeats": calls.repeats, "loads again": calls.loads_again, "longer replies": calls.longer}


class Lists(Served):
    """All lists of requests."""

    def test_lists(self) -> None:
        """All lists of requests."""
        cases = self.cases
        worked = (b'HTTP/1.1 200 OK\r\nContent-Type: application/json\r\nContent-Length: 86\r\nConnection: close\r\n\r\n'
                  b'{"lines":["ok request 1 5/0","move 1 100 ann 1 - Entered enter"],"more":0,"refusal":0}')
        with cases.server(cases.folder(), 1) as server:
            cases.tell("the worked example", worked, server.exchange(post("/acts", entry())))
            cases.ended("the worked example", server)
        cases.play("each byte at each place", requests.bytes_at_each_place(), looks=False)
        cases.play("routes", requests.routes(), [f"100 ann {ENTRY}", "110 bob approve 1"])
        for name, made in LISTS.items():
            cases.play(name, made())
        cases.tell("refusals that no case met", set(), set(range(20)) - FULL - cases.refusals)
