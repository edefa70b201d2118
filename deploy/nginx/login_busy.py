"""Many posts at the same moment, peers that stall, and a desk that is stopped, stalls or is cut.
"""
import os
import re
import shutil
import socket
import ssl
import subprocess
import time
from concurrent.futures import ThreadPoolExecutor
from http.client import HTTPException
from typing import Callable, Optional

from generate.http_words import ENTRY
from login_asks import NOT_OWN, counted, entered, entry, folder_in, places, words
from login_peer import ANN, BOB, SITE, Answer, Client, Proxy, StandIn, password_files, replaced, reply, text_of, write
from tests.asked import TOP
from tests.http_cases import Cases
from tests.http_peer import FAIR, HERE, Fault, Late, Server, free_port


AT_ONCE = 200
LETS_GO = 9.0  # seconds in which no peer is let go that stalls: that takes ten


def at_once(cases: Cases, proxy: Proxy) -> None:
    """Posts of two persons at the same moment, and all of them again: each is answered, and done once."""
    clients = [Client(proxy, ANN), Client(proxy, BOB)]
    bodies = [(at % 2, entry(1000 + at, ("ann", "bob")[at % 2], act=f"enter {100 + at} a--c no 8 1 - - ok")) for at in range(AT_ONCE)]
    before, began = entered(clients[0]), time.monotonic()
    first, again = (together(lambda at: clients[bodies[at][0]].post("/acts", bodies[at][1])) for _ in range(2))
    questions = together(lambda at: clients[at % 2].get())
    # a desk that works off others for so long lets a connection go whose request it has not read yet
    if 502 in {it.status for it in first + again + questions} and time.monotonic() - began > FAIR:
        raise Late(f"{AT_ONCE} posts at the same moment: {time.monotonic() - began:.1f} s")
    cases.tell(f"{AT_ONCE} posts at the same moment", {200: AT_ONCE}, counted(it.status for it in first))
    cases.tell("each is a request of its own", AT_ONCE, len({words(it)[2] for it in first}))
    cases.tell("each is answered for itself", [f"{100 + at}/0" for at in range(AT_ONCE)], [words(it)[3] for it in first])
    cases.tell("and the same again", first, again)
    cases.tell("and they stand once", before + AT_ONCE, entered(clients[0]))
    cases.tell(f"{AT_ONCE} questions at the same moment", {200: AT_ONCE}, counted(it.status for it in questions))


def together(call: Callable[[int], Answer]) -> list[Answer]:
    """What so many calls are answered that are made at the same moment."""
    with ThreadPoolExecutor(AT_ONCE) as pool:
        return list(pool.map(call, range(AT_ONCE)))


def is_there(peer: socket.socket) -> bool:
    """Whether a connection stands on which nothing comes."""
    peer.setblocking(False)
    try:
        return peer.recv(1) != b""
    except (BlockingIOError, ssl.SSLWantReadError):
        return True


def stalls(cases: Cases, proxy: Proxy) -> None:
    """Peers that stall, each at another place, while others are served; they are let go."""
    ann, first = Client(proxy, ANN), time.monotonic()
    head = f"POST /acts HTTP/1.1\r\nHost: {SITE}\r\nAuthorization: {ann.head['Authorization']}\r\nContent-Type: application/json\r\n"
    peers: list[tuple[str, socket.socket]] = [("before a word of TLS", socket.create_connection((HERE, proxy.port)))]
    for name, text in (("before a head", ""), ("in a head", head), ("before a body", head + "Content-Length: 90\r\n\r\n"),
                       ("in a body", head + 'Content-Length: 90\r\n\r\n{"by":"ann",')):
        peers.append((name, ann.connect()))
        peers[-1][1].sendall(text.encode())
    before, began = entered(ann), time.monotonic()
    for at in range(10):
        cases.tell("an act beside peers that stall", 200, ann.post("/acts", entry(2000 + at)).status)
    stand = [name for name, peer in peers if is_there(peer)]
    if time.monotonic() - first > LETS_GO:
        raise Late(f"an act beside peers that stall: {time.monotonic() - first:.1f} s")
    cases.tell("and not behind them", [name for name, _ in peers], stand)
    for name, peer in peers:
        peer.settimeout(60)
        cases.tell(f"a peer that stalls {name} is let go", b"", last_of(peer))
        peer.close()
    if time.monotonic() - began > 60:
        raise Late("peers that stall are let go within a minute")
    cases.tell("what stalled was not done", before + 10, entered(ann))


def last_of(peer: socket.socket) -> bytes:
    """What comes to the end of a connection; an end without a word is one too."""
    try:
        return peer.recv(65536)
    except (ssl.SSLError, ConnectionResetError):
        return b""


def stopped(cases: Cases, folder: str) -> None:
    """A desk that is stopped and served again: what was told a 502 is sent again, the same body with the same number, and is done once."""
    port, files = free_port(), folder_in(folder, "stopped")
    password_files(files)
    with Proxy(files, "tcdesk-password", port) as proxy:
        ann = Client(proxy, ANN)
        with Server(cases.program, files, "desk.db", None, port=port) as server:
            server.connect().close()
            first = ann.post("/acts", entry(1))
        for name, answer in (("an act", ann.post("/acts", entry(2))), ("a question", ann.get()), ("an act again", ann.post("/acts", entry(1)))):
            cases.tell(f"{name}, where the desk is stopped", 502, answer.status)
        cases.tell("another's, where the desk is stopped", Answer(403, NOT_OWN), ann.post("/acts", entry(3, "bob")))
        with Server(cases.program, files, "desk.db", None, port=port) as server:
            server.connect().close()
            cases.tell("the first act once more", first, ann.post("/acts", entry(1)))
            second = ann.post("/acts", entry(2))
            cases.tell("the second, sent again", 200, second.status)
            cases.tell("and once more", second, ann.post("/acts", entry(2)))
            cases.tell("what was done", places(2), ann.get())


def posted(cases: Cases, folder: str) -> None:
    """The manual's function for bash, with the two changes that the README tells: to a desk, in another's name, and to one that is not served yet."""
    if not shutil.which("curl"):
        print("not tried: the manual's function, since curl is not installed")
        return
    password_files(folder)
    for person, login in (("ann", ANN), ("bob", ANN)):
        name, password = login.split(":")
        write(f"{folder}/{person}.netrc", f"machine {SITE} login {name} password {password}\n")
    port = free_port()
    with Proxy(folder, "tcdesk-password", port) as proxy:
        with Server(cases.program, folder, "desk.db", None, port=port) as server:
            server.connect().close()
            ended = calling(folder, proxy, "ann").communicate()
            cases.tell("the manual's function", ('{"lines":["ok request 1 5/0","move 1 100 ann 1 - Entered enter"],"more":0,"refusal":0}\n', ""), ended)
            ended = calling(folder, proxy, "bob").communicate()
            cases.tell("the manual's function in another's name", ("", "not known yet: give the same line again\n"), ended)
        waits = calling(folder, proxy, "ann")
        time.sleep(1.5)
        with Server(cases.program, folder, "desk.db", None, port=port) as server:
            ended = waits.communicate()
            cases.tell("where the desk is not served yet", ('{"lines":["ok request 2 5/1"', ""), (ended[0][:28], ended[1]))
            cases.tell("what was done", places(2), Client(proxy, ANN).get())
    left = {it: text_of(f"{folder}/{it}") for it in os.listdir(folder) if it.startswith("number.")}
    cases.tell("the numbers that are left", {"number.ann": "3\n"}, left)


def calling(folder: str, proxy: Proxy, person: str) -> "subprocess.Popen[str]":
    """The function, as it is called to enter a request of this person."""
    found = re.search(r"^post\(\) \{\n.*?^\}\n", text_of(f"{TOP}/docs/manual/over-http.md"), re.DOTALL | re.MULTILINE)
    if not found:
        raise Fault("the manual has no function post")
    own = f'curl -s --netrc-file "$1.netrc" --cacert tcdesk.pem --resolve {SITE}:{proxy.port}:{HERE} '
    function = replaced(found[0], {"http://127.0.0.1:8080$2": f"https://{SITE}:{proxy.port}$2", "curl -s ": own})
    return subprocess.Popen(["bash", "-c", f"{function}post {person} /acts '\"act\":\"{ENTRY}\",\"moment\":100'"], cwd=folder, stdin=subprocess.DEVNULL,
                            stdout=subprocess.PIPE, stderr=subprocess.PIPE, text=True)


def told(client: Client) -> Optional[int]:
    """The status of an act; none where its connection ends without an answer."""
    try:
        return client.post("/acts", entry(1)).status
    except HTTPException:
        return None


def faults(cases: Cases, folder: str) -> None:
    """What is told where a desk was asked and its answer does not come whole: 502, 504 or nothing, as the manual has it."""
    body = b'{"lines":[],"more":0,"refusal":0}'
    for at, (name, answer, want) in enumerate([
            ("stalls", None, 504), ("says nothing", b"", 502), ("says no HTTP", b"hello\r\n\r\n", 502), ("is cut in its head", reply(body)[:30], 502),
            ("is cut before its body", reply(b"", 33), 502), ("is cut in its body", reply(body[:20], 33), 502), ("is none", reply(body, kind="text/html"), 502),
            ("says more than any desk", reply(b" " * 1_100_000), None), ("says as much as any desk", reply(b" " * 900_000), 200)]):
        stand, files = StandIn(answer), folder_in(folder, f"fault{at}")
        password_files(files)
        with Proxy(files, "tcdesk-password", stand.port, {"proxy_read_timeout 60s": "proxy_read_timeout 2s"} if answer is None else None) as proxy:
            cases.tell(f"an act, where the desk {name}", want, told(Client(proxy, ANN)))
            cases.tell(f"how often the desk is asked that {name}", 1, len(stand.came))
            if not answer:
                cases.tell(f"a question, where the desk {name}", want, Client(proxy, ANN).get().status)
        stand.socket.close()
