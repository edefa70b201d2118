"""The proxy that docs/manual/over-http.md prints for nginx, before a served desk.

The text is taken from the manual as it stands, but for its ports and the paths of its files. Asked are a login, the desk's own answers through the proxy, a
body that is too long, many posts at the same moment, each of which has to be answered and to stand, a peer that says nothing, which holds nobody, and the board
while there is no desk. Where nginx or openssl is not installed it says that this was not tried.
"""
import base64
import os
import re
import shutil
import socket
import ssl
import subprocess
import time
from concurrent.futures import ThreadPoolExecutor
from http.client import HTTPSConnection
from typing import Optional

from tests.asked import TOP
from tests.http_cases import Cases, Served
from tests.http_peer import FAIR, HERE, PATIENCE, Fault, Late, Server, free_port

POSTS, AT_ONCE = 300, 60
PLACES = '{{"lines":["places {0}: {0} 0 0 0 0 0 0 0 0 0 0 0 0 0 0"],"more":0,"refusal":0}}'
BODY = '{{"by":"ann","moment":0,"number":{},"act":"enter {} a--c no 8 1 - - ok"}}'
CONFIGURATION = """daemon off;
pid {folder}/nginx.pid;
error_log {folder}/error.log;
events {{ worker_connections 512; }}
http {{
    access_log off;
    client_body_temp_path {folder}/bodies;
    proxy_temp_path {folder}/answers;
    fastcgi_temp_path {folder}/unused; scgi_temp_path {folder}/unused; uwsgi_temp_path {folder}/unused;
{text}}}
"""


def manual(folder: str, own: int, desk: int) -> str:
    """The manual's text for nginx, at these ports, with its files in this folder."""
    with open(f"{TOP}/docs/manual/over-http.md", encoding="utf-8") as file:
        found = re.search(r"```nginx\n(.*?)```", file.read(), re.DOTALL)
    if not found:
        raise Fault("the manual has no text for nginx")
    text = found[1]
    for old, new in (("127.0.0.1:8080", f"{HERE}:{desk}"), ("listen 443 ssl;", f"listen {HERE}:{own} ssl;"),
                     ("/etc/ssl/certs/tcdesk.pem", f"{folder}/tcdesk.pem"), ("/etc/ssl/private/tcdesk.key", f"{folder}/tcdesk.key"),
                     ("/etc/nginx/tcdesk.users", f"{folder}/tcdesk.users")):
        if text.count(old) != 1:
            raise Fault(f"the manual's text for nginx has not one {old}")
        text = text.replace(old, new)
    return text


def begin(folder: str, own: int, desk: int) -> subprocess.Popen[bytes]:
    """Starts the proxy, and waits until it listens."""
    openssl = ["openssl", "req", "-x509", "-newkey", "rsa:2048", "-nodes", "-days", "2", "-subj", "/CN=desk.example.org"]
    subprocess.run([*openssl, "-keyout", f"{folder}/tcdesk.key", "-out", f"{folder}/tcdesk.pem"], check=True, capture_output=True)
    word = subprocess.run(["openssl", "passwd", "-apr1", "secret"], check=True, capture_output=True, text=True).stdout
    with open(f"{folder}/tcdesk.users", "w", encoding="ascii") as file:
        file.write(f"ann:{word}")
    with open(f"{folder}/nginx.conf", "w", encoding="utf-8") as file:
        file.write("user root;\n" * (os.getuid() == 0) + CONFIGURATION.format(folder=folder, text=manual(folder, own, desk)))
    proxy, end = subprocess.Popen(["nginx", "-p", folder, "-c", f"{folder}/nginx.conf"], stderr=subprocess.DEVNULL), time.monotonic() + PATIENCE
    while time.monotonic() < end:
        with socket.socket() as asked:
            if asked.connect_ex((HERE, own)) == 0:
                return proxy
        time.sleep(0.05)
    raise Fault("the proxy does not listen")


class Proxy:
    """The desk through the proxy."""

    def __init__(self, port: int) -> None:
        self.port, self.context = port, ssl._create_unverified_context()

    def ask(self, method: str, path: str, body: Optional[str] = None, login: Optional[str] = "ann:secret", sort: str = "application/json") -> tuple[int, str]:
        """The status and the text of an answer."""
        peer = HTTPSConnection(HERE, self.port, timeout=60, context=self.context)
        head = {"Content-Type": sort} if body else {}
        if login:
            head["Authorization"] = "Basic " + base64.b64encode(login.encode()).decode()
        peer.request(method, path, body, head)
        answer = peer.getresponse()
        text = answer.read().decode()
        peer.close()
        return answer.status, text


def look(cases: Cases, proxy: Proxy) -> None:
    """All cases."""
    cases.tell("no login", 401, proxy.ask("GET", "/places", login=None)[0])
    cases.tell("a wrong word", 401, proxy.ask("GET", "/places", login="ann:wrong")[0])
    cases.tell("the places", (200, PLACES.format(0)), proxy.ask("GET", "/places"))
    for sort in ("text/plain", "application/x-www-form-urlencoded", "multipart/form-data; boundary=b"):
        cases.tell(f"an act as {sort}", 403, proxy.ask("POST", "/acts", BODY.format(1, 1), sort=sort)[0])
    cases.tell("which is not done", (200, PLACES.format(0)), proxy.ask("GET", "/places"))
    first = proxy.ask("POST", "/acts", BODY.format(1, 1))
    cases.tell("an act", 200, first[0])
    cases.tell("the act again", first, proxy.ask("POST", "/acts", BODY.format(1, 1)))
    cases.tell("no path of the desk's", 404, proxy.ask("GET", "/none")[0])
    cases.tell("a body that is too long", 413, proxy.ask("POST", "/acts", "x" * 65537)[0])
    began = time.monotonic()
    with ThreadPoolExecutor(AT_ONCE) as pool:
        got = list(pool.map(lambda at: proxy.ask("POST", "/acts", BODY.format(at + 2, at % 2048))[0], range(POSTS)))
    # a desk that works off others for so long lets a connection go whose request it has not read yet
    if 502 in got and time.monotonic() - began > FAIR:
        raise Late(f"{POSTS} posts, {AT_ONCE} at a time: {time.monotonic() - began:.1f} s")
    cases.tell(f"{POSTS} posts, {AT_ONCE} at a time", {200: POSTS}, {it: got.count(it) for it in set(got)})
    cases.tell("and they stand", (200, PLACES.format(POSTS + 1)), proxy.ask("GET", "/places"))
    with cases.soon("behind a peer that says nothing"), socket.create_connection((HERE, proxy.port)):
        cases.tell("behind a peer that says nothing", (200, PLACES.format(POSTS + 1)), proxy.ask("GET", "/places"))


class Behind(Served):
    """The desk behind the proxy."""

    def test_proxy(self) -> None:
        """All cases."""
        for name in ("nginx", "openssl"):
            if not shutil.which(name, path=f"{os.environ['PATH']}:/usr/sbin"):
                self.skipTest(f"{name} is not installed")
        os.environ["PATH"] += ":/usr/sbin"
        cases, folder = self.cases, self.cases.folder()
        with Server(cases.program, folder, "desk.db", None) as server:
            server.connect().close()
            proxy = begin(folder, own := free_port(), server.port)
            self.addCleanup(proxy.wait)
            self.addCleanup(proxy.terminate)
            look(cases, Proxy(own))
        status, text = Proxy(own).ask("GET", "/board")
        cases.tell("the board of no desk, which asks again", (502, True), (status, '<meta http-equiv="refresh" content="5">' in text))
