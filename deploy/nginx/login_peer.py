"""What login_test.py starts and asks: the site of deploy/nginx in a real nginx, with certificates of its own; who asks it, also a real browser; and a
stand-in for the desk.
"""
import base64
import json
import os
import shutil
import socket
import ssl
import subprocess
import threading
import time
from http.client import HTTPConnection
from typing import Any, NamedTuple, Optional, Union

from tests.http_peer import HERE, PATIENCE, Fault, free_port

FOLDER = os.path.dirname(os.path.realpath(__file__))
MODULE = "/usr/lib/nginx/modules/ngx_http_js_module.so"
SITE = "desk.example.org"
FILES = [f"{at}/{it}" for at in ("conf.d", "html", "njs", "sites-available", "snippets") for it in sorted(os.listdir(f"{FOLDER}/{at}"))]
MAIN = """{user}load_module {module};
daemon off;
pid {folder}/nginx.pid;
error_log {folder}/error.log warn;
worker_processes 2;
events {{ worker_connections 1024; }}
http {{
    access_log off;
    client_body_temp_path {folder}/bodies;
    proxy_temp_path {folder}/answers;
    fastcgi_temp_path {folder}/unused; scgi_temp_path {folder}/unused; uwsgi_temp_path {folder}/unused;
    include {folder}/conf.d/*.conf;
    include {folder}/sites-available/{site};
}}
"""
ANN, BOB = "ann:secret", "bob:other"


# ---- the proxy

def replaced(text: str, changes: dict[str, str]) -> str:
    """A text with these changes, each of which finds something."""
    for old, new in changes.items():
        if old not in text:
            raise Fault(f"the files of deploy/nginx have no {old}")
        text = text.replace(old, new)
    return text


class Proxy:
    """A site of deploy/nginx before a port, with these changes besides; it ends with its block."""

    def __init__(self, folder: str, site: str, desk: int, changes: Optional[dict[str, str]] = None) -> None:
        """Writes its files, with its own port and folders in place of those that they name, and starts it."""
        self.folder, self.port = folder, free_port()
        self.wrong = f"{folder}/wrong"
        os.makedirs(self.wrong, exist_ok=True)
        own = {"/etc/nginx/": f"{folder}/", "/var/lib/nginx/tcdesk": self.wrong, "/var/log/nginx/": f"{folder}/", "/etc/ssl/certs/": f"{folder}/", "/etc/ssl/private/": f"{folder}/", "127.0.0.1:8080": f"{HERE}:{desk}",
               "listen 443 ssl;": f"listen {HERE}:{self.port} ssl;", **(changes or {})}
        texts = replaced("\0".join(text_of(f"{FOLDER}/{it}") for it in FILES), own).split("\0")
        for name, text in zip(FILES, texts):
            os.makedirs(os.path.dirname(f"{folder}/{name}"), exist_ok=True)
            write(f"{folder}/{name}", text)
        user = "user root;\n" * (os.getuid() == 0)
        write(f"{folder}/nginx.conf", MAIN.format(user=user, module=MODULE, folder=folder, site=site))
        self.process = subprocess.Popen(["nginx", "-p", folder, "-c", f"{folder}/nginx.conf"], stderr=subprocess.DEVNULL)

    def __enter__(self) -> "Proxy":
        """Waits until it listens."""
        end = time.monotonic() + PATIENCE
        while time.monotonic() < end:
            with socket.socket() as asked:
                if asked.connect_ex((HERE, self.port)) == 0:
                    return self
            time.sleep(0.05)
        self.__exit__()
        raise Fault(f"the proxy does not listen: {self.said()}")

    def __exit__(self, *_: object) -> None:
        self.process.terminate()
        self.process.wait()

    def said(self) -> str:
        """Its log of errors."""
        return text_of(f"{self.folder}/error.log")

    def noted(self, count: int) -> list[str]:
        """The lines of its log of requests, once there are so many: each is written behind the answer."""
        end = time.monotonic() + PATIENCE
        while len(lines := text_of(f"{self.folder}/access.log").splitlines()) < count and time.monotonic() < end:
            time.sleep(0.02)
        return lines

    def forget(self) -> None:
        """Takes away what it knows of wrong passwords: who gave one is slowed for a minute."""
        for name in os.listdir(self.wrong):
            os.remove(f"{self.wrong}/{name}")

    @property
    def origin(self) -> str:
        """The site, as a browser names it."""
        return f"https://{SITE}:{self.port}"


def text_of(path: str) -> str:
    """The text of a file."""
    with open(path, encoding="utf-8") as file:
        return file.read()


def write(path: str, text: str) -> None:
    """Writes a text into a file."""
    with open(path, "w", encoding="utf-8", newline="") as file:
        file.write(text)


def openssl(folder: str, *words: str) -> str:
    """What openssl prints, in this folder."""
    ran = subprocess.run(["openssl", *words], cwd=folder, capture_output=True, text=True, check=False)
    if ran.returncode:
        raise Fault(f"openssl {' '.join(words)}: {ran.stderr}")
    return ran.stdout


def own_certificate(folder: str, name: str, subject: str, *words: str) -> None:
    """A key and a certificate that is signed by itself."""
    openssl(folder, "req", "-x509", "-newkey", "rsa:2048", "-noenc", "-days", "2", "-subj", subject, *words, "-keyout", f"{name}.key", "-out",
            f"{name}.pem")


def password_files(folder: str) -> None:
    """The site's certificate, and the file of its logins: one hash of each kind that the README names."""
    own_certificate(folder, "tcdesk", f"/CN={SITE}", "-addext", f"subjectAltName=DNS:{SITE}")
    lines = []
    for login, kind in ((ANN, "-6"), (BOB, "-apr1")):
        name, password = login.split(":")
        lines.append(f"{name}:{openssl(folder, 'passwd', kind, password)}")
    write(f"{folder}/tcdesk.users", "".join(lines))
    right_files(folder)


def right_files(folder: str, roles: str = "ann enter,approve,release;\nbob enter,approve,release;\ncid enter,approve,release;\n") -> None:
    """The roles of the logins, and the secret of the countersign."""
    write(f"{folder}/tcdesk.roles", roles)
    write(f"{folder}/tcdesk.secret", openssl(folder, "rand", "-hex", "32"))


AUTHORITY = ("ca", "-config", f"{FOLDER}/authority.cnf")
AS_ASKED = ("x509", "-req", "-days", "2", "-CA", "authority.pem", "-CAkey", "authority.key")  # signs any subject


def signed(folder: str, name: str, subject: str, *words: str) -> None:
    """A key, and its certificate of the authority in this folder, which these words sign."""
    openssl(folder, "req", "-newkey", "rsa:2048", "-noenc", "-subj", subject, "-keyout", f"{name}.key", "-out", f"{name}.csr")
    openssl(folder, *words, "-in", f"{name}.csr", "-out", f"{name}.pem")


def certificate_files(folder: str) -> None:
    """The site's certificate, the authority, and certificates of persons, as the README makes them; and others that are none of these."""
    own_certificate(folder, "tcdesk", f"/CN={SITE}", "-addext", f"subjectAltName=DNS:{SITE}")
    own_certificate(folder, "authority", "/CN=tcdesk authority")
    shutil.copy(f"{folder}/authority.pem", f"{folder}/tcdesk.authority.pem")
    write(f"{folder}/index.txt", "")
    for name, subject in (("ann", "/CN=ann"), ("bob", "/CN=bob"), ("large", "/CN=Ann"), ("long", "/CN=abcdefghijklmnopq"), ("two", "/CN=ann bob"),
                          ("cid", "/O=ann/CN=cid"), ("comma", "/CN=bob,CN=ann"), ("gone", "/CN=ann")):
        signed(folder, name, subject, *AUTHORITY, "-batch", "-notext")
    for name, subject in (("behind", "/O=x/CN=ann"), ("before", "/CN=ann/O=x"), ("double", "/CN=bob/CN=ann"), ("turned", "/CN=ann/CN=bob"), ("none", "/O=ann")):
        signed(folder, name, subject, *AS_ASKED)
    signed(folder, "over", "/CN=ann", *AUTHORITY, "-batch", "-startdate", "20200101000000Z", "-enddate", "20200102000000Z")
    openssl(folder, *AUTHORITY, "-revoke", "gone.pem")
    openssl(folder, *AUTHORITY, "-gencrl", "-out", "tcdesk.revoked.pem")
    own_certificate(folder, "stranger", "/CN=ann")
    right_files(folder)


# ---- who asks

class Answer(NamedTuple):
    """The status and the text of an answer."""
    status: int
    text: str


class Client:
    """One who asks a proxy, with these words before each path: a login by password, or a certificate."""

    def __init__(self, proxy: Proxy, login: Optional[str] = None, certificate: Optional[str] = None) -> None:
        """Trusts the site's certificate alone."""
        self.proxy, self.head = proxy, dict[str, str]()
        if login is not None:
            self.head["Authorization"] = "Basic " + base64.b64encode(login.encode()).decode()
        self.context = ssl.create_default_context(cafile=f"{proxy.folder}/tcdesk.pem")
        if certificate:
            self.context.load_cert_chain(f"{proxy.folder}/{certificate}.pem", f"{proxy.folder}/{certificate}.key")

    def connect(self) -> ssl.SSLSocket:
        """A connection."""
        return self.context.wrap_socket(socket.create_connection((HERE, self.proxy.port), 60), server_hostname=SITE)

    def ask(self, method: str, path: str, body: Union[str, bytes, None] = None, **more: Optional[str]) -> Answer:
        """Asks, with these header lines besides; one that is None is left out."""
        lines: dict[str, Optional[str]] = {"Host": SITE, **self.head, **({} if body is None else {"Content-Type": "application/json"})}
        lines |= {name.replace("_", "-"): it for name, it in more.items()}
        peer = HTTPConnection(HERE, self.proxy.port)
        with self.connect() as peer.sock:
            peer.request(method, path, body.encode() if isinstance(body, str) else body, {name: it for name, it in lines.items() if it is not None})
            answer = peer.getresponse()
            self.lines = answer.headers
            return Answer(answer.status, answer.read().decode())

    def post(self, path: str, body: Union[str, bytes], **more: Optional[str]) -> Answer:
        """Posts a body."""
        return self.ask("POST", path, body, **more)

    def get(self, path: str = "/places", **more: Optional[str]) -> Answer:
        """Asks a question."""
        return self.ask("GET", path, **more)


# ---- a real browser

class Browser:
    """A chromium without a window, which is told what to do over two pipes, in JSON ended by NUL. It ends with its block."""

    def __init__(self, folder: str, *names: str) -> None:
        """Starts it; these names are this machine for it. It takes any certificate of a site."""
        (reads, self.writes), (self.reads, writes) = os.pipe(), os.pipe()
        rules = ", ".join(f"MAP {it} {HERE}" for it in names)
        words = ["chromium", "--headless=new", "--no-sandbox", "--disable-gpu", "--ignore-certificate-errors", "--remote-debugging-pipe",
                 f"--user-data-dir={folder}/profile", f"--host-resolver-rules={rules}", "about:blank"]
        pipes = f"exec 3<&{reads} 4>&{writes} && exec \"$@\""
        self.process = subprocess.Popen(["bash", "-c", pipes, "bash", *words], pass_fds=(reads, writes), stdout=subprocess.DEVNULL,
                                        stderr=subprocess.DEVNULL)
        os.close(reads)
        os.close(writes)
        self.came, self.calls = b"", 0
        self.page: dict[str, str] = {}
        target = self.call("Target.createTarget", url="about:blank")["targetId"]
        self.page = {"sessionId": self.call("Target.attachToTarget", targetId=target, flatten=True)["sessionId"]}

    def __enter__(self) -> "Browser":
        return self

    def __exit__(self, *_: object) -> None:
        self.process.kill()
        self.process.wait()
        os.close(self.reads)
        os.close(self.writes)

    def call(self, method: str, **values: Any) -> dict[str, Any]:
        """What a call returns."""
        self.calls += 1
        os.write(self.writes, json.dumps({"id": self.calls, "method": method, "params": values, **self.page}).encode() + b"\0")
        while True:
            while b"\0" not in self.came:
                more = os.read(self.reads, 65536)
                if not more:
                    raise Fault("the browser has ended")
                self.came += more
            text, self.came = self.came.split(b"\0", 1)
            found: dict[str, Any] = json.loads(text)
            if found.get("id") == self.calls:
                result: dict[str, Any] = found.get("result", found)
                return result

    def run(self, script: str) -> str:
        """What a script of the page's comes to."""
        return str(self.call("Runtime.evaluate", expression=script, awaitPromise=True, returnByValue=True).get("result", {}).get("value"))

    def shows(self, address: str) -> str:
        """The text of the page, once it is the one of this address."""
        end = time.monotonic() + PATIENCE
        while time.monotonic() < end:
            if self.run("document.readyState + ' ' + location.href") == f"complete {address}":
                return self.run("document.body.innerText")
            time.sleep(0.05)
        raise Fault(f"the browser does not show {address}")

    def go(self, address: str, shown: Optional[str] = None) -> str:
        """The text of this page; what is shown as its address may be another."""
        self.call("Page.navigate", url=address)
        return self.shows(shown or address)


# ---- a stand-in for the desk

class StandIn:
    """Listens as a desk would, keeps the bytes that come, and gives each request one answer; where that is None, it says nothing."""

    def __init__(self, answer: Optional[bytes]) -> None:
        """Nobody asked yet."""
        self.answer, self.came = answer, list[bytes]()
        self.socket = socket.create_server((HERE, free_port()))
        self.port = self.socket.getsockname()[1]
        threading.Thread(target=self.serve, daemon=True).start()

    def serve(self) -> None:
        """Serves one after the other, until the socket is closed."""
        while True:
            try:
                peer, _ = self.socket.accept()
            except OSError:
                return
            with peer:
                self.came.append(whole(peer))
                if self.answer is None:
                    peer.recv(1)
                else:
                    peer.sendall(self.answer)


def whole(peer: socket.socket) -> bytes:
    """The bytes of a request, to the end of its body."""
    text = b""
    while b"\r\n\r\n" not in text:
        text += peer.recv(65536)
    head, body = text.split(b"\r\n\r\n", 1)
    lengths = [int(it.split(b":")[1]) for it in head.split(b"\r\n") if it.lower().startswith(b"content-length:")]
    while len(body) < sum(lengths):
        body += peer.recv(65536)
    return head + b"\r\n\r\n" + body


def reply(body: bytes, length: Optional[int] = None, kind: str = "application/json") -> bytes:
    """An answer of a stand-in."""
    length = len(body) if length is None else length
    return f"HTTP/1.1 200 OK\r\nContent-Type: {kind}\r\nContent-Length: {length}\r\nConnection: close\r\n\r\n".encode() + body
