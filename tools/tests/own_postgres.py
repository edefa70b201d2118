"""A PostgreSQL of one's own: Debian's server on new tables in a temporary folder, on a socket there, run by a user that is not root."""
import os
import pwd
import re
import shutil
import signal
import subprocess
import time
from glob import glob
from typing import Any, Optional, Sequence

from tests.asked import TOP

LOADER = f"{TOP}/deploy/postgres"
USER = "nobody"  # who runs it where the tests are root's, since it does not run as root
PATIENCE = 300.0


def server_folder() -> Optional[str]:
    """Where the server's programs are, of the newest version; none where it is not installed."""
    def version(path: str) -> int:
        """The number in a path."""
        return int(re.findall(r"/(\d+)/", path)[-1])
    debian = sorted(glob("/usr/lib/postgresql/[0-9]*/bin/initdb"), key=version)
    found = debian[-1] if debian else shutil.which("initdb")
    return os.path.dirname(os.path.realpath(found)) if found else None


def lacks() -> Optional[str]:
    """What is not installed; none where all is."""
    if not server_folder():
        return "PostgreSQL's server is not installed (Debian: postgresql)"
    return next((f"{name} is not installed (Debian: {package})" for name, package in (("psql", "postgresql-client"), ("sqlite3", "sqlite3"))
                 if not shutil.which(name)), None)


class Postgres:
    """The server."""

    def __init__(self, folder: str, *settings: str) -> None:
        """Makes its tables in this folder, which is its own from then on. The settings are those of the server, NAME=VALUE."""
        self.folder, self.bin, self.settings = folder, server_folder(), ("listen_addresses=", *settings)
        self.user: dict[str, Any] = {}
        name = pwd.getpwuid(os.getuid()).pw_name
        if os.getuid() == 0:
            it = pwd.getpwnam(USER)
            name, self.user = USER, {"user": it.pw_uid, "group": it.pw_gid, "extra_groups": []}
            os.chown(folder, it.pw_uid, it.pw_gid)
        os.chmod(folder, 0o700)
        kept = {it: value for it, value in os.environ.items() if not it.startswith("PG")}
        self.env = {**kept, "HOME": folder, "TMPDIR": folder, "PGHOST": folder, "PGDATABASE": "postgres", "PGUSER": name, "LC_ALL": "C.UTF-8"}
        made = self.run([f"{self.bin}/initdb", "-D", f"{folder}/data", "-U", name, "--auth=trust", "--encoding=UTF8", "--locale=C.UTF-8"])
        if made.returncode:
            raise AssertionError(f"initdb: {made.stderr}")
        self.process: Optional["subprocess.Popen[bytes]"] = None

    def begin(self) -> None:
        """Starts it, and waits until it takes connections."""
        words = [f"{self.bin}/postgres", "-D", f"{self.folder}/data", "-k", self.folder, *(word for it in self.settings for word in ("-c", it))]
        with open(f"{self.folder}/said", "wb") as said:
            self.process = subprocess.Popen(words, cwd=self.folder, env=self.env, stdin=subprocess.DEVNULL, stdout=said, stderr=said, **self.user)
        end = time.monotonic() + PATIENCE
        while self.run([f"{self.bin}/pg_isready", "-q"]).returncode:
            if self.process.poll() is not None or time.monotonic() > end:
                raise AssertionError(f"the server does not begin: {self.log()}")
            time.sleep(0.05)

    def end(self) -> None:
        """Ends it at once, which it is asked for by SIGINT."""
        if self.process and self.process.poll() is None:
            self.process.send_signal(signal.SIGINT)
            try:
                self.process.wait(PATIENCE)
            except subprocess.TimeoutExpired:
                self.process.kill()
                self.process.wait()

    def give(self, folder: str) -> None:
        """Gives all that lies in a folder to its user."""
        for at, _, names in os.walk(folder) if self.user else ():
            for path in (at, *(f"{at}/{name}" for name in names)):
                os.chown(path, self.user["user"], self.user["group"])

    def processor_seconds(self) -> float:
        """What the server took of processors by now, with those of its processes that have ended: a connection's ends soon behind it."""
        assert self.process
        with open(f"/proc/{self.process.pid}/stat", encoding="ascii") as file:
            spent = file.read().rpartition(")")[2].split()[11:15]
        return sum(map(int, spent)) / os.sysconf("SC_CLK_TCK")

    def log(self) -> str:
        """What the server said."""
        with open(f"{self.folder}/said", encoding="utf-8", errors="replace") as file:
            return file.read()[-2000:]

    def start(self, words: Sequence[str], folder: Optional[str] = None, **more: Any) -> "subprocess.Popen[str]":
        """Starts a command as the user of the server, with its environment."""
        return subprocess.Popen(words, cwd=folder or self.folder, env=self.env, stdin=subprocess.DEVNULL, stdout=subprocess.PIPE, stderr=subprocess.PIPE,
                                text=True, **self.user, **more)

    def run(self, words: Sequence[str], folder: Optional[str] = None) -> "subprocess.CompletedProcess[str]":
        """Runs one to its end."""
        with self.start(words, folder) as process:
            out, err = process.communicate(timeout=3600)
        return subprocess.CompletedProcess(words, process.returncode, out, err)

    def ask(self, text: str) -> list[str]:
        """The lines of what a question in SQL is answered."""
        ran = self.run(["psql", "-X", "-A", "-t", "-q", "-v", "ON_ERROR_STOP=1", "-c", "SET timezone = 'UTC'", "-c", text])
        if ran.returncode:
            raise AssertionError(ran.stderr)
        return ran.stdout.splitlines()

    def make_tables(self) -> None:
        """Runs tables.sql of the loader."""
        ran = self.run(["psql", "-X", "-q", "-v", "ON_ERROR_STOP=1", "-f", f"{LOADER}/tables.sql"])
        if ran.returncode or ran.stderr:
            raise AssertionError(ran.stderr)
