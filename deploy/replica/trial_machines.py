"""Machines for the trial: each has an etcd, a desk and a replica, which are begun again when they end, as a service manager does. All are on one real machine:
at ports of 127.0.0.1, or each in a network of its own, so that they can be cut from each other."""
import json
import os
import signal
import subprocess
import sys
import threading
import time
from http.client import HTTPConnection, HTTPException
from typing import Callable, NamedTuple, Optional, Sequence

from entry import Seal
from etcd import Etcd, Login, Unanswered
from tests.http_peer import Fault, free_port

HERE = os.path.dirname(os.path.realpath(__file__))
REPLICA = f"{HERE}/replica.py"
RESTART = 0.5  # seconds between an end and the next beginning
ASK = """import http.client, sys
peer = http.client.HTTPConnection("127.0.0.1", int(sys.argv[1]))
peer.request("POST", "/acts", sys.argv[2])
print(peer.getresponse().read().decode())"""


class Times(NamedTuple):
    """Options of a replica, in seconds."""
    lease: int
    patience: int
    progress: int
    digests: int


QUICK, AS_SET_UP = Times(3, 5, 4, 10), Times(10, 20, 15, 30)  # the second are those of who names none


class Unit:
    """A program that is begun again when it ends, unless it is held."""

    def __init__(self, words: Callable[[], Sequence[str]], told: str) -> None:
        """What it prints comes into a file, each line with its time. It is held."""
        self.words, self.told = words, told
        self.goes, self.is_over = threading.Event(), False
        self.process: Optional[subprocess.Popen[str]] = None
        self.thread = threading.Thread(target=self.watch, daemon=True)
        self.thread.start()

    def watch(self) -> None:
        """Begins it again and again."""
        while not self.is_over:
            self.goes.wait()
            if self.is_over:
                return
            self.process = subprocess.Popen(self.words(), stdin=subprocess.DEVNULL, stdout=subprocess.PIPE, stderr=subprocess.STDOUT, text=True)
            assert self.process.stdout is not None
            with open(self.told, "a", encoding="utf-8", buffering=1) as file:
                for line in self.process.stdout:
                    file.write(f"{time.monotonic():.2f} {line}")
            self.process.wait()
            time.sleep(RESTART)

    def signal(self, number: int) -> None:
        """Sends it a signal."""
        if self.process and self.process.poll() is None:
            self.process.send_signal(number)

    def ended(self) -> bool:
        """Whether it does not run."""
        return self.process is None or self.process.poll() is not None

    def hold(self) -> None:
        """Kills it, and does not begin it again."""
        self.goes.clear()
        self.signal(signal.SIGKILL)

    def end(self) -> None:
        """Kills it for good."""
        self.is_over = True
        self.signal(signal.SIGCONT)
        self.hold()
        self.goes.set()
        self.thread.join(10)


class Net:
    """All machines at ports of 127.0.0.1."""
    can_cut, times = False, QUICK

    def __init__(self, count: int) -> None:
        """So many machines."""
        self.count = count
        self.ports = [[free_port() for _ in range(4)] for _ in range(count)]

    def words(self, _: int) -> list[str]:
        """What stands before the words of a program of a machine."""
        return []

    def hosts(self, _: int) -> tuple[str, str]:
        """Where the other machines reach it, and where its clients do."""
        return "127.0.0.1", "127.0.0.1"

    def end(self) -> None:
        """There is nothing to take away."""


class CutNet(Net):
    """Each machine in a network of its own, with one link to the other machines and one to the clients. Only root may make it."""
    can_cut = True

    def __init__(self, count: int) -> None:
        """Makes it."""
        super().__init__(count)
        self.mark, self.own = f"r{os.getpid() % 100000}", os.getpid() % 250  # another trial has other names and addresses
        self.ports = [[2379, 2380, 8080, 8081] for _ in range(count)]
        try:
            for kind, side in (("p", 77), ("c", 78)):
                self.ip(f"link add {self.mark}{kind} type bridge", f"link set {self.mark}{kind} up")
                if kind == "c":
                    self.ip(f"addr add 10.{side}.{self.own}.254/24 dev {self.mark}{kind}")
                for at in range(count):
                    if kind == "p":
                        self.ip(f"netns add {self.mark}{at}", f"-n {self.mark}{at} link set lo up")
                    self.ip(f"link add {self.mark}{kind}{at} type veth peer name {kind} netns {self.mark}{at}",
                            f"link set {self.mark}{kind}{at} master {self.mark}{kind}", f"link set {self.mark}{kind}{at} up",
                            f"-n {self.mark}{at} addr add 10.{side}.{self.own}.{at + 1}/24 dev {kind}", f"-n {self.mark}{at} link set {kind} up")
        except BaseException:
            self.end()
            raise

    @staticmethod
    def ip(*lines: str) -> None:
        """Has the system do this to its networks."""
        for line in lines:
            ran = subprocess.run(["ip", *line.split()], capture_output=True, text=True, check=False)
            if ran.returncode:
                raise Fault(f"ip {line}: {ran.stderr.strip()}")

    def words(self, at: int) -> list[str]:
        """Runs it in the network of its machine."""
        return ["ip", "netns", "exec", f"{self.mark}{at}"]

    def hosts(self, at: int) -> tuple[str, str]:
        """An address in each network."""
        return f"10.77.{self.own}.{at + 1}", f"10.78.{self.own}.{at + 1}"

    def cut(self, at: int, is_cut: bool, kinds: str = "p") -> None:
        """Cuts a machine from the others (p), from its clients (c), or from both; or no longer."""
        for kind in kinds:
            self.ip(f"link set {self.mark}{kind}{at} {'down' if is_cut else 'up'}")

    def end(self) -> None:
        """Takes it away."""
        for line in [f"link del {self.mark}{kind}" for kind in "pc"] + [f"netns del {self.mark}{at}" for at in range(self.count)]:
            subprocess.run(["ip", *line.split()], capture_output=True, check=False)


def make_keys(net: Net, folder: str) -> None:
    """The keys of all machines, as the page has them made."""
    names = [f"{'abc'[at]}={','.join(dict.fromkeys(net.hosts(at)))}" for at in range(net.count)]
    subprocess.run([f"{HERE}/certificates.sh", f"{folder}/keys", *names], check=True)


class Member:
    """A machine."""

    def __init__(self, net: Net, at: int, folder: str, program: str, every: int, first_count: int = 1_000_000) -> None:
        """Its desk serves so many connections, the first time. It begins with a copy of `first.db` of the folder, where there is one. Its keys are in `keys`."""
        self.keys, self.quota = f"{folder}/keys/{'abc'[at]}", 0
        self.net, self.at, self.name, self.folder, self.program, self.every = net, at, "abc"[at], f"{folder}/{'abc'[at]}", program, every
        self.first = ["--first", f"{folder}/first.db"] if os.path.exists(f"{folder}/first.db") else []
        os.makedirs(f"{self.folder}/desk")
        self.counts = [first_count]
        self.desk_env: dict[str, str] = {}
        self.peer, self.host = net.hosts(at)
        self.etcd_port, self.peer_port, self.entrance_port, self.desk_port = net.ports[at]
        self.etcd: Etcd
        self.units = {"etcd": Unit(self.etcd_words, f"{self.folder}/etcd.log"), "desk": Unit(self.desk_words, f"{self.folder}/desk.log"),
                      "replica": Unit(self.replica_words, f"{self.folder}/replica.log")}

    def opened(self) -> Etcd:
        """Its etcd, with a login, once there are keys."""
        self.etcd = Etcd(self.etcd_port, 5.0, self.host, Login(f"{self.keys}/replica"))
        return self.etcd

    def seal(self) -> Seal:
        """The seal of its desk."""
        with open(f"{self.keys}/replica/seal.key", "rb") as file:
            return Seal(file.read())

    def etcd_words(self) -> list[str]:
        """Begins its etcd."""
        members = ",".join(f"{'abc'[at]}=https://{self.net.hosts(at)[0]}:{self.net.ports[at][1]}" for at in range(self.net.count))
        clients = ",".join(f"https://{it}:{self.etcd_port}" for it in dict.fromkeys(["127.0.0.1", self.host]))
        keys = f"{self.keys}/etcd"
        return [*self.net.words(self.at), "etcd", "--name", self.name, "--data-dir", f"{self.folder}/etcd", "--listen-client-urls", clients,
                "--advertise-client-urls", f"https://127.0.0.1:{self.etcd_port}", "--listen-peer-urls", f"https://{self.peer}:{self.peer_port}",
                "--initial-advertise-peer-urls", f"https://{self.peer}:{self.peer_port}", "--initial-cluster", members, "--initial-cluster-state", "new",
                "--peer-trusted-ca-file", f"{keys}/authority.pem", "--peer-cert-file", f"{keys}/peer.pem", "--peer-key-file", f"{keys}/peer.key",
                "--peer-client-cert-auth", "--trusted-ca-file", f"{keys}/clients.pem", "--cert-file", f"{keys}/server.pem", "--key-file", f"{keys}/server.key",
                "--client-cert-auth", "--bcrypt-cost", "4", "--auto-compaction-retention", "1",
                "--quota-backend-bytes", str(self.quota), "--logger", "zap", "--log-level", "error"]

    def desk_words(self) -> list[str]:
        """Begins its desk, with what was set for this beginning alone."""
        count = self.counts.pop() if self.counts else 1_000_000
        env = ["env", *(f"{name}={value}" for name, value in self.desk_env.items())]
        self.desk_env = {}
        return [*env, *self.net.words(self.at), sys.executable, REPLICA, "desk", *self.ways(), "--folder", f"{self.folder}/desk",
                "--program", self.program, "--port", str(self.desk_port), "--count", str(count), *self.first]

    def ways(self) -> list[str]:
        """How a program of this machine comes to its etcd."""
        return ["--etcd", str(self.etcd_port), "--keys", f"{self.keys}/replica"]

    def replica_words(self) -> list[str]:
        """Begins its follower and entrance."""
        return self.run_words(f"{self.folder}/desk", self.entrance_port)

    def run_words(self, folder: str, port: int) -> list[str]:
        """Begins a follower and an entrance under the name of this machine."""
        times = [word for name, value in self.net.times._asdict().items() for word in (f"--{name}", str(value))]
        return [*self.net.words(self.at), sys.executable, REPLICA, "run", "--name", self.name, *self.ways(), "--folder", folder,
                "--listen", f"{self.host}:{port}", "--every", str(self.every), *times]

    def does(self, *words: str) -> str:
        """What `replica.py` prints on this machine."""
        ran = subprocess.run([*self.net.words(self.at), sys.executable, REPLICA, *words, *self.ways()], capture_output=True, text=True, check=False)
        return ran.stdout + ran.stderr

    def turns_auth_on(self) -> bool:
        """Turns etcd's auth on, for all machines, once most of them are there. Whether it is on."""
        with open(f"{self.keys}/../authority/root.password", encoding="ascii") as root, open(f"{self.keys}/replica/password", encoding="ascii") as own:
            told = root.read() + own.read()
        words = [*self.net.words(self.at), f"{HERE}/auth.sh", f"{self.keys}/replica", f"127.0.0.1:{self.etcd_port}"]
        return subprocess.run(words, input=told, text=True, capture_output=True, check=False).returncode == 0

    def as_root(self, *words: str) -> None:
        """What etcd's root does, by etcdctl."""
        with open(f"{self.keys}/../authority/root.password", encoding="ascii") as file:
            password = file.read().strip()
        keys = f"{self.keys}/replica"
        subprocess.run([*self.net.words(self.at), "env", "ETCDCTL_API=3", "etcdctl", "--endpoints", f"https://127.0.0.1:{self.etcd_port}", "--cacert",
                        f"{keys}/clients.pem", "--cert", f"{keys}/replica.pem", "--key", f"{keys}/replica.key", "--user", f"root:{password}", *words],
                       check=True, stdout=subprocess.DEVNULL)

    def each(self, what: Callable[[Unit], None]) -> None:
        """Does something to all its programs."""
        for it in self.units.values():
            what(it)

    def go(self) -> None:
        """Begins all its programs."""
        self.each(lambda it: it.goes.set())

    def is_in(self) -> bool:
        """Whether it answers."""
        try:
            return self.ask("GET", "/places")[0] == 200
        except (OSError, HTTPException):
            return False

    def ask(self, method: str, path: str, body: Optional[bytes] = None, patience: float = AS_SET_UP.patience + 3, waits: int = 0) -> tuple[int, bytes, int]:
        """What its entrance answers: the status, the body, and the place, 0 where it tells none. It may be told for how long is waited."""
        peer = HTTPConnection(self.host, self.entrance_port, timeout=patience)
        try:
            peer.request(method, path, body, {"Prefer": f"wait={waits}"} if waits else {})
            answer = peer.getresponse()
            return answer.status, answer.read(), int(answer.headers.get("Tcdesk-Place", "0"))
        finally:
            peer.close()

    def ask_desk(self, keys: dict[str, object]) -> str:
        """What its desk itself answers to a post, which the log knows nothing of."""
        words = [*self.net.words(self.at), sys.executable, "-c", ASK, str(self.desk_port), json.dumps(keys)]
        return subprocess.run(words, capture_output=True, text=True, check=True).stdout.strip()

    def spent(self, *names: str) -> float:
        """Seconds that its programs took of processors; those of these names, where there are any."""
        ticks = 0
        for it in [self.units[name] for name in names or self.units]:
            if it.process:
                with open(f"/proc/{it.process.pid}/stat", encoding="ascii") as file:
                    ticks += sum(map(int, file.read().rsplit(")", 1)[1].split()[11:13]))
        return ticks / os.sysconf("SC_CLK_TCK")

    def leads(self) -> bool:
        """Whether its etcd is the leader."""
        try:
            told = self.etcd.call("/v3/maintenance/status", {})
        except Unanswered:
            return False
        return bool(told.get("leader") == told["header"]["member_id"])

    def said(self, text: str) -> int:
        """How many lines of its replica have this text."""
        return sum(text in it for it in self.lines())

    def lines(self) -> list[str]:
        """All lines of its replica."""
        with open(f"{self.folder}/replica.log", encoding="utf-8") as file:
            return file.readlines()

    def begun(self, word: int = 1) -> int:
        """The last post that its follower gave its desk, by its place; or another number that is written there, 3 for how many posts that were."""
        try:
            with open(f"{self.folder}/desk/begun", encoding="ascii") as told:
                return int(told.read().split()[word])
        except (OSError, IndexError, ValueError):
            return 0


def wait_for(what: str, is_so: Callable[[], bool], seconds: float = 900.0) -> float:
    """Waits until something is so, and tells how many seconds that took."""
    began = time.monotonic()
    while not is_so():
        if time.monotonic() - began > seconds:
            raise Fault(f"after {seconds:.0f} seconds: not {what}")
        time.sleep(0.05)
    return time.monotonic() - began
