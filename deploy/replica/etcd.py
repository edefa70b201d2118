"""What a replica asks of etcd, by its gateway for HTTP and JSON: each key is a text, each value is bytes. It speaks TLS with a certificate of its own, and logs in."""
import base64
import http.client
import json
import re
import ssl
import threading
from typing import Any, NamedTuple, Optional, Sequence

from clock import now

JSON = dict[str, Any]
LONG = 10.0  # seconds for a login
NO_TOKEN, NO_ROOM = 16, 8  # codes of gRPC: a token that is none or outdated, and no room (a quota that is full)


class Unanswered(Exception):
    """etcd did not answer, or said that it could not: what was asked was done, or was not."""


class Refused(Unanswered):
    """etcd has no room, and so has done nothing."""


class Login(NamedTuple):
    """Who asks: the folder with `clients.pem`, the authority of the servers; `replica.pem` and `replica.key`; and `password`, that of the user `replica`."""
    folder: str
    user: str = "replica"

    def tls(self) -> ssl.SSLContext:
        """TLS with these."""
        context = ssl.create_default_context(cafile=f"{self.folder}/clients.pem")
        context.load_cert_chain(f"{self.folder}/replica.pem", f"{self.folder}/replica.key")
        return context

    def told(self) -> JSON:
        """What etcd is told for a token."""
        with open(f"{self.folder}/password", encoding="ascii") as file:
            return {"name": self.user, "password": file.read().strip()}


class Pair(NamedTuple):
    """A key with its value."""
    key: str
    value: bytes


class Found(NamedTuple):
    """The first pairs of a span of keys, and how many there are in all."""
    pairs: list[Pair]
    amount: int


def spelled(value: bytes) -> str:
    """Bytes as JSON has them."""
    return base64.b64encode(value).decode()


def is_free(key: str) -> JSON:
    """The condition that there is no such key."""
    return {"key": spelled(key.encode()), "target": "CREATE", "result": "EQUAL", "create_revision": "0"}


def is_there(key: str) -> JSON:
    """The condition that there is such a key."""
    return {"key": spelled(key.encode()), "target": "CREATE", "result": "GREATER", "create_revision": "0"}


def holds(key: str, value: bytes) -> JSON:
    """The condition that a key has this value."""
    return {"key": spelled(key.encode()), "target": "VALUE", "result": "EQUAL", "value": spelled(value)}


def put(key: str, value: bytes, lease: str = "0") -> JSON:
    """A key is given a value, for as long as the lease lasts, where there is one."""
    return {"key": spelled(key.encode()), "value": spelled(value), "lease": lease}


def span(first: str, end: str, limit: int = 0, is_newest: bool = True) -> JSON:
    """The keys from the first on and before the end, so many at most; as of now, or as the member that is asked knows them."""
    return {"key": spelled(first.encode()), "range_end": spelled(end.encode()), "limit": str(limit), "serializable": not is_newest}


def read(status: int, body: bytes) -> tuple[int, JSON]:
    """An answer of the gateway, whose body is JSON."""
    try:
        told: JSON = json.loads(body)
    except ValueError:
        raise Unanswered(f"{status} {body[:100]!r}") from None
    return status, told


def found_in(told: JSON) -> Found:
    """What a question for a span is answered."""
    pairs = [Pair(base64.b64decode(it["key"]).decode(), base64.b64decode(it.get("value", ""))) for it in told.get("kvs", [])]
    return Found(pairs, int(told.get("count", "0")))


class Room(NamedTuple):
    """Bytes that etcd takes on the disk, and may take (0: it is not told); and its alarms, `NOSPACE` say."""
    bytes: int
    quota: int
    alarms: list[str]

    def is_nearly_full(self) -> bool:
        """Whether nine tenths are taken."""
        return self.quota > 0 and self.bytes * 10 > self.quota * 9


class Etcd:
    """One member of etcd, that of this machine. Each thread has a connection of its own, and all have one token."""

    def __init__(self, port: int, patience: float = 2.0, host: str = "127.0.0.1", login: Optional[Login] = None) -> None:
        """It listens there; whoever asks waits for so many seconds. Without a login it is asked without TLS, for tests."""
        self.host, self.port, self.patience, self.login, self.own = host, port, patience, login, threading.local()
        self.tls = login.tls() if login else None
        self.token, self.heard, self.refused, self.logging = "", now(), -1e9, threading.Lock()

    def silent(self) -> float:
        """For how many seconds most members of etcd were not heard."""
        return now() - self.heard

    def opened(self, patience: float) -> http.client.HTTPConnection:
        """A connection."""
        if self.tls:
            return http.client.HTTPSConnection(self.host, self.port, timeout=patience, context=self.tls)
        return http.client.HTTPConnection(self.host, self.port, timeout=patience)

    def exchange(self, method: str, path: str, body: Optional[str] = None) -> tuple[int, bytes]:
        """The status and the body of an answer, by the connection of this thread."""
        peer: http.client.HTTPConnection = self.own.__dict__.setdefault("peer", None) or self.opened(self.patience)
        self.own.peer = peer
        return self.answered(peer, method, path, body, {"Authorization": self.token} if self.token else {})

    @staticmethod
    def answered(peer: http.client.HTTPConnection, method: str, path: str, body: Optional[str], head: dict[str, str]) -> tuple[int, bytes]:
        """The status and the body of an answer."""
        try:
            peer.request(method, path, body, head)
            answer = peer.getresponse()
            return answer.status, answer.read()
        except (OSError, http.client.HTTPException) as why:
            peer.close()
            raise Unanswered(f"{type(why).__name__} {why}") from None

    def told(self, path: str, asked: JSON) -> tuple[int, JSON]:
        """The status and the JSON of an answer of the gateway."""
        return read(*self.exchange("POST", path, json.dumps(asked)))

    def call(self, path: str, asked: JSON) -> JSON:
        """What the gateway answers, after a login where it asks for one."""
        token = self.token
        if self.login and not token:
            self.log_in(token)
        status, told = self.told(path, asked)
        if self.login and status != 200 and (told.get("code") == NO_TOKEN or "auth store is old" in str(told)):
            self.log_in(token)
            status, told = self.told(path, asked)
        if status != 200 and told.get("code") == NO_ROOM and "space" in str(told):
            self.refused = now()
            raise Refused(str(told.get("error")))
        if status != 200:
            raise Unanswered(str(told.get("error", status)))
        if path.startswith(("/v3/kv", "/v3/lease")) and not asked.get("serializable"):
            self.heard = now()  # which takes most members
        return told

    def log_in(self, before: str) -> None:
        """Gets a token, unless another thread has got one since. It takes etcd long, so one thread at a time does so. An etcd whose auth is not on gives none."""
        assert self.login
        with self.logging:
            if self.token != before:
                return
            peer = self.opened(LONG)
            try:
                status, told = read(*self.answered(peer, "POST", "/v3/auth/authenticate", json.dumps(self.login.told()), {}))
            finally:
                peer.close()
            if status != 200:
                raise Unanswered(str(told.get("error", status)))
            self.token = told["token"]

    def room(self) -> Room:
        """How much of its room is taken, and its alarms."""
        told = self.call("/v3/maintenance/status", {})
        alarms = self.call("/v3/maintenance/alarm", {"action": "GET"}).get("alarms", [])
        quota = re.search(r"^etcd_server_quota_backend_bytes ([0-9.e+]+)$", self.exchange("GET", "/metrics")[1].decode(), re.M)
        return Room(int(told.get("dbSize", "0")), int(float(quota[1])) if quota else 0, sorted({str(it.get("alarm")) for it in alarms}))

    def ask(self, asked: JSON) -> Found:
        """The pairs of a span."""
        return found_in(self.call("/v3/kv/range", asked))

    def below(self, front: str) -> dict[str, bytes]:
        """The values of all keys that begin so, with a slash at its end, by what follows."""
        return {it.key.removeprefix(front): it.value for it in self.ask(span(front, front[:-1] + "0")).pairs}

    def write(self, conditions: Sequence[JSON], puts: Sequence[JSON], otherwise: Optional[JSON] = None) -> Optional[Found]:
        """Writes all of these, where all conditions hold, and else nothing: then it gives what is found in the other span."""
        told = self.call("/v3/kv/txn", {"compare": list(conditions), "success": [{"request_put": it} for it in puts],
                                        "failure": [{"request_range": otherwise}] if otherwise else []})
        if told.get("succeeded"):
            return None
        return found_in(told["responses"][0]["response_range"]) if otherwise else Found([], 0)

    def lease(self, seconds: int) -> str:
        """A new lease, which ends so many seconds after it was last kept."""
        return str(self.call("/v3/lease/grant", {"TTL": str(seconds)})["ID"])

    def keep(self, lease: str) -> bool:
        """Keeps a lease; whether it was there still."""
        return int(self.call("/v3/lease/keepalive", {"ID": lease})["result"].get("TTL", "0")) > 0
