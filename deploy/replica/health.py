"""How a machine stands: what it tells of itself in `/healthz` and `/metrics`, and why it takes no post just now."""
import json
from contextlib import suppress

from etcd import Room, Unanswered
from log import Log
from machine import Machine
from order import Verdict
from present import Present, State

SILENT = 3.0  # seconds after which an etcd that answers nothing counts as silent: nothing is sent to it on behalf of anybody then
SLOW = 2.0  # seconds for which a desk may owe an answer before its machine takes nothing more
MOST_WAITING = 1000  # posts that wait at once
MOST_POSTS = 900_000  # of a log: a desk ends after 1,000,000 connections, and each post is one


class Health:
    """How one machine stands."""

    def __init__(self, machine: Machine, present: Present, log: Log) -> None:
        """Nothing was looked at yet."""
        self.machine, self.present, self.log = machine, present, log
        self.room, self.newest = Room(0, 0, []), 0

    def look(self) -> None:
        """Asks etcd for its room, its alarms, and the end of the log."""
        with suppress(Unanswered):
            self.room = self.log.etcd.room()
            self.newest = self.log.newest(self.machine.place)

    def state(self) -> State:
        """What the other machines are told."""
        place, count = self.machine.desk.repeats()
        return State(self.machine.is_in and not self.machine.leaves_for, self.machine.place, place, count, self.machine.stays_out_at() > 0)

    def is_silent(self) -> bool:
        """Whether most members of etcd are not heard."""
        return self.log.etcd.silent() > SILENT

    def has_no_room(self) -> bool:
        """Whether etcd takes nothing more."""
        return "NOSPACE" in self.room.alarms or self.log.etcd.refused + SILENT > self.log.etcd.heard

    def closed(self, is_post: bool) -> str:
        """Why a request is not taken now; nothing where it is."""
        faults = {"this machine is out": not self.machine.is_in, "its desk does not answer": self.machine.stuck() > SLOW}
        if is_post:
            faults |= {"the log does not answer": self.is_silent(), "the log has no room": self.has_no_room(),
                       "too many wait": len(self.machine.waiting) >= MOST_WAITING}
        return next((why for why, is_so in faults.items() if is_so), "")

    def is_full(self) -> bool:
        """Whether the log is as long as a desk can serve."""
        return self.machine.begun.posts > MOST_POSTS

    def alarms(self) -> list[str]:
        """What a person has to look at."""
        state, passed = self.state(), self.machine.passed_over
        told = {f"etcd: {' '.join(self.room.alarms)}": bool(self.room.alarms), "etcd: nine tenths of its quota are taken": self.room.is_nearly_full(),
                "etcd is silent": self.is_silent(), f"the name {self.present.name} is another machine's": self.present.is_taken,
                f"stays out: failed {state.failed} times in a row at place {state.failed_at}": state.stays_out,
                f"{passed[Verdict.FOREIGN]} entries that no replica of this desk wrote": passed[Verdict.FOREIGN] > 0,
                "its desk does not answer": self.machine.stuck() > SLOW}
        return [what for what, is_so in told.items() if is_so]

    def lag(self) -> int:
        """How many places of the log, as far as this machine knows it, are not carried out."""
        return max(0, self.newest, self.log.free - 1) - self.machine.place

    def told(self) -> tuple[bool, bytes]:
        """Whether it is well, and how it stands."""
        state = self.state()
        told = {"in": state.is_in, "place": state.place, "lag": self.lag(), "bytes": self.room.bytes, "quota": self.room.quota, "failed_at": state.failed_at,
                "failed": state.failed, "alarms": self.alarms(), "closed": self.closed(True)}
        return not told["closed"], json.dumps(told).encode() + b"\n"

    def metrics(self) -> bytes:
        """The same as Prometheus reads it."""
        state, passed = self.state(), self.machine.passed_over
        told = {"in": int(state.is_in), "place": state.place, "lag_places": self.lag(), "posts": self.machine.begun.posts, "waiting": len(self.machine.waiting),
                "etcd_silent_seconds": round(self.log.etcd.silent(), 1), "etcd_bytes": self.room.bytes, "etcd_quota_bytes": self.room.quota,
                "etcd_alarms": len(self.room.alarms), "failed_at_place": state.failed_at, "failed_in_a_row": state.failed, "stays_out": int(state.stays_out),
                "name_taken": int(self.present.is_taken), "alarms": len(self.alarms()),
                **{f"places_{it.name.lower()}": count for it, count in passed.items()}}
        return "".join(f"# TYPE tcdesk_replica_{name} gauge\ntcdesk_replica_{name} {value}\n" for name, value in told.items()).encode()
