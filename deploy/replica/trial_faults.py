"""The faults of the trial: programs that are killed, stand still or are away, machines that are cut off, and what comes into the log that should not."""
import os
import secrets
import shutil
import signal
import time
from typing import TYPE_CHECKING, Callable, NamedTuple, Optional, Sequence

from entry import Entry
from etcd import is_free, put, span
from log import Log, Wanted
from tests.http_peer import PATIENCE, TRIES, Fault, free_port
from tests.runs import made_shim
from trial_clients import AT_ONCE, LIMIT, Post, Try
from trial_machines import CutNet, Member, Unit, wait_for

if TYPE_CHECKING:
    from trial import Trial

NAME = "desk"
LONGEST = 6.0  # seconds for which a client may be without an answer while one machine of three is down, cut off, or hung
AT_ONCE_SECONDS = 1.0  # in which a post is refused where it is known that nothing can be done
FAR = 10**15


class Planned(NamedTuple):
    """A fault, what it does, and whether it is one of one machine, in which nobody may wait long."""
    what: str
    does: Callable[[], Optional[str]]
    is_of_one: bool = False


class Faults:
    """What may go wrong in a trial."""

    def __init__(self, trial: "Trial") -> None:
        """In this one."""
        self.trial, self.members, self.dice, self.asked, self.net = trial, trial.members, trial.dice, trial.asked, trial.net
        self.times, self.away = trial.net.times, 0 if trial.asked.short else trial.asked.away

    def any(self) -> Member:
        """Some machine."""
        return self.dice.choice(self.members)

    def leader(self) -> Member:
        """The machine whose etcd leads, once one does."""
        wait_for("a leader", lambda: any(it.leads() for it in self.members))
        return next(it for it in self.members if it.leads())

    # ---- one program, or one machine

    def kill_leader(self) -> None:
        """The etcd that leads is killed."""
        self.leader().units["etcd"].signal(signal.SIGKILL)

    def kill(self, unit: str, number: int = signal.SIGKILL) -> Callable[[], None]:
        """A program of some machine gets a signal."""
        return lambda: self.any().units[unit].signal(number)

    def kill_machine(self) -> None:
        """All programs of a machine are killed, and begin some seconds later."""
        it = self.any()
        it.each(lambda unit: unit.hold())
        self.trial.let_go(self.asked.stage // 4)
        it.go()

    def stop_machine(self) -> None:
        """All programs of a machine stand still for longer than its lease."""
        it = self.any()
        it.each(lambda unit: unit.signal(signal.SIGSTOP))
        began = time.monotonic()
        self.trial.let_go(self.asked.stage // 4)
        time.sleep(max(0.0, began + 3 * self.times.lease - time.monotonic()))
        it.each(lambda unit: unit.signal(signal.SIGCONT))

    def hang_desk(self) -> str:
        """A desk stands still for good, with its follower alive, which ends it."""
        it = self.any()
        before = it.said("out, after place")
        it.units["desk"].signal(signal.SIGSTOP)
        took = wait_for("the desk that hangs ended", lambda: it.said("out, after place") > before)
        return f" (its follower ended it after {took:.1f} s)"

    def hang_and_kill(self) -> None:
        """A desk stands still for good, and the two others are killed, one after the other."""
        hung, *others = self.dice.sample(self.members, len(self.members))
        hung.units["desk"].signal(signal.SIGSTOP)
        for it in others:
            it.units["desk"].signal(signal.SIGKILL)
            time.sleep(1)

    def stop_leader(self) -> None:
        """The etcd that leads stands still, and what was sent to it is read long after that."""
        it = self.leader().units["etcd"]
        it.signal(signal.SIGSTOP)
        began = time.monotonic()
        self.trial.let_go(self.asked.stage // 4)
        time.sleep(max(0.0, began + self.times.patience + 4 - time.monotonic()))
        it.signal(signal.SIGCONT)

    def cut(self, kinds: str) -> Callable[[], None]:
        """The machine whose etcd leads is cut from the others, and from its clients or not."""
        def does() -> None:
            """For longer than its lease."""
            assert isinstance(self.net, CutNet)
            at = self.leader().at
            self.net.cut(at, True, kinds)
            began = time.monotonic()
            self.trial.let_go(self.asked.stage // 4)
            time.sleep(max(0.0, began + 4 * self.times.lease - time.monotonic()))
            self.net.cut(at, False, kinds)
        return does

    def fail_disk(self) -> str:
        """A desk begins anew on a disk that fails some acts later: it is told 31."""
        it = self.any()
        before = it.said("31 Store")
        calls = 1000 + 3 * max(member.begun(3) for member in self.members)
        it.desk_env = {"LD_PRELOAD": made_shim("stop_io", self.trial.folder), "STOP_FILE": f"{it.folder}/desk/desk.db", "FAIL_FROM": str(calls)}
        it.units["desk"].signal(signal.SIGKILL)
        end = time.monotonic() + 300
        while it.said("31 Store") == before:
            self.trial.let_go(2 * AT_ONCE)
            if time.monotonic() > end:
                raise Fault("no desk was told 31")
        return ""

    # ---- all machines

    def kill_all(self) -> None:
        """All programs of all machines are killed at once."""
        for it in self.members:
            it.each(lambda unit: unit.hold())
        time.sleep(1)
        for it in self.members:
            it.go()

    def cut_all(self) -> None:
        """All machines are cut from each other."""
        assert isinstance(self.net, CutNet)
        for at in range(self.net.count):
            self.net.cut(at, True)
        time.sleep(2 * self.times.lease)
        for at in range(self.net.count):
            self.net.cut(at, False)

    def etcd_away(self) -> str:
        """All etcds are killed, and away for longer than anybody waits; the first time for minutes. Once that is known a post is refused at once."""
        for it in self.members:
            it.units["etcd"].hold()
        time.sleep(self.times.patience + 4)
        told = [self.timed(it) for it in self.members]
        time.sleep(self.away)
        self.away = 0
        for it in self.members:
            it.go()
        self.trial.tell("while etcd is away a post is refused at once", not_at_once(told))
        return ""

    def timed(self, member: Member) -> tuple[int, float]:
        """The status of the answer to one more post, 0 where there is none, and after how many seconds it came. Where it came late, another post is
        sent."""
        for _ in range(1, TRIES):
            status, took = self.timed_once(member)
            if status != 503 or took <= AT_ONCE_SECONDS:
                return status, took
        return self.timed_once(member)

    def timed_once(self, member: Member) -> tuple[int, float]:
        """The same, of one post."""
        self.trial.posts += 1
        post = Post("/acts", b'{"act":"enter 5 a--c no 8 1 - - ok","by":"tri","moment":1,"number":%d}' % self.trial.posts)
        began = time.monotonic()
        self.trial.tries.append(Try(post, member.name, began, self.times.patience))
        told = self.trial.clients[0].ask(member.at, "POST", post.path, post.body, LIMIT)
        return told[0] if told else 0, time.monotonic() - began

    # ---- what comes into the log that should not

    def log(self) -> Log:
        """The log, as a replica has it."""
        it = self.members[0]
        log = Log(it.opened(), NAME, it.seal())
        log.free = log.newest(0) + 1
        return log

    def foreign(self) -> str:
        """Whoever has a machine's keys for etcd, and not its seal, puts something into the log: a text that is none, and one that was copied from another place."""
        log, before = self.log(), [it.said("no replica of this desk wrote it") for it in self.members]
        copied = log.etcd.ask(span(log.key(2), log.key(3))).pairs[0].value
        for value in (b"no newline", copied, b"x /acts 1 2 3\n{}"):
            while True:
                place = log.newest(0) + 1
                if not log.etcd.write([is_free(log.key(place))], [put(log.key(place), value)]):
                    break
        wait_for("all machines passed them over", lambda: all(it.said("no replica of this desk wrote it") >= was + 3 for it, was in zip(self.members, before)))
        return ""

    def poison(self) -> str:
        """A sealed entry at which each machine fails: all stay out, `status` says why, and they go on once it is skipped."""
        log, wanted = self.log(), Wanted(Entry(f"poison-{secrets.token_hex(4)}", "/acts\x01", b"", FAR))
        while not wanted.place:
            log.put([wanted])
        line = f"failed 3 times in a row at place {wanted.place}\n"
        wait_for("all machines stay out", lambda: all(it.said(f"stays out: its desks {line}") for it in self.members))
        end = time.monotonic() + PATIENCE  # a machine tells of itself each second
        while (told := self.members[0].does("status")).count(line) < len(self.members) and time.monotonic() < end:
            time.sleep(0.2)
        wants = [f"machine {it.name} stays out" for it in self.members]
        self.trial.tell("`status` says at which place all machines stay out",
                        [f"{it} is not in {told}" for it in wants if it not in told] + [told] * (told.count(line) != len(self.members)))
        self.members[1].does("skip", "--place", str(wanted.place))
        return f" (place {wanted.place})"

    def post_beside_the_log(self) -> str:
        """A desk is posted something that is not in the log. It has a row more than the others from then on, which no answer shows."""
        it = self.any()
        before = it.said("not those of most")
        it.ask_desk({"act": "loseup 4294967295", "by": "replica", "moment": 0, "number": 4_000_000_000})
        self.trial.let_go(self.asked.every + AT_ONCE)
        took = wait_for("the other tables found", lambda: it.said("not those of most") > before)
        return f" (found {took:.1f} s after the next comparison)"

    def full_quota(self) -> str:
        """etcd's quota is full: a post is refused at once, `status` says so; then it has room again."""
        for it in self.members:
            self.restart_etcd(it, 1)
        wait_for("no room", lambda: "NOSPACE" in self.members[0].does("status"))
        time.sleep(3)
        answers, told = [self.timed(it) for it in self.members], self.members[0].does("status")
        for it in self.members:
            self.restart_etcd(it, 0)
        self.members[0].as_root("alarm", "disarm")
        self.trial.tell("while etcd has no room a post is refused at once, and `status` says why",
                        not_at_once(answers) + [told] * ("NOSPACE" not in told))
        return ""

    def restart_etcd(self, member: Member, quota: int) -> None:
        """An etcd begins anew with this quota, 0 for its own."""
        member.quota = quota
        member.units["etcd"].signal(signal.SIGKILL)
        time.sleep(2)
        wait_for("its etcd again", lambda: member.does("status").startswith("places"))

    def name_twice(self) -> str:
        """A second machine has the name of the first: it is told so at once, and stays out; the first goes on."""
        first, folder, port = self.members[0], f"{self.trial.folder}/twice", free_port()
        os.makedirs(f"{folder}/desk", exist_ok=True)
        words = first.run_words(f"{folder}/desk", port)
        unit = Unit(lambda: words, f"{folder}/replica.log")
        unit.goes.set()
        try:
            took = wait_for("the second one told", lambda: told_in(f"{folder}/replica.log", "another machine is called a"))
            self.trial.let_go(self.asked.stage // 4)
            self.trial.tell("a second machine of one name is out", ["it was in"] * told_in(f"{folder}/replica.log", "in, at place"))
        finally:
            unit.end()
            shutil.rmtree(folder, ignore_errors=True)
        return f" (found after {took:.1f} s)"


def not_at_once(answers: Sequence[tuple[int, float]]) -> list[str]:
    """What is wrong of answers, by their status and their time, that had to refuse at once."""
    return [f"{status} after {took:.1f} s" for status, took in answers if status != 503 or took > AT_ONCE_SECONDS]


def told_in(path: str, text: str) -> bool:
    """Whether a file has this text."""
    try:
        with open(path, encoding="utf-8") as file:
            return text in file.read()
    except FileNotFoundError:
        return False


def plan(trial: "Trial") -> list[Planned]:
    """The faults, in their order."""
    it, more = Faults(trial), list[Planned]()
    told = [Planned("an entry that is poison", it.poison), Planned("entries that no replica wrote", it.foreign),
            Planned("the etcd that leads is killed", it.kill_leader, True), Planned("a desk is killed", it.kill("desk"), True),
            Planned("a replica is killed", it.kill("replica"), True), Planned("a name twice", it.name_twice, True)]
    ones = [Planned("a desk hangs", it.hang_desk, True), Planned("a machine is killed", it.kill_machine, True),
            Planned("a machine stands still", it.stop_machine, True), Planned("etcd is away", it.etcd_away)]
    if trial.asked.short:
        return told + ones
    more = [Planned("a wanted restart of a desk", it.kill("desk", signal.SIGTERM), True), Planned("a desk hangs, and the two others are killed", it.hang_and_kill),
            Planned("a desk is told 31", it.fail_disk, True), Planned("a desk is posted something beside the log", it.post_beside_the_log, True),
            Planned("the etcd that leads stands still", it.stop_leader, True), Planned("etcd's quota is full", it.full_quota)]
    if trial.net.can_cut:
        more += [Planned("the machine that leads is cut from the others", it.cut("p"), True),
                 Planned("the machine that leads is cut off, from its clients too", it.cut("pc"), True), Planned("all machines are cut from each other", it.cut_all)]
    return told + ones + more + [Planned("the etcd that leads is killed", it.kill_leader, True), Planned("all programs are killed at once", it.kill_all)]


