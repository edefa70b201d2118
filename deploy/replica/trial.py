#!/usr/bin/python3
"""Three machines that keep one desk, tried on one real machine: three etcd, three desks and three replicas, which are killed, stopped and cut from each other
while ten clients send random posts, and three more leave after 1 to 4 seconds.

    deploy/replica/trial.py [--program PATH] [--seed N] [--posts N]      the long form; as root each machine has a network of its own, and is cut off too
    deploy/replica/trial.py --seconds 300                                the same, and then random ones of the faults, until so many seconds went by
    deploy/replica/trial.py --short                                      some faults, on 127.0.0.1
    deploy/replica/trial.py --rates                                      acts a second of a desk alone, of one machine, of three, and of two of three

At its end the plain desk of tools/model carries the log out. Each answer that a client got has to be the plain desk's at its place, byte for byte; what was
accepted stands once on each machine; `link` and `schedule` are answered alike by all; and the tables of all files are those of the plain desk, row by row.
No post was given to any desk for the first time when its sender was told to wait no more. While one machine of three is down, cut off or hangs, no client that
waits for 4 seconds is without an answer for 6.
What could not be tried is told in a line `not tried: ..`; the last line is `N passed, N failed`.
"""
import argparse
import json
import os
import random
import re
import shutil
import signal
import sys
import tempfile
import time
from typing import Callable, Optional, Sequence

sys.dont_write_bytecode = True
sys.path[1:1] = [f"{os.path.dirname(os.path.realpath(__file__))}/../../tools"]

from run import program_of  # noqa: E402
from model.rows import Tables, empty_tables  # noqa: E402
from order import Verdict  # noqa: E402
from tests.asked import TOP  # noqa: E402
from tests.http_peer import TRIES, Fault, run  # noqa: E402
from tests.plain_runs import kept_tables  # noqa: E402
from tests.runs import quick_folder  # noqa: E402
from trial_checks import carried_out, done_wrongly, items_of, too_late, wrong_answers, wrong_files  # noqa: E402
from trial_clients import AT_ONCE, Client, Dealer, Leaver, Script, Try, Watcher, random_script  # noqa: E402
from trial_faults import LONGEST, NAME, Planned, plan  # noqa: E402
from trial_machines import AS_SET_UP, CutNet, Member, Net, Unit, make_keys, wait_for  # noqa: E402

LEAVERS = 3
POSTS_A_SECOND = 30  # more than random faults let go


def first_tables(program: str, folder: str) -> Tables:
    """Makes the file with which all desks begin, of requests that were on their way, and gives its tables."""
    with open(f"{TOP}/examples/monday.tc", encoding="ascii") as file:
        run(program, folder, file.read().splitlines(), "--db", "first.db")
    tables = kept_tables(f"{folder}/first.db")
    assert tables, "it is a desk's"
    return tables


class Trial:
    """So many machines, and what was found of them."""

    def __init__(self, asked: argparse.Namespace, folder: str, net: Net, count: int, first_counts: Sequence[int] = ()) -> None:
        """None runs yet."""
        self.asked, self.folder, self.net, self.dice = asked, folder, net, random.Random(asked.seed)
        self.first = first_tables(asked.program, folder)
        counts = [*first_counts, *[1_000_000] * count]
        self.members = [Member(net, at, folder, asked.program, asked.every, counts[at]) for at in range(count)]
        self.passed, self.failed, self.posts = 0, 0, 0
        self.waited: list[tuple[float, str]] = []  # in each fault of one machine: the longest that a client was without an answer
        self.clients: list[Client] = []
        self.leavers: list[Client] = []
        self.tries: list[Try] = []
        self.dealer, self.watcher = Dealer(Script([], [])), Watcher(self.members)

    def __enter__(self) -> "Trial":
        """All machines are in."""
        try:
            self.begin()
        except BaseException:
            self.__exit__()
            raise
        return self

    def begin(self) -> None:
        """Begins all machines, and waits until they are in."""
        if self.net.count:
            make_keys(self.net, self.folder)
            for it in self.members:
                it.opened()
                it.units["etcd"].goes.set()
            wait_for("etcd's auth", self.members[0].turns_auth_on, 120)
        for it in self.members:
            it.go()
        wait_for("all machines in", self.are_in)
        self.watcher.start()

    def __exit__(self, *_: object) -> None:
        """Nothing runs any more."""
        self.dealer.end()
        self.watcher.is_over = True
        for it in self.members:
            it.each(lambda unit: unit.end())
        self.net.end()

    def are_in(self) -> bool:
        """Whether all machines answer."""
        return all(it.is_in() for it in self.members)

    def tell(self, what: str, faults: Sequence[str]) -> None:
        """Counts what was looked at, and prints its faults."""
        self.passed, self.failed = self.passed + (not faults), self.failed + bool(faults)
        print(f"{what}: {'as it has to be' if not faults else ''}", flush=True)
        for it in faults[:10]:
            print(f"  FAILED {it}", flush=True)

    # ---- posts

    def send(self, script: Script, members: Optional[Sequence[Member]] = None) -> None:
        """Has clients for these posts; none is let go yet."""
        self.dealer = Dealer(script)
        self.clients = [Client(self.dealer, members or self.members, at % len(members or self.members)) for at in range(AT_ONCE)]
        for it in self.clients:
            it.start()

    def send_and_leave(self) -> None:
        """Has clients that send each post once, and leave soon."""
        self.leavers = [Leaver(self.dealer, self.members, at) for at in range(LEAVERS)]
        for it in self.leavers:
            it.start()

    def answered(self) -> int:
        """How many posts were answered."""
        return sum(len(it.told) for it in self.clients)

    def let_go(self, count: int) -> None:
        """Lets so many posts go, and waits until they are answered."""
        end = self.answered() + count
        self.dealer.let_go(count)
        wait_for("posts answered", lambda: self.answered() >= end - AT_ONCE or self.answered() == len(self.dealer.posts) or self.broken())

    def broken(self) -> bool:
        """Whether a client went no further."""
        if any(it.fault for it in self.clients):
            raise Fault(f"a client: {[it.fault for it in self.clients if it.fault]}")
        return False

    def silence(self, since: float) -> float:
        """The longest time in which nobody was answered, from then on."""
        times = sorted([since, *(it.at for client in self.clients for it in client.told if it.at > since)])
        return max((late - early for early, late in zip(times, times[1:])), default=0.0)

    def longest(self, since: float) -> tuple[float, str]:
        """The longest time that a client was without an answer, of what was answered from then on, and what its tries came to."""
        return max(((it.at - max(it.sent, since), it.history) for client in self.clients for it in client.told if it.at > since), default=(0.0, ""))

    def fault(self, planned: Planned, stage: int) -> None:
        """A fault. In one of one machine, where a client waits too long, it comes again, and the best counts: the programs may have had no
        processor."""
        waited = [self.fault_once(planned, stage)]
        while planned.is_of_one and waited[-1][0] >= LONGEST and len(waited) < TRIES:
            waited.append(self.fault_once(planned, stage))
        if planned.is_of_one:
            self.waited.append(min(waited))

    def fault_once(self, planned: Planned, stage: int) -> tuple[float, str]:
        """Half a stage of posts, a fault, and the other half; and then few posts, until all machines are in again. Gives how long a client waited at
        most, and where."""
        self.let_go(stage // 2)
        began = time.monotonic()
        more = planned.does()
        self.let_go(stage - stage // 2)
        wait_for("all machines in again", self.are_in)
        took, (longest, history) = time.monotonic() - began, self.longest(began)
        print(f"{planned.what}: at place {max(it.told[-1].place for it in self.clients if it.told)}, nobody was answered for {self.silence(began):.1f} s, "
              f"a client for {longest:.1f} s, all were in again after {took:.1f} s{more or ''}", flush=True)
        self.broken()
        return longest, f"{planned.what}: {history}"

    # ---- what is looked at in the end

    def end_of_posts(self) -> None:
        """No more posts; all machines have carried out the whole log, and their followers end."""
        self.dealer.end()
        for client in [*self.clients, *self.leavers]:
            client.join()
        self.broken()
        wait_for("all machines in", self.are_in)
        places = [it.ask("GET", "/places?newest")[2] for it in self.members]
        self.tell(f"{self.answered()} posts were answered, and the log has {max(places)} places", [])
        for it in self.members:
            it.units["replica"].hold()

    def look(self) -> None:
        """Everything."""
        self.end_of_posts()
        longest, what = max(self.waited, default=(0.0, "nothing"))
        self.tell(f"in {len(self.waited)} faults of one machine of three no client waited for {LONGEST:.0f} s; the longest was {longest:.1f} s ({what})",
                  [f"{why}: {took:.1f} s" for took, why in self.waited if took >= LONGEST])
        everybody = [*self.clients, *self.leavers]
        told, looks = [it for client in everybody for it in client.told], [it for client in everybody for it in client.looks]
        items = items_of(self.members[0], NAME)
        marks = [it.entry.mark for it in items if it.entry]
        self.tell("each entry of the log has a mark of its own", ["one mark comes twice"] * (len(marks) != len(set(marks))))
        self.tell("the log says of each place what is to be done", [f"place {it.place}" for it in items if not it.verdict])
        tries = [*self.tries, *(it for client in everybody for it in client.tries)]
        void = sum(it.verdict is Verdict.LATE for it in items)
        print(f"{void} posts are void; the time of each post is known within {self.watcher.gap:.2f} s")
        self.tell("no post was carried out when its sender was told to wait no more", too_late(items, self.watcher.seen, tries))
        carried = carried_out(items, self.first, looks)
        self.tell("each answer is the plain desk's at its place", wrong_answers(carried, told))
        self.tell(f"{len(looks)} questions by GET are answered as the plain desk answers at their places", carried.wrong_looks + ["there are none"] * (not looks))
        newest = [it for it in looks if it.least and it.place]
        self.tell(f"{len(newest)} of them for the newest, none as of an older place than the post before", [f"{it}" for it in newest if it.place < it.least])
        self.look_at_links(carried.desk.acts)
        for it in self.members:
            it.units["desk"].goes.clear()
            it.units["desk"].signal(signal.SIGTERM)
        wait_for("all desks ended", lambda: all(it.units["desk"].ended() for it in self.members))
        self.tell("the tables of all files are the plain desk's, row by row", wrong_files(carried, self.members))
        self.tell("what was accepted is kept once, as it was answered", done_wrongly(carried.desk.tables(), told))
        again = sum(it.tries > 1 for it in told)
        statuses = sorted({it.status for it in told})
        print(f"{again} posts were sent again, {sum(it.tries for it in told) - len(told)} times; "
              + ", ".join(f"{sum(it.status == status for it in told)} answered {status}" for status in statuses))

    def look_at_links(self, asks: Callable[[str, int, str], list[str]]) -> None:
        """The questions that no table answers."""
        faults = []
        for act in ("link", "schedule", "places"):
            wanted = asks("zed", 0, act)
            for it in self.members:
                lines = json.loads(it.ask_desk({"act": act, "by": "zed", "moment": 0, "number": 4_294_967_295}))["lines"]
                faults += [f"{act} of {it.name}: {lines}, and not {wanted}"] * (lines != wanted)
        self.tell("link, schedule and places are answered alike by all", faults)


def faults(asked: argparse.Namespace, folder: str) -> int:
    """The trial with faults."""
    net = Net(3)
    if not asked.short and os.getuid() == 0 and shutil.which("ip"):
        net = CutNet(3)
    elif not asked.short:
        print("not tried: machines that are cut from each other (root and iproute2 are wanted for that)")
    net.times = AS_SET_UP if asked.as_set_up else net.times
    print(f"replica: seed {asked.seed}", flush=True)
    with Trial(asked, folder, net, 3, [asked.stage // 2]) as trial:
        trial.send(random_script(asked.seed, asked.posts * 2 + asked.seconds * POSTS_A_SECOND, trial.first))
        trial.send_and_leave()
        began = time.monotonic()
        planned = [it for it in [Planned(f"a desk ends after its COUNT, {asked.stage // 2}", lambda: None, True), *plan(trial)] if re.search(asked.only, it.what)]
        for it in planned:
            trial.fault(it, asked.stage)
        trial.let_go(max(0, asked.posts - trial.answered()))
        while planned[1:] and time.monotonic() - began < asked.seconds and trial.answered() < len(trial.dealer.posts) - 4 * asked.stage:
            trial.fault(trial.dice.choice(planned[1:]), asked.stage)
        print(f"{trial.answered()} posts in {time.monotonic() - began:.0f} s, and {sum(len(it.tries) for it in trial.leavers)} of who leave, "
              f"of which {sum(len(it.told) for it in trial.leavers)} were answered", flush=True)
        trial.look()
    print(f"{trial.passed} passed, {trial.failed} failed")
    return int(trial.failed > 0)


class Alone(Member):
    """A desk without a replica: its clients ask itself."""

    def __init__(self, folder: str, program: str) -> None:
        """It is not begun yet."""
        net = Net(1)
        net.ports[0][2] = net.ports[0][3]
        super().__init__(net, 0, folder, program, 1)
        words = [program, "serve", f"{self.folder}/desk/desk.db", str(self.desk_port)]
        self.units = {"desk": Unit(lambda: words, f"{self.folder}/desk.log")}


def rates(asked: argparse.Namespace, folder: str) -> int:
    """Acts a second."""
    script = random_script(asked.seed, asked.posts, empty_tables())
    os.mkdir(f"{folder}/alone")
    with Trial(asked, f"{folder}/alone", Net(0), 0) as trial:
        trial.members = [Alone(f"{folder}/alone", asked.program)]
        trial.members[0].go()
        wait_for("it there", trial.are_in)
        rate("a desk alone", trial, script, trial.members)
    for what, count, dead in (("one machine", 1, 0), ("three machines", 3, 0), ("three machines, one of them dead", 3, 1)):
        os.mkdir(f"{folder}/{count}{dead}")
        with Trial(asked, f"{folder}/{count}{dead}", Net(count), count) as trial:
            for it in trial.members[count - dead:]:
                it.each(lambda unit: unit.hold())
            rate(what, trial, script, trial.members[:count - dead])
            if not dead:
                rejoin(trial.members[0])
    return 0


def rate(what: str, trial: Trial, script: Script, alive: Sequence[Member]) -> None:
    """How many of these posts are answered a second by the machines that are there."""
    trial.send(script, alive)
    began, spent = time.monotonic(), sum(it.spent() for it in alive)
    trial.let_go(len(script.posts))
    took, spent = time.monotonic() - began, sum(it.spent() for it in alive) - spent
    print(f"{what}: {trial.answered() / took:.0f} posts a second of {AT_ONCE} clients; {spent * 1000 / len(alive) / trial.answered():.1f} ms of a "
          f"processor each on each machine; a load of {os.getloadavg()[0]:.0f}", flush=True)


def rejoin(member: Member) -> None:
    """How long a machine takes to be in again, of which the desk alone ended."""
    places = member.ask("GET", "/places")[2]
    began, spent = time.monotonic(), member.spent("etcd", "replica")
    member.units["desk"].signal(signal.SIGKILL)
    wait_for("it out", lambda: not member.is_in())
    wait_for("it in", member.is_in)
    took, spent = time.monotonic() - began, member.spent() - spent
    print(f"  in again after {took:.1f} s, and {spent:.1f} of processors, at {places} places: {took * 10000 / places:.0f} s, and {spent * 10000 / places:.0f} "
          "of processors, for 10,000", flush=True)


def main() -> int:
    """Does what the words ask for."""
    parser = argparse.ArgumentParser(prog="trial.py", description=__doc__, formatter_class=argparse.RawDescriptionHelpFormatter)
    parser.add_argument("--program", metavar="PATH", help="the program that is run")
    parser.add_argument("--seed", type=int, default=1, metavar="N", help="of the posts and the faults (1)")
    parser.add_argument("--posts", type=int, metavar="N", help="at least so many (10,000; short 1,100; rates 3,000)")
    parser.add_argument("--seconds", type=int, default=0, metavar="N", help="faults go on until so many seconds went by (0)")
    parser.add_argument("--away", type=int, default=120, metavar="N", help="etcd is away for so many seconds, the first time (120; short: no longer than anybody waits)")
    parser.add_argument("--as-set-up", action="store_true", help="a replica has the times that it has where none are named, and not shorter ones")
    parser.add_argument("--only", default="", metavar="PATTERN", help="those faults alone whose names match it")
    parser.add_argument("--folder", metavar="PATH", help="a folder on the disk that is used (short: memory)")
    parser.add_argument("--short", action="store_true", help="some faults, on 127.0.0.1, in memory")
    parser.add_argument("--rates", action="store_true", help="acts a second, without faults")
    asked = parser.parse_args()
    signal.signal(signal.SIGTERM, lambda *_: sys.exit(2))  # so that all that runs is ended
    missing = [name for name in ("etcd", "etcdctl", "openssl") if not shutil.which(name)]
    if missing:
        print(f"not tried: {', '.join(missing)} is not installed (Debian: etcd-server, etcd-client, openssl)")
        return 0
    asked.program = program_of(asked.program)
    asked.posts = asked.posts or (1100 if asked.short else 3000 if asked.rates else 10_000)
    asked.stage, asked.every = asked.posts // (11 if asked.short else 22), max(50, asked.posts // 20)
    within = asked.folder or quick_folder() if asked.short else asked.folder
    with tempfile.TemporaryDirectory(prefix="replica-", dir=within) as folder:
        return rates(asked, folder) if asked.rates else faults(asked, folder)


if __name__ == "__main__":
    sys.exit(main())
