#!/usr/bin/python3
"""One of the machines that keep one desk: the same acts in the same order on each, by a log in etcd. README.md of this folder says how it is set up.

    replica.py desk [options] -- [OPTIONS OF SERVE]     becomes `tcdesk serve` with a new file
    replica.py run [options]                            the follower of that desk, and the entrance
    replica.py status [options]                         prints how far the log is, and how each machine stands
    replica.py skip --place N [options]                 has all machines pass over a place of the log
"""
import argparse
import fcntl
import glob
import os
import re
import secrets
import shutil
import sys
import threading
import time
from contextlib import suppress
from queue import Empty
from typing import TYPE_CHECKING, Optional

sys.dont_write_bytecode = True  # what root runs leaves nothing in a folder of the package

from compare import Comparison, Judge  # noqa: E402
from desk import Desk, Way, begin_desk  # noqa: E402
from entry import SKIP, Entry, Seal  # noqa: E402
from etcd import Etcd, Login, Refused, Unanswered  # noqa: E402
from log import PAUSE, Log, LogLost, Wanted  # noqa: E402
from machine import Machine, give_up, say  # noqa: E402
from present import Present, owner_of  # noqa: E402

if TYPE_CHECKING:
    from health import Health

# The program itself: its start script would stand between a desk that hangs and the signal that ends it, and would be what machines compare.
PROGRAM = "/usr/lib/tcdesk/x86_64-linux-gnu/tcdesk"
EVERY = 10_000
SECOND = 1.0


def log_of(asked: argparse.Namespace) -> Log:
    """The log, by the keys of this machine."""
    with open(f"{asked.keys}/seal.key", "rb") as file:
        seal = Seal(file.read())
    return Log(Etcd(asked.etcd, login=Login(asked.keys)), asked.log, seal)


def run(asked: argparse.Namespace) -> None:
    """The follower, and the entrance."""
    from appender import Appender  # these want aiohttp, and no other command does
    from entrance import Entrance
    from health import Health
    log = log_of(asked)
    threading.excepthook = lambda it: give_up(f"a thread ended: {it.exc_value!r}")
    os.makedirs(asked.folder, exist_ok=True)
    lock = os.open(f"{asked.folder}/replica.lock", os.O_RDWR | os.O_CREAT, 0o640)
    fcntl.flock(lock, fcntl.LOCK_EX | fcntl.LOCK_NB)
    for it in glob.glob(f"{glob.escape(asked.folder)}/copy-*"):
        shutil.rmtree(it, ignore_errors=True)
    machine = Machine(log, Desk(asked.folder, asked.progress), asked.every)
    present = Present(log.etcd, log.root, asked.name, owner_of(asked.folder), asked.lease)
    health, judge = Health(machine, present, log), Judge(machine, log.etcd, log.root, present, asked.digests)
    host, _, port = asked.listen.rpartition(":")
    appender = Appender(log, machine, asked.name)
    entrance = Entrance((host, int(port)), appender, health, asked.patience)
    for what in (lambda: keep_lease(health), lambda: judge_all(machine, judge), lambda: look_all(health)):
        threading.Thread(target=what, daemon=True).start()
    appender.start()
    entrance.start()
    entrance.listens.wait()
    say(f"{asked.name} listens on {host}:{entrance.port}")
    machine.run()


def keep_lease(health: "Health") -> None:
    """Tells that this machine is there, and how it stands, for ever; has it leave where its name is another one's, and, while all others are in, where its desk is
    near its end."""
    machine, present, was_taken = health.machine, health.present, False
    machine.name = present.name
    while True:
        with suppress(Unanswered):
            if machine.is_spent() and present.may_leave():
                machine.has_to_leave(machine.mark, "its desk has served nearly all of its COUNT")
            present.tell(health.state())
            machine.reserve = present.reserve()
            if present.is_taken and not was_taken:
                say(f"another machine is called {present.name}: this one is out as long as that is so")
                machine.has_to_leave(machine.mark, f"another machine is called {present.name}")
            was_taken = present.is_taken
        time.sleep(PAUSE if health.is_silent() else min(SECOND, present.seconds / 4))


def judge_all(machine: Machine, judge: Judge) -> None:
    """Judges comparisons, for ever."""
    while True:
        it: Optional[Comparison] = None
        with suppress(Empty):
            it = machine.comparisons.get(timeout=SECOND / 4)
        judge.look(it)


def look_all(health: "Health") -> None:
    """Looks how etcd stands, for ever."""
    while True:
        health.look()
        time.sleep(2 * SECOND)


def status(asked: argparse.Namespace) -> None:
    """Prints how far the log is, how much room it has, and how each machine stands."""
    log = log_of(asked)
    newest, room = log.newest(0), log.etcd.room()
    print(f"places {newest}")
    for alarm in room.alarms or ["nine tenths are taken"] * room.is_nearly_full():
        print(f"ALARM etcd: {alarm}")
    print(f"room {room.bytes} of {room.quota}")
    for name, there in sorted(Present(log.etcd, log.root, "", "", 0).all().items()):
        it = there.state
        lag = f" lag {newest - it.place}" if newest > it.place else ""
        fails = f" failed {it.failed} times in a row at place {it.failed_at}" if it.failed else ""
        print(f"machine {name} {'in' if it.is_in else 'stays out' if it.stays_out else 'out'}{lag}{fails}")


def skip(asked: argparse.Namespace) -> None:
    """Has all machines pass over a place: an entry of the log says so."""
    log = log_of(asked)
    newest = log.newest(0)
    if not 0 < asked.place <= newest:
        raise SystemExit(f"replica: there is no place {asked.place}")
    log.follow(max(1, newest - 1))
    wanted = Wanted(Entry(f"skip-{secrets.token_hex(8)}", SKIP, b"%d" % asked.place))
    while not wanted.place:
        try:
            log.put([wanted], asked.place)
        except Refused as why:
            raise SystemExit(f"replica: {why}") from None
        except Unanswered:
            time.sleep(10 * PAUSE)
    print(f"place {asked.place} is skipped, by place {wanted.place}")


def named(text: str) -> str:
    """A name of a log or of a machine."""
    if not re.fullmatch("[a-z0-9]{1,16}", text):
        raise argparse.ArgumentTypeError("a name is 1 to 16 of a-z0-9")
    return text


def parsed(words: list[str]) -> argparse.Namespace:
    """The words of the command line."""
    words, options = (words[:words.index("--")], words[words.index("--") + 1:]) if "--" in words else (words, [])
    parser = argparse.ArgumentParser(prog="replica.py", description=__doc__, formatter_class=argparse.RawDescriptionHelpFormatter)
    parser.add_argument("what", choices=["desk", "run", "status", "skip"])
    parser.add_argument("--log", type=named, default="desk", metavar="NAME", help="the name of the desk, the same on all machines (desk)")
    parser.add_argument("--name", type=named, metavar="NAME", help="run: the name of this machine, of its own")
    parser.add_argument("--etcd", type=int, default=2379, metavar="PORT", help="where etcd listens on 127.0.0.1 (2379)")
    parser.add_argument("--keys", default="/etc/tcdesk-replica", metavar="PATH", help="where the certificate, the password and the seal lie (/etc/tcdesk-replica)")
    parser.add_argument("--folder", default="/var/lib/tcdesk-replica", metavar="PATH",
                        help="desk, run: where the file of the desk lies, which nothing else uses (/var/lib/tcdesk-replica)")
    parser.add_argument("--program", default=PROGRAM, metavar="PATH", help=f"desk: the program, and no script that starts it ({PROGRAM})")
    parser.add_argument("--first", metavar="PATH", help="desk: it begins with a copy of this file, the same on all machines (with an empty one)")
    parser.add_argument("--port", type=int, default=8081, metavar="PORT", help="desk: where it listens on 127.0.0.1 (8081)")
    parser.add_argument("--count", type=int, default=1_000_000, metavar="N", help="desk: it ends after so many connections (1,000,000)")
    parser.add_argument("--listen", default="127.0.0.1:8080", metavar="HOST:PORT",
                        help="run: where the entrance listens; requests call it by this host, 127.0.0.1 or localhost (127.0.0.1:8080)")
    parser.add_argument("--lease", type=int, default=10, metavar="SECONDS", help="run: who is not heard for so long counts as gone (10)")
    parser.add_argument("--patience", type=float, default=20.0, metavar="SECONDS", help="run: who asks is told something in this time (20)")
    parser.add_argument("--progress", type=float, default=15.0, metavar="SECONDS", help="run: a desk that answers nothing for so long is ended (15)")
    parser.add_argument("--digests", type=float, default=30.0, metavar="SECONDS", help="run: so long is waited for the digests of other machines (30)")
    parser.add_argument("--every", type=int, default=EVERY, metavar="PLACES", help=f"run: tables are compared so often, the same on all machines ({EVERY:,})")
    parser.add_argument("--place", type=int, metavar="N", help="skip: this place")
    asked = parser.parse_args(words)
    if asked.what == "run" and not asked.name or asked.what == "skip" and not asked.place:
        parser.error("run wants --name, and skip wants --place")
    asked.options = options
    return asked


def main() -> int:
    """Does what the words ask for."""
    asked = parsed(sys.argv[1:])
    try:
        if asked.what == "desk":
            begin_desk(asked.folder, Way(asked.program, asked.port, asked.count, asked.first, asked.options), log_of(asked).agrees)
        {"run": run, "status": status, "skip": skip}[asked.what](asked)
    except (Unanswered, OSError, LogLost) as why:
        say(f"it cannot go on: {why}")
        return 2
    return 0


if __name__ == "__main__":
    sys.exit(main())
