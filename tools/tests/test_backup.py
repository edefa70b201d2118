"""Copies of a desk by `tcdesk backup`: while it is served and posted to without a pause; with a checkpoint, or a closing and an opening, between the reading of
its file and that of its log; stopped at random moments, and at each call that writes; failed; of files that are no desk's; and under names that are taken.

What a copy holds is read by SQLite from the one file, and has to be all tables of the plain desk behind as many posts as the copy holds replies: no fewer than
were answered before the copy began, and one more at most than were answered when it ended. The program has to report it, and to open it.
"""
import os
import random
import resource
import shutil
import signal
import subprocess
import tempfile
import time
from collections import Counter
from concurrent.futures import ThreadPoolExecutor
from contextlib import contextmanager
from itertools import count, islice
from pathlib import Path
from typing import Callable, Iterator, Optional

from faults.stop_kept import NOTHING_TO_HALVE, STOPPED, WAYS
from model.kept import connect
from tests.asked import ASKED, TOP
from tests.backup_desk import COPY, DESK, PARTS, Folder, Follower, Worker, ended, posted, posts, told_of, tables_of_copy, why_not_copy, why_not_told
from tests.http_cases import Patient
from tests.http_peer import PATIENCE, Fault, Server
from tests.runs import Ended, Tried, made_shim, quick_folder

COPIES, KILLS = 30, 40
COPIES_A_DESK, POSTS_A_DESK = 25, 4000  # before another desk is made
STEP = 7  # of the requests for memory that are refused, every so many
NO_FAULT = ""
# Why a desk is not copied.
NO_DATABASE, JOURNAL = "it is no database, or a damaged one", "SQLite left a journal beside it, which sqlite3 has to play back"
NAMES, UNLOGGED = "it has two names, or its log has", "another program may have it open, and its log is not beside it"
UNOPENED = "the log beside it is of another file that a program has open"


class Copies(Patient, Tried):
    """Copies of desks."""

    def setUp(self) -> None:
        """A folder to work in."""
        random.seed(ASKED.seed_or(1))
        made = tempfile.TemporaryDirectory(prefix="backup-", dir=quick_folder())
        self.addCleanup(made.cleanup)
        self.work, self.numbers, self.bad = os.path.realpath(made.name), count(1), list[str]()

    def tearDown(self) -> None:
        """No fault may have been found."""
        self.no_faults(self.bad)

    def is_wrong(self) -> bool:
        """Whether a fault was found."""
        return bool(self.bad)

    def folder(self) -> Folder:
        """A new folder."""
        path = f"{self.work}/{next(self.numbers)}"
        os.mkdir(path)
        return Folder(path)

    def told(self, name: str, fault: str) -> None:
        """Keeps a fault, where there is one."""
        if fault:
            self.bad.append(f"{name}: {fault}")

    def same(self, name: str, wanted: object, found: object) -> None:
        """Keeps a fault, where that is not what is wanted."""
        self.told(name, NO_FAULT if wanted == found else f"{found!r:.500}, and not {wanted!r:.500}")

    @contextmanager
    def served(self, folder: Folder) -> Iterator[Server]:
        """The desk of a folder, served for as long as it takes."""
        with Server(ASKED.program, folder.path, DESK, None) as server:
            yield server

    def left(self, answered: int, killed: int) -> tuple[Folder, Follower]:
        """A folder with a desk that was closed behind some posts, and killed behind some more, so that these stand in its log alone."""
        folder, raws = self.folder(), posts()
        if answered:
            with Server(ASKED.program, folder.path, DESK, answered) as server:
                posted(server, raws, lambda done: done == answered)
                server.end()
        if killed:
            with self.served(folder) as server:
                posted(server, raws, lambda done: done == killed)
        return folder, Follower()

    # ---- a desk that works

    def test_while_it_works(self) -> None:
        """Copies of a desk that is posted to without a pause: 30, or --count of them, each of which holds what was answered before it began."""
        copies, seconds, posts_sent = ASKED.count_or(COPIES), list[float](), 0
        while len(seconds) < copies and not self.bad:
            folder, follower, made = self.folder(), Follower(), 0
            with self.served(folder) as server, Worker(server) as worker:
                while len(seconds) < copies and made < COPIES_A_DESK and worker.done < POSTS_A_DESK and not self.bad:
                    seconds.append(self.one_copy(f"copy {len(seconds) + 1}", folder, follower, worker))
                    made += 1
                self.told("the desk that works", worker.fault)
            posts_sent += worker.done
            shutil.rmtree(folder.path)
        print(f"backup: {len(seconds)} copies of a desk that works, behind {posts_sent} posts, {1000 * sum(seconds) / len(seconds):.0f} ms each")

    def one_copy(self, name: str, folder: Folder, follower: Follower, worker: Worker) -> float:
        """Lets some posts go by, makes a copy meanwhile, and looks at it while nothing is posted. Gives the seconds that it took."""
        worker.go_on(random.randrange(1, 40))
        least, began = worker.done, time.monotonic()
        ran = folder.copied()
        took, most = time.monotonic() - began, worker.done + 1
        worker.works.clear()
        self.told(name, why_not_told(folder, ran) if not ran.status else f"it ended as {ran}")
        if folder.has(COPY):
            self.told(name, why_not_copy(folder, follower, least, most))
        folder.forget(COPY)
        return took

    # ---- something comes between

    def gated(self, folder: Folder, shim: str, lies: bool = False) -> dict[str, str]:
        """What lets a copy wait between the reading of the file and that of its log."""
        return {"LD_PRELOAD": shim, "COPY_LOG": f"{folder.path}/{DESK}-wal", "COPY_GATE": f"{folder.path}/served.gate", "COPY_LIES": str(int(lies))}

    def between(self, folder: Folder, shim: str, happens: Callable[[], None], lies: bool = False) -> Ended:
        """A copy, where that happens between the reading of the file and that of its log."""
        settings = self.gated(folder, shim, lies)
        process, end = folder.begin(env=settings), time.monotonic() + PATIENCE
        while not os.path.exists(settings["COPY_GATE"]):
            if process.poll() is not None or time.monotonic() > end:
                process.kill()
                raise Fault(f"the copy did not come to its log: {ended(process)}")
            time.sleep(0.001)
        happens()
        os.remove(settings["COPY_GATE"])
        return ended(process)

    def test_between(self) -> None:
        """Acts, a checkpoint, or a closing and an opening come between. A copy that does not see that the log was emptied is found to be wrong."""
        shim = made_shim("copy_io", self.work)
        for lies in (False, True):
            self.told("acts come between", self.acts_between(shim, lies))
            emptied, reopened = self.emptied_between(shim, lies), self.reopened_between(shim, lies)
            if lies:
                print(f"backup: where the marks lie: {emptied}; {reopened}")
                self.same("a copy that does not see the checkpoint is found", True, emptied != NO_FAULT)
                self.same("a copy that does not see the opening is found", True, reopened != NO_FAULT)
            else:
                self.told("a checkpoint comes between", emptied)
                self.told("a closing and an opening come between", reopened)

    def acts_between(self, shim: str, lies: bool) -> str:
        """Acts and no checkpoint: the copy has all that was answered before its log was read."""
        folder, raws, sent = self.folder(), posts(), [20]
        with self.served(folder) as server:
            posted(server, raws, lambda done: done == 20)

            def more() -> None:
                sent[0] += posted(server, raws, lambda done: done == 15)
            ran = self.between(folder, shim, more, lies)
            return why_not_told(folder, ran) or why_not_copy(folder, Follower(), sent[0], sent[0])

    def emptied_between(self, shim: str, lies: bool) -> str:
        """A checkpoint empties the log, and acts come behind it."""
        folder, raws, sent = self.folder(), posts(), [200]
        with self.served(folder) as server:
            posted(server, raws, lambda done: done == 200)

            def more() -> None:
                head = folder.head()
                sent[0] += posted(server, raws, lambda done: folder.head() != head)
                sent[0] += posted(server, raws, lambda done: done == 10)
            ran = self.between(folder, shim, more, lies)
            return why_not_told(folder, ran) or why_not_copy(folder, Follower(), sent[0], sent[0])

    def reopened_between(self, shim: str, lies: bool) -> str:
        """The desk is closed, and another program opens it and works."""
        folder, raws, sent = self.folder(), posts(), [60]
        with Server(ASKED.program, folder.path, DESK, 90) as server:
            posted(server, raws, lambda done: done == 60)

            def more() -> None:
                posted(server, raws, lambda done: done == 30)
                server.end()
                with self.served(folder) as other:
                    posted(other, raws, lambda done: done == 40)
                sent[0] = 130
            ran = self.between(folder, shim, more, lies)
        return why_not_told(folder, ran) or why_not_copy(folder, Follower(), sent[0], sent[0])

    def test_two_at_once(self) -> None:
        """A second copy of the same name is refused while the first is made, and harms it not."""
        shim, (folder, follower) = made_shim("copy_io", self.work), self.left(30, 10)

        def second() -> None:
            self.same("a second copy", Ended(2, "", f"tcdesk: cannot use {COPY}\n"), folder.copied())
        ran = self.between(folder, shim, second)
        self.told("the first of two copies", why_not_told(folder, ran) or why_not_copy(folder, follower, 40, 40))

    # ---- copies that are stopped

    def test_killed(self) -> None:
        """Copies of a desk that works are killed at random moments, 40 or --count of them: there is a whole copy, or none; and the next of that name is
        made."""
        kills, counts, limit = ASKED.count_or(KILLS), Counter[str](), 0.02
        while sum(counts.values()) < kills and not self.bad:
            folder, follower = self.folder(), Follower()
            with self.served(folder) as server, Worker(server) as worker:
                while sum(counts.values()) < kills and worker.done < POSTS_A_DESK and not self.bad:
                    how = self.one_kill(f"kill {sum(counts.values()) + 1}", folder, follower, worker, random.random() * limit)
                    counts[how] += 1
                    limit = min(1.0, max(0.002, limit * (0.9 if how == "ended before" else 1.1)))
                self.told("the desk that works", worker.fault)
            shutil.rmtree(folder.path)
        print(f"backup: killed at random moments: {', '.join(f'{many} {how}' for how, many in sorted(counts.items()))}")

    def one_kill(self, name: str, folder: Folder, follower: Follower, worker: Worker, wait: float) -> str:
        """Kills a copy after so many seconds, and looks at what it left. Gives how that was."""
        worker.go_on(3)
        least, process = worker.done, folder.begin()
        time.sleep(wait)
        process.kill()
        status = ended(process).status
        worker.works.clear()
        how = "ended before" if status == 0 else "with a copy" if folder.has(COPY) else "with parts" if folder.has(PARTS[0]) else "before"
        self.told(name, self.after_kill(folder, follower, least, worker.done + 1))
        return how

    def after_kill(self, folder: Folder, follower: Follower, least: int, most: int) -> str:
        """What is wrong of what a copy left that was killed."""
        more = [it for it in folder.names() if it not in (DESK, f"{DESK}-wal", COPY, *PARTS)]
        if more:
            return f"there is {more}"
        if not folder.has(COPY):
            return NO_FAULT
        found = why_not_copy(folder, follower, least, most)
        folder.forget(COPY)
        return found

    def stopped(self, folder: Folder, shim: str, number: int, way: str) -> str:
        """Stops a copy at a call that writes, cuts or syncs what it is made of; what became of it."""
        place = self.folder()
        for name in (DESK, f"{DESK}-wal"):
            shutil.copy2(f"{folder.path}/{name}", f"{place.path}/{name}")
        settings = {"LD_PRELOAD": shim, "STOP_FILE": f"{place.path}/{PARTS[0]}", "STOP_AT": str(number), **WAYS[way]}
        ran = place.copied(env=settings)
        if ran.status == NOTHING_TO_HALVE:
            return "nothing to halve"
        if ran.status == 0:
            return "the end" if not why_not_told(place, ran) else f"it ended as {ran}"
        if ran.status != STOPPED or place.has(COPY):
            return f"it ended as {ran}, with {place.names()}"
        again = place.copied()
        wrong = why_not_told(place, again) or why_not_copy(place, Follower(), 36, 36)
        shutil.rmtree(place.path)
        return f"the next copy: {wrong}" if wrong else "stopped"

    def test_stopped_at_each_call(self) -> None:
        """Copies of a desk with a log are stopped at each call that writes: there is none, and the next is whole."""
        shim, (folder, _) = made_shim("stop_io", self.work), self.left(30, 6)
        counts, first = Counter[str](), 1
        with ThreadPoolExecutor(4) as pool:
            while not counts["the end"] and not self.bad:
                tried = [(number, way) for number in range(first, first + 4) for way in WAYS]
                for (number, way), became in zip(tried, pool.map(lambda it: self.stopped(folder, shim, *it), tried)):
                    counts[became] += 1
                    self.told(f"stopped at call {number}, {way}", NO_FAULT if became in ("stopped", "nothing to halve", "the end") else became)
                first += 4
        print(f"backup: stopped at calls: {', '.join(f'{many} {how}' for how, many in sorted(counts.items()))}")

    # ---- what fails

    def failed(self, name: str, folder: Folder, ran: Ended, err: str) -> None:
        """A copy that failed says so, and leaves nothing."""
        self.same(name, Ended(2, "", err), ran)
        self.same(f"{name}: what is there", [DESK, f"{DESK}-wal"], folder.names())

    def test_failed_writes(self) -> None:
        """The calls that write what a copy is made of fail, from each one on."""
        shim, (folder, follower) = made_shim("stop_io", self.work), self.left(30, 6)
        for number in count(1):
            ran = folder.copied(env={"LD_PRELOAD": shim, "STOP_FILE": f"{folder.path}/{PARTS[0]}", "FAIL_FROM": str(number)})
            if ran.status == 0 or self.bad:
                break
            self.failed(f"failed from call {number} on", folder, ran, f"tcdesk: cannot use {COPY}\n")
        self.told("not failed", why_not_copy(folder, follower, 36, 36))
        print(f"backup: its writes failed from {number - 1} calls on")

    def test_failed_reads(self) -> None:
        """A read of the desk's files fails."""
        shim, (folder, follower) = made_shim("copy_io", self.work), self.left(30, 6)
        for number in count(1):
            ran = folder.copied(env={"LD_PRELOAD": shim, "COPY_FAILS": str(number)})
            if ran.status == 0 or self.bad:
                break
            self.failed(f"failed at read {number}", folder, ran, f"tcdesk: cannot use {DESK}\n")
        self.told("not failed", why_not_copy(folder, follower, 36, 36))
        print(f"backup: {number - 1} reads failed")

    def test_full_disk(self) -> None:
        """There is no room for the file, or for its log, or to bring that into the file."""
        folder, follower = self.left(30, 6)
        sizes = [os.path.getsize(f"{folder.path}/{it}") for it in (DESK, f"{DESK}-wal")]
        for size in (0, 1000, min(sizes) - 1, min(sizes), max(sizes) - 1):
            def small(size: int = size) -> None:
                signal.signal(signal.SIGXFSZ, signal.SIG_IGN)
                resource.setrlimit(resource.RLIMIT_FSIZE, (size, size))
            self.failed(f"files of {size} bytes", folder, folder.copied(first=small), f"tcdesk: cannot use {COPY}\n")
        self.told("where there is room", why_not_told(folder, folder.copied()) or why_not_copy(folder, follower, 36, 36))

    def test_memory(self) -> None:
        """Every 7th request for memory is refused, one a copy."""
        shim, (folder, follower), refused = made_shim("fail_malloc", self.work), self.left(30, 6), 0
        marked = f"{self.work}/mark"

        def with_mark() -> None:
            os.dup2(os.open(marked, os.O_WRONLY | os.O_CREAT | os.O_TRUNC), 9)
        for number in count(1, STEP):
            ran = folder.copied(env={"LD_PRELOAD": shim, "FAIL_AT": str(number)}, first=with_mark)
            if not os.path.getsize(marked) or self.bad:
                break
            refused += 1
            if ran.status:
                names = [it for it in ("memory", DESK, COPY) if ran.err == f"tcdesk: cannot use {it}\n"]
                self.failed(f"request {number}", folder, ran, f"tcdesk: cannot use {''.join(names)}\n")
            else:
                self.told(f"request {number}", why_not_copy(folder, follower, 36, 36))
                folder.forget(COPY)
        print(f"backup: {refused} requests for memory refused")

    def test_output(self) -> None:
        """Where the line cannot be written the copy stands, and nothing of it is written into the copy."""
        def full() -> None:
            os.dup2(os.open("/dev/full", os.O_WRONLY), 1)

        def closed() -> None:
            os.closerange(0, 2)
        for name, first in (("an output that takes nothing", full), ("an output that is closed", closed)):
            folder, follower = self.left(30, 6)
            self.same(name, Ended(2, "", "tcdesk: cannot use output\n"), folder.copied(first=first))
            self.told(name, why_not_copy(folder, follower, 36, 36))

    # ---- names, and files that are no desk's

    def refused(self, name: str, folder: Folder, err: str, copy: str = COPY, desk: str = DESK) -> None:
        """Such a copy is refused with these words, and nothing is made or changed."""
        before = {it: look(f"{folder.path}/{it}") for it in folder.names()}
        self.same(name, Ended(2, "", f"tcdesk: {err}\n"), folder.copied(copy, desk))
        self.same(f"{name}: what is there", before, {it: look(f"{folder.path}/{it}") for it in folder.names()})

    def test_names(self) -> None:
        """Names that are taken, or cannot be used."""
        folder, _ = self.left(12, 3)
        path = Path(folder.path)
        for made in (COPY, f"{COPY}-wal", f"{COPY}-journal"):
            (path / made).write_bytes(b"")
            self.refused(f"{made} is there", folder, f"{made} is there already")
            folder.forget(made)
        (path / COPY).symlink_to("nowhere")
        self.refused("a link to nowhere", folder, f"{COPY} is there already")
        folder.forget(COPY)
        self.refused("the desk itself", folder, f"{DESK} is there already", DESK)
        self.refused("a folder", folder, ". is there already", ".")
        self.refused("a missing folder", folder, "cannot use none/copy.db", "none/copy.db")
        (path / PARTS[0]).mkdir()
        self.refused("a folder in the place of the parts", folder, f"cannot use {COPY}")
        (path / PARTS[0]).rmdir()
        (path / PARTS[0]).symlink_to(DESK)
        self.refused("a link in the place of the parts", folder, f"cannot use {COPY}")
        folder.forget(PARTS[0])
        (path / "other").write_bytes(b"another's")
        os.link(path / "other", path / PARTS[0])
        self.refused("a file of two names in the place of the parts", folder, f"cannot use {COPY}")
        folder.forget(PARTS[0], "other")

    def test_own_names(self) -> None:
        """No name that a copy takes may be the desk's own, or lead to it: the desk stays as it is."""
        for end, err in ((".part", f"cannot use {COPY}"), (".part-wal", f"cannot use {COPY}"), (".part-journal", f"cannot use {COPY}"),
                         ("-wal", f"{COPY}-wal is there already"), ("-journal", f"{COPY}-journal is there already")):
            folder, _ = self.left(12, 3)
            for it in ("", "-wal"):
                os.rename(f"{folder.path}/{DESK}{it}", f"{folder.path}/{COPY}{end}{it}")
            self.refused(f"the desk is COPY{end}", folder, err, desk=f"{COPY}{end}")
            os.symlink(".", f"{folder.path}/served.here")
            self.refused(f"the desk is COPY{end}, by a link", folder, err.replace(COPY, f"served.here/{COPY}"), f"served.here/{COPY}", f"{COPY}{end}")
        folder, _ = self.left(12, 0)
        folder.forget(f"{DESK}-wal")
        for end in ("-wal", "-journal"):
            self.refused(f"COPY is DB{end}", folder, f"cannot use {DESK}{end}", f"{DESK}{end}")
            self.refused(f"COPY is DB{end}, by a path", folder, f"cannot use {folder.path}/{DESK}{end}", f"{folder.path}/{DESK}{end}")
        folder, _ = self.left(12, 3)
        part = Path(folder.path, PARTS[1])
        for own in (DESK, f"{DESK}-wal"):
            part.symlink_to(own)
            self.refused(f"the log of the parts is a link to {own}", folder, f"cannot use {COPY}")
            folder.forget(PARTS[1])
            os.link(f"{folder.path}/{own}", part)
            self.refused(f"the log of the parts is another name of {own}", folder, f"cannot use {COPY}")
            folder.forget(PARTS[1])

    def test_no_desks(self) -> None:
        """Files that are no desk's."""
        folder, _ = self.left(12, 0)
        whole = Path(folder.path, DESK).read_bytes()
        texts = {"an empty file": b"", "a text": b"no database\n" * 100, "noise": random.Random(1).randbytes(8192), "a desk that is cut short": whole[:5000],
                 "a head alone": whole[:100]}
        for name, text in texts.items():
            place = self.folder()
            Path(place.path, DESK).write_bytes(text)
            self.refused(name, place, f"cannot use {DESK}")
        for name, statement in (("a foreign database", "CREATE TABLE some (a)"), ("a database of no table", "PRAGMA user_version = 1"),
                                ("a desk with a row that none wrote", "UPDATE move SET to_place = 99 WHERE seq = 2"),
                                ("a desk with a row that another refutes", "UPDATE tally SET amount = 9 WHERE place = 1")):
            place = self.folder()
            if "move" in statement or "tally" in statement:
                Path(place.path, DESK).write_bytes(whole)
            connection = connect(f"{place.path}/{DESK}")
            connection.execute(statement)
            connection.close()
            self.refused(name, place, f"cannot use {DESK}")
        place = self.folder()
        Path(place.path, DESK).write_bytes(whole)
        Path(place.path, f"{DESK}-journal").write_bytes(b"\xd9")
        self.refused("a rollback journal beside it", place, f"cannot use {DESK}")
        self.refused("no file", self.folder(), f"cannot use {DESK}")

    def test_only_read(self) -> None:
        """Of what cannot be copied nothing is written to tell why, nor is anything made or taken away beside it, also where a program has it open."""
        folder, _ = self.left(12, 0)
        whole = Path(folder.path, DESK).read_bytes()
        for name, text, beside in (("a text", b"no database\n" * 100, ""), ("a text with a log of nothing", b"no database\n" * 100, "-wal"),
                                   ("a desk that is cut short", whole[:5000], ""), ("a desk with a log of nothing, cut short", whole[:5000], "-wal"),
                                   ("a desk with a journal", whole, "-journal")):
            place = self.folder()
            Path(place.path, DESK).write_bytes(text)
            if beside:
                Path(place.path, f"{DESK}{beside}").write_bytes(b"\xd9" * 41)
            self.only_read(name, place, JOURNAL if beside == "-journal" else NO_DATABASE)
        folder, _ = self.left(12, 3)
        with self.served(folder) as server:
            posted(server, posts(), lambda done: done == 1)
            Path(folder.path, f"{DESK}-journal").write_bytes(b"\xd9")
            self.only_read("a served desk with a journal", folder, JOURNAL)
            folder.forget(f"{DESK}-journal")
            os.link(f"{folder.path}/{DESK}", f"{folder.path}/hard.db")
            self.only_read("a served desk, by its second name", folder, NAMES, "hard.db")
            self.only_read("a served desk with a second name", folder, NAMES)
            folder.forget("hard.db")
            os.link(f"{folder.path}/{DESK}-wal", f"{folder.path}/hard.db-wal")
            self.only_read("a served desk whose log has a second name", folder, NAMES)

    def test_moved(self) -> None:
        """Beside a program that has the desk open its file gets another name, and the log does not; or another file gets its name."""
        folder, _ = self.left(12, 0)
        whole, raws = Path(folder.path, DESK).read_bytes(), islice(posts(), 12, None)
        with self.served(folder) as server:
            posted(server, raws, lambda done: done == 3)
            os.rename(f"{folder.path}/{DESK}", f"{folder.path}/moved.db")
            self.only_read("a served desk that was moved", folder, UNLOGGED, "moved.db")
            Path(folder.path, "moved.db-wal").write_bytes(b"")
            self.only_read("a served desk that was moved, with a log of nothing", folder, UNLOGGED, "moved.db")
            folder.forget("moved.db-wal")
            Path(folder.path, DESK).write_bytes(whole)
            self.only_read("a file in the place of a served desk", folder, UNOPENED)
            os.rename(f"{folder.path}/moved.db", f"{folder.path}/{DESK}")
            self.told("a served desk that was moved back", why_not_told(folder, folder.copied()))
            self.told("a served desk that was moved back", why_not_copy(folder, Follower(), 15, 15))

    def only_read(self, name: str, folder: Folder, why: str, desk: str = DESK) -> None:
        """A copy into another folder is refused for the desk, which is told, and the desk's own folder is as it was, by its time too."""
        before, time_before = {it: look(f"{folder.path}/{it}") for it in folder.names()}, os.stat(folder.path).st_mtime_ns
        ran = subprocess.run([ASKED.program, "backup", desk, f"{self.folder().path}/{COPY}"], cwd=folder.path, stdin=subprocess.DEVNULL, capture_output=True,
                             timeout=900, check=False)
        self.same(name, (2, b"", f"tcdesk: cannot use {desk}\ntcdesk: because {why}\n".encode()), (ran.returncode, ran.stdout, ran.stderr))
        self.same(f"{name}: what is there", before, {it: look(f"{folder.path}/{it}") for it in folder.names()})
        self.same(f"{name}: when the folder changed", time_before, os.stat(folder.path).st_mtime_ns)

    # ---- a desk that nobody has open

    def test_nobody(self) -> None:
        """A desk that was killed, one that was closed, one whose log is gone, one behind a link: nothing of it is written, and no log is made."""
        for name, answered, killed in (("a desk that was killed", 30, 6), ("a desk that was closed", 30, 0), ("a desk whose log is gone", 30, 0)):
            folder, follower = self.left(answered, killed)
            if "gone" in name:
                folder.forget(f"{DESK}-wal")
            self.untouched(name, folder, follower, answered + killed, DESK)
        folder, follower = self.left(30, 6)
        os.mkdir(f"{folder.path}/served.link")
        os.symlink(f"../{DESK}", f"{folder.path}/served.link/{DESK}")
        self.untouched("a desk behind a link", folder, follower, 36, f"served.link/{DESK}")

    def untouched(self, name: str, folder: Folder, follower: Follower, answered: int, desk: str) -> None:
        """Copies a desk over what a copy that was killed left, and looks whether its own files stay as they are, by their times too."""
        os.chmod(f"{folder.path}/{DESK}", 0o640)
        before = {it: look(f"{folder.path}/{it}") for it in folder.names()}
        for part in PARTS:
            Path(folder.path, part).write_bytes(b"what was left\n" * 100_000)
        ran = folder.copied(desk=desk)
        self.told(name, why_not_told(folder, ran) if not ran.status else f"{ran}")
        self.same(f"{name}: its files", before, {it: look(f"{folder.path}/{it}") for it in folder.names() if it != COPY})
        self.same(f"{name}: the mode of the copy", 0o640, os.stat(f"{folder.path}/{COPY}").st_mode & 0o777)
        self.told(name, why_not_copy(folder, follower, answered, answered))

    def test_new_desk(self) -> None:
        """A desk where nothing happened."""
        folder = self.folder()
        folder.run("run", "--db", DESK, "/dev/null")
        self.same("a new desk", Ended(0, "copied 0 requests, no move\n", ""), folder.copied())
        self.told("a new desk", why_not_copy(folder, Follower(), 0, 0))

    # ---- the timer's script

    def test_kept_copies(self) -> None:
        """The script of deploy/backup makes a copy under a name of its own each time, and keeps so many."""
        folder, _ = self.left(12, 3)
        store, script = f"{folder.path}/served.copies", f"{TOP}/deploy/backup/tcdesk-backup"
        for turn in range(1, 6):
            ran = subprocess.run([script, f"{folder.path}/{DESK}", store, "3"], env={**os.environ, "TCDESK": ASKED.program}, capture_output=True, check=False)
            self.same(f"turn {turn}", (0, b""), (ran.returncode, ran.stderr))
            self.same(f"turn {turn}: how many there are", min(turn, 3), len(os.listdir(store)))
            for name in sorted(os.listdir(store)):  # the oldest first, so that no name is taken
                os.rename(f"{store}/{name}", f"{store}/{older(name)}")
        copies = sorted(os.listdir(store))
        self.same("a copy that the script made", told_of(tables_of_copy(Folder(store), copies[-1])), told_of(tables_of_copy(Folder(store), copies[0])))
        ran = subprocess.run([script, f"{folder.path}/none.db", store, "3"], env={**os.environ, "TCDESK": ASKED.program}, capture_output=True, check=False)
        self.same("a copy that failed takes none away", (True, copies), (ran.returncode != 0, sorted(os.listdir(store))))


def look(path: str) -> Optional[tuple[int, int, int, bytes]]:
    """What a file is: its mode, its length and its time, and its bytes; nothing of what is no file."""
    if not os.path.isfile(path):
        return None
    found = os.stat(path)
    return found.st_mode, found.st_size, found.st_mtime_ns, Path(path).read_bytes()


def older(name: str) -> str:
    """The name that the copy of this name would have had, had it been made a second before."""
    front, stamp = name[:-len("20311127T101500Z.db")], name[-len("20311127T101500Z.db"):-len("Z.db")]
    moment = time.mktime(time.strptime(stamp, "%Y%m%dT%H%M%S")) - 60
    return f"{front}{time.strftime('%Y%m%dT%H%M%S', time.localtime(moment))}Z.db"
