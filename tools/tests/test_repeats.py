"""Random posts of which a third repeat a call of before, sent to desks that are closed, killed and opened again, beside the plain desk.

Each response has to be the plain desk's, byte for byte; and where a server ended, or was killed, all tables have to be. A server is killed behind an answer,
or at a post whose answer nobody waits for: then the file holds the tables of before it or of behind it, its rows and its kept reply together. The first post
to the next server is the last one again, whose answer is that of the outcome which the file tells.
"""
import os
import random
import shutil
import tempfile
import time
from collections import Counter

from generate.http_days import Call, Exchange, PostedDay, posted_day
from model.kept import sqlite3
from model.rows import Tables, empty_tables
from tests.asked import ASKED
from tests.http_peer import Ended, Fault, Late, Server, in_time, received, send
from tests.plain_runs import kept_tables, unlike
from tests.runs import Tried

POSTS, SHARES, OF_DESK, MOST_OF_DAY, SPAN = 3000, 2, 2500, 160, 10_000


class Desk:
    """A desk in a folder of its own, with the tables that its file has, the calls that were sent, and how its days went."""

    def __init__(self, program: str, folder: str, dice: random.Random) -> None:
        """There is no file yet."""
        self.program, self.folder, self.dice = program, folder, dice
        self.tables, self.sent, self.day, self.wait = empty_tables(), list[Call](), 0, 0.0002
        self.counts: Counter[str] = Counter()
        os.mkdir(folder)

    def go_on(self, most: int) -> str:
        """A day more, of no more posts than these or a few more; what is wrong of it, nothing where nothing is."""
        self.day += 1
        moment = self.day * SPAN
        day = posted_day(self.dice, self.tables, moment, self.day, self.sent, self.dice.randrange(1, min(most, MOST_OF_DAY) + 1))
        way = self.dice.choice([self.ends, self.killed, self.killed_at_a_post, self.killed_at_a_post])
        count = len(day.exchanges) if way == self.ends else None
        with Server(self.program, self.folder, "desk.db", count, ["--at", str(moment)]) as server:
            for at, it in enumerate(day.exchanges, 1):
                got = server.exchange(it.raw)
                if got != it.response:
                    return f"post {at}, {it.raw!r:.1500}: wanted {it.response!r:.600}, came {got!r:.600}"
            why = way(server, day)
        self.counts.update({"days": 1, "posts": len(day.exchanges), "questions by a GET": sum(not it.call for it in day.exchanges),
                            "kept replies": sum(it.is_kept for it in day.exchanges),
                            "refused": sum(not it.response.startswith(b"HTTP/1.1 200") for it in day.exchanges),
                            "longer than a response": sum(b'"more":0' not in it.response for it in day.exchanges),
                            "opened with moves": bool(day.desk.opening)})
        return why

    def ends(self, server: Server, day: PostedDay) -> str:
        """The server ends behind its last connection."""
        ended, right = server.end(), Ended(0, "".join(f"{it.line()}\n" for it in day.desk.opening), server.says)
        return f"its end: {ended}, and not {right}" if ended != right else self.look([day.desk.tables()])

    def killed(self, server: Server, day: PostedDay) -> str:
        """The server is killed behind its last answer."""
        server.process.kill()
        server.process.wait()
        self.counts["killed behind an answer"] += 1
        return self.look([day.desk.tables()])

    def killed_at_a_post(self, server: Server, day: PostedDay) -> str:
        """One post more, or a front of it, and the server is killed meanwhile."""
        before, count = day.desk.tables(), len(day.exchanges)
        accepted = [it.call for it in day.exchanges if it.call and it.response.startswith(b"HTTP/1.1 200")]
        day.send(self.dice.choice(accepted or self.sent).changed(number=day.number()))
        it, after = day.exchanges[count], day.desk.tables()
        is_whole = self.dice.random() < 0.8 and self.counts["killed at a front of an act"] > 0  # so each desk meets both
        got = self.cut(server, it, len(it.raw) if is_whole else self.dice.randrange(len(it.raw)))
        if not it.response.startswith(got) or got and not is_whole:
            return f"the post at which it was killed, {it.raw!r:.1500}: {got!r:.600}, and not {it.response!r:.600}"
        why = self.look([after] if got else [before, after] if is_whole else [before])
        if before != after:
            stands = self.tables == after
            self.counts["killed at " + ("a front of an act" if not is_whole else "an act that was answered" if got else "an act that stands" if stands
                                        else "an act that does not stand")] += 1
            # half of the moments lie before the act stands
            self.wait = min(1.0, max(0.00001, self.wait * (0.7 if stands else 1.4 if is_whole else 1)))
        return why

    def cut(self, server: Server, it: Exchange, size: int) -> bytes:
        """Sends so many bytes of a post, and kills the server; what came of the answer by then. Half of the peers have gone away."""
        with server.connect() as peer:
            send(peer, it.raw[:size])
            stays = self.dice.random() < 0.5
            if not stays:
                peer.close()
            time.sleep(self.dice.random() * 2 * self.wait)
            server.process.kill()
            server.process.wait()
            return received(peer) if stays else b""

    def look(self, states: list[Tables]) -> str:
        """Whether the file and the log beside it hold the tables of one of these states, with which the next day begins."""
        with tempfile.TemporaryDirectory(dir=self.folder) as folder:
            for end in ("", "-wal"):
                if os.path.exists(f"{self.folder}/desk.db{end}"):
                    shutil.copy(f"{self.folder}/desk.db{end}", f"{folder}/desk.db{end}")
            try:
                found = kept_tables(f"{folder}/desk.db", "mode=rw")
            except sqlite3.Error as why:
                return f"the file does not read: {why}"
        if found is None or found not in states:
            return "its tables: " + "; nor: ".join(unlike(found, it) for it in states)
        self.tables = found
        return ""


def share(program: str, work: str, count: int, seed: int) -> tuple[Counter[str], list[str]]:
    """So many posts by a seed: how they went, and what was wrong. Where they were late all are sent again, to other desks."""
    return in_time(lambda: sent(program, tempfile.mkdtemp(dir=work), count, seed))


def sent(program: str, work: str, count: int, seed: int) -> tuple[Counter[str], list[str]]:
    """The same, once."""
    dice, counts, desks = random.Random(seed), Counter[str](), 0
    while counts["posts"] < count:
        desks += 1
        desk = Desk(program, f"{work}/{seed}-{desks}", dice)
        while desk.counts["posts"] < OF_DESK and counts["posts"] + desk.counts["posts"] < count:
            try:
                why = desk.go_on(count - counts["posts"] - desk.counts["posts"])
            except Late:
                raise
            except Fault as fault:
                why = str(fault)
            if why:
                return counts + desk.counts, [f"seed {seed}, desk {desks}, day {desk.day}: {why}"]
        counts += desk.counts
        counts["rows of replies"] += len(desk.tables.reply)
        shutil.rmtree(desk.folder)
    return counts, []


class Repeats(Tried):
    """Posts that come twice."""

    def test_repeats(self) -> None:
        """So many posts, in two processes, each with a seed of its own."""
        counts = self.shared_out("repeats", share, POSTS, SHARES)
        if ASKED.is_whole:
            for it in ("kept replies", "questions by a GET", "longer than a response", "killed behind an answer", "killed at a front of an act", "opened with moves"):
                self.assertGreater(counts[it], 0, it)
