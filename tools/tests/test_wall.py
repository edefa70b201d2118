"""What waits, three more questions over the whole desk, and the page of the wall screen, as the plain desk makes them: answers that are written by hand; on
the page each open request once and at its place, the counts, texts of persons, the axis, the bounds, and a closed file. The program is not run.
"""
import os
import random
import re
import unittest
from collections import Counter
from html.parser import HTMLParser
from typing import Optional, Sequence

from generate.days import day_script
from model import wall
from model.desk import Desk
from model.facts import FINAL, PLACE_WORDS, place_word
from model.report import time_of
from model.rows import empty_tables
from model.urgent import lines_of
from model.wall import board_page
from page_parts import MADE, PARTS, made, policy
from tests.wall_desks import BEGIN, LONG, STEP_TEXT, Scene, busy, crowded, empty, full, in_doubt, quiet, stacked, trouble

SEED, DAYS = 20261126, 12
VOID = frozenset(("meta", "link"))  # elements that have no end
SECTIONS = ["tiles", "urgent", "link", "schedule", "ways", "moves", "sign"]
# Acts with what waits behind them, written by hand.
WAITING = """\
ann enter 5 a--c no 8 1 - - ok
= request 1 Entered author ann critical no approvals 0 of 1 by -
ann enter 5 a--c yes 8 2 - - ok
bob approve 2
= request 1 Entered author ann critical no approvals 0 of 1 by -
= request 2 Entered author ann critical yes approvals 1 of 2 by bob
bob approve 1
eve approve 2
= request 1 Approved free
= request 2 Approved free
ann withdraw 1
ann stack heater heater.csv
ann stack aocs aocs.csv
bob approvestack aocs
= request 2 Approved free
= stack heater Entered author ann critical no approvals 0 of 1 by - rows 3 first 3
= stack aocs Entered author ann critical yes approvals 1 of 2 by bob rows 3 first 6
dan withdraw 3
= request 2 Approved free
= stack heater Entered author ann critical no approvals 0 of 1 by - rows 2 first 3
= stack aocs Entered author ann critical yes approvals 1 of 2 by bob rows 3 first 6
bob approvestack heater
eve withdraw 6
eve withdraw 7
= request 2 Approved free
= request 4 Approved locked by line 1 of heater
= request 5 Approved locked by line 2 of heater
= stack aocs Entered author ann critical yes approvals 1 of 2 by bob rows 1 first 6
eve withdraw 8
ann enter 41 ---c no 11 4 2;5;4 900;910;920 ok
bob approve 9
= request 2 Approved free
= request 4 Approved locked by line 1 of heater
= request 5 Approved locked by line 2 of heater
= request 9 Approved locked by line 2 of heater
ann initiate none
ann release 2
ann terminate
ann procedure warm warm.csv
ann begin warm
bob begin warm
= request 2 Doubtful
= request 4 Approved locked by line 1 of heater
= request 5 Approved locked by line 2 of heater
= request 9 Approved locked by line 2 of heater
= execution 1 warm next 1 second no
= execution 2 warm next 1 second no
ann step 1 1 done -
ann step 2 1 failed -
bob close 2
= request 4 Approved locked by line 1 of heater
= request 5 Approved locked by line 2 of heater
= request 9 Approved locked by line 2 of heater
= execution 1 warm next 2 second yes
""".splitlines()
# What the page says of itself.
HEADINGS = ["How many stand where", "What is open, most urgent first", "Link", "On-board schedule", "Each open request's way", "Last moves"]
OPEN_HEADS = ["What", "Name", "Service", "Waits for", "By whom", "For"]
WAY_HEADS = ["No.", "Name", "Service", "", "Author", "Stack", "", "Stands at"]
MOVE_HEADS = ["Move", "UTC", "Person", "Request", "From", "To", "Why"]
LEGEND = [("Entered", "Entered"), ("Approved", "Approved"), ("Queued", "Queued"), ("Sent", "Sent"), ("Confirmed", "Confirmed"), ("Riding", "Riding"),
          ("Scheduled", "Scheduled"), ("Accepted", "Accepted"), ("Started", "Started"), ("Doubtful", "Doubtful (hatched)"),
          ("", "&#9650; critical: two approve"), ("", "time is squeezed where nothing moved")]
SIGNATURES = ["Handed over by", "Taken over by"]
STEPS = ["procedure warm author ann steps 3", "step 1 second no request - check the battery", f"step 2 second yes request - {STEP_TEXT}",
         "step 3 second no request - look again"]
# A line of `urgent`, and what the page says of its kind.
LINE = re.compile("(?P<what>request|execution) (?P<number>[0-9]+)(?: (?P<name>[0-9]+/[0-9]+) tc (?P<service>[0-9]+ [0-9]+))? (?P<kind>[a-z ]+?)(?: (?P<insert>[0-9]+))?"
                  " since [0-9]+ waited (?P<waited>[0-9]+) same (?P<same>[0-9]+)")
SAID = {"in doubt": "IN DOUBT: on board or not?", "failed": "FAILED", "waits for approval": "approval ", "step due": "step ", "flying": "on its way, or on board",
        "report lost": "REPORT LOST, or late", "free": "release", "activity of": "activity of {}: do not release", "locked for ever": "LOCKED FOR EVER by line ",
        "locked": "locked by line "}
HEADER = f"{os.path.dirname(MADE)}/../../tc_api/src/responses.rt"
CLOSED = "no failed request is listed; each scheduled one counts as on board"
STRICT = "default-src 'none'; style-src 'unsafe-inline'; img-src data:"
SCRIPT = "\n" + wall.fixed("script.js")
TROUBLE = [
    ["request 17 \u25b2 critical", "IN DOUBT: on board or not?", "anyone"],
    ["request 18", "IN DOUBT: on board or not?", "anyone"],
    ["request 3 \u25b2 critical", "FAILED", "look why"],
    ["request 4 of broken", "FAILED", "look why"],
    ["request 7 and 2 more of aocs \u25b2 critical", "approval 1 of 2", "not ann, bob"],
    ["request 20", "approval 0 of 1", "not ann"],
    ["execution 1 of warm", f"step 2: {STEP_TEXT}", "two persons"],
    ["request 19", "on its way, or on board", "nobody"],
    ["request 16", "REPORT LOST, or late", "look why"],
    ["request 10 of heater", "release", "anyone"],
    ["request 15", "release", "anyone"],
    ["request 13 and 1 more", "activity of 15: do not release", "nobody"],
    ["request 5 and 1 more of broken", "LOCKED FOR EVER by line 1 of broken", "withdraw it"],
    ["request 11 and 1 more of heater", "locked by line 1 of heater", "nobody yet"],
]
BAD = """\
waiting 1
waiting-
Waiting
moves
moves -1
moves 4294967296
moves 01
moves 1 2
standing
standing Entered
standing entered 0
standing - 0
standing Nowhere 0
standing Entered 4294967296
standing 1 0
standing Entered 0 0
steps
steps Warm
steps warm 1
steps a2345678901234567
""".splitlines()


class Page(HTMLParser):
    """The elements of a page: its tags fit into each other. `rows` has the cells of each row of a table's body, by the class of its section; `tiles` the
    number and the places of each tile; `bars` the stages of each bar, as class, x and width."""

    def __init__(self, page: bytes) -> None:
        super().__init__()
        self.stack: list[tuple[str, str]] = []
        self.tags: Counter[str] = Counter()
        self.sections: list[str] = []
        self.rows: dict[str, list[list[str]]] = {}
        self.classes: dict[str, list[str]] = {}
        self.tiles: list[list[str]] = []
        self.bars: list[list[tuple[str, int, int]]] = []
        self.words: dict[str, list[str]] = {}
        self.ids: list[str] = []
        self.feed(page.decode("ascii"))
        assert not self.stack, self.stack

    @property
    def section(self) -> str:
        """The class of the section that is read."""
        return next((kind.split(" ")[0] for tag, kind in self.stack if tag == "section"), "")

    def within(self, tag: str) -> bool:
        """Whether this is read within such an element."""
        return any(it == tag for it, _ in self.stack)

    def handle_starttag(self, tag: str, attrs: list[tuple[str, Optional[str]]]) -> None:
        """An element begins."""
        words = {name: value or "" for name, value in attrs}
        kind = words.get("class", "")
        self.tags[tag] += 1
        self.ids += [words["id"]] if "id" in words else []
        if tag not in VOID:
            self.stack.append((tag, kind))
        if tag == "section":
            self.sections.append(self.section)
        elif tag == "tr" and self.within("tbody"):
            self.rows.setdefault(self.section, []).append([])
            self.classes.setdefault(self.section, []).append(kind)
            self.bars += [[]] if self.section == "ways" else []
        elif tag == "td":
            self.rows[self.section][-1].append("")
        elif tag == "div" and kind.startswith("tile "):
            self.tiles.append([])
        elif tag == "rect" and self.within("td"):
            self.bars[-1].append((kind, int(words["x"]), int(words["width"])))

    def handle_endtag(self, tag: str) -> None:
        """An element ends: the one that began last."""
        assert self.stack and self.stack.pop()[0] == tag, tag

    def handle_data(self, data: str) -> None:
        """A text."""
        tag, kind = self.stack[-1] if self.stack else ("", "")
        if self.within("td"):
            self.rows[self.section][-1][-1] += data
        elif self.tiles and self.section == "tiles" and tag in ("b", "small"):
            self.tiles[-1].append(data)
        if data.strip():
            self.words.setdefault(kind or tag, []).append(data.strip())


def open_of(desk: Desk, closed: bool = False) -> list[int]:
    """The requests at a place that is not final, most urgent first."""
    lines = lines_of(desk.book, len(desk.book.history) if closed else desk.stood, wall.scheduled(desk, closed))
    return [it.number for it in lines if it.on_board and desk.book.place(it.number) not in FINAL]


def ways_of(desk: Desk) -> list[list[str]]:
    """What has to stand in the rows of the open requests, but for their signs and their bars."""
    forms = ((desk.book.requests[it - 1], desk.book.place(it).word) for it in open_of(desk))
    return [[str(it.number), str(it.identity), f"{it.form.service}/{it.form.subtype}", it.author, f"{it.stack} {it.line}" if it.stack else "", word]
            for it, word in forms]


def numbers_in(text: str) -> list[int]:
    """All numbers of a text."""
    return [int(it) for it in re.findall("[0-9]+", text)]


def random_desk(seed: int) -> Desk:
    """A plain desk after a random day, opened again, with another day behind it."""
    dice = random.Random(seed)
    first = day_script(dice, empty_tables(), 0, 1, 300)
    return day_script(dice, first.desk.tables(), first.moment + dice.choice([0, 86400]), 2, 300).desk


# ---- questions

class Questions(unittest.TestCase):
    """What waits, moves, standing and steps."""

    def test_waiting(self) -> None:
        """Each line of what waits, as it is written by hand: requests, stacks of which a row is left, locks of a line and of an activity, executions."""
        it, wanted, is_asked = Scene(), [], False
        for line in [*WAITING, ""]:
            if line.startswith("= "):
                wanted.append(line[2:])
                is_asked = True
                continue
            if is_asked:
                with self.subTest(f"before {line}"):
                    self.assertEqual([f"waiting {len(wanted)}", *wanted], it.desk.line("900 zed waiting"))
                wanted, is_asked = [], False
            by, _, act = line.partition(" ")
            if act:
                it.says(f"{act}".replace("900;910;920", f"{BEGIN};{BEGIN + 60};{BEGIN + 120}"), by=by)
        self.assertEqual(["waiting 0"], empty().line("1 ann waiting"))

    def test_moves(self) -> None:
        """Rows of the whole history, 50 at a time."""
        desk = busy()
        rows = [it.line() for it in desk.book.history]
        for after in (0, 1, 50, len(rows) - 51, len(rows) - 50, len(rows) - 49, len(rows) - 1, len(rows), len(rows) + 1, 2**32 - 1):
            more = " more" if after < len(rows) - 50 else ""
            shown = rows[after:after + 50]
            self.assertEqual([f"moves {len(shown)}{more}", *shown], desk.line(f"1 ann moves {after}"), after)
        self.assertEqual(["moves 0"], empty().line("1 ann moves 0"))

    def test_standing(self) -> None:
        """Who stands at each place, 50 at a time."""
        for desk in (busy(), in_doubt(60), empty()):
            for word in PLACE_WORDS:
                there = [it for it in desk.book.requests if desk.book.place(it.number).word == word]
                for after in (0, 1, 9, 10, 11, 2**32 - 1):
                    left = [f"request {it.number} {it.identity}" for it in there if it.number > after]
                    head = f"standing {word}: {len(left[:50])}{' more' if len(left) > 50 else ''}"
                    self.assertEqual([head, *left[:50]], desk.line(f"1 ann standing {word} {after}"))

    def test_steps(self) -> None:
        """A procedure as it was loaded, with a request that a step releases, and one that is not known."""
        desk = busy()
        self.assertEqual(STEPS, desk.line("1 zed steps warm"))
        desk.files["one.csv"] = b"step,text,second,request\n1,go,yes,7\n"
        self.assertEqual(["ok procedure one 1"], desk.line("2 eve procedure one one.csv"))
        self.assertEqual(["procedure one author eve steps 1", "step 1 second yes request 7 go"], desk.line("3 zed steps one"))
        self.assertEqual(["refused 16 UnknownProcedure"], desk.line("4 zed steps heater"))

    def test_bad_words(self) -> None:
        """Words that do not fit."""
        desk = busy()
        for act in BAD:
            self.assertEqual(["refused 1 BadText"], desk.line(f"1 ann {act}"), act)


# ---- the page

class Wall(unittest.TestCase):
    """The page of plain desks."""

    def desks(self) -> list[tuple[str, Desk]]:
        """Desks that are written by hand, and random ones."""
        made = [("empty", empty()), ("quiet", quiet()), ("busy", busy()), ("long names", busy(LONG)), ("in doubt", in_doubt()), ("trouble", trouble()),
                ("a stack", stacked(60)), ("crowded", crowded())]
        return made + [(f"random {seed}", random_desk(seed)) for seed in range(SEED, SEED + DAYS)]

    def test_shape(self) -> None:
        """Its elements fit into each other, its sections come in order, and no identity comes twice. Nothing is loaded, and nothing runs but the one script
        that its policy allows; on the page of a closed file nothing does."""
        for name, desk in self.desks():
            for closed in (False, True):
                with self.subTest(f"{name}, {closed}"):
                    data = board_page(desk, closed)
                    page = Page(data)
                    self.assertEqual(SECTIONS, page.sections)
                    self.assertEqual(len(page.ids), len(set(page.ids)))
                    self.assertFalse(page.tags.keys() & {"img", "iframe", "object", "embed", "form", "a"})
                    self.assertEqual(0 if closed else 1, page.tags["script"])
                    self.assertEqual([] if closed else [SCRIPT], re.findall("<script>(.*?)</script>", data.decode(), re.DOTALL))
                    self.assertEqual([STRICT if closed else policy()], re.findall('Content-Security-Policy" content="(.*?)"', data.decode()))
                    self.assertEqual([], re.findall(rb'(?:src|href)="(?!data:,"|#)|url\((?!#)|@import|https?:', data))
                    self.assertNotIn(b"\r", data)

    def test_ways(self) -> None:
        """Each open request stands there once, at its place, with its sign; no other does."""
        places: Counter[str] = Counter()
        for name, desk in self.desks():
            with self.subTest(name):
                page = Page(board_page(desk, False))
                rows = page.rows.get("ways", [])
                self.assertEqual(ways_of(desk)[:200], [[*it[:3], *it[4:6], it[-1].split(" ")[-1]] for it in rows])
                self.assertEqual([it[-1] for it in ways_of(desk)[:200]], page.classes.get("ways", []))
                critical = [desk.book.requests[it - 1].form.is_critical for it in open_of(desk)[:200]]
                self.assertEqual(critical, ["critical" in it[3] for it in rows])
                places.update(page.classes.get("ways", []))
        self.assertEqual({place_word(it) for it in range(1, 16) if it not in FINAL}, places.keys())

    def test_counts(self) -> None:
        """The tiles have the fifteen counts of `places`, each once, and their sums; the heading has the last move."""
        for name, desk in self.desks():
            with self.subTest(name):
                page = Page(board_page(desk, False))
                entered, *counts = numbers_in(desk.places())
                shown = {word: int(number) for _, places in page.tiles for word, number in (it.split(" ") for it in places.split(", "))}
                self.assertEqual(dict(zip(PLACE_WORDS, counts)), shown)
                self.assertEqual([sum(numbers_in(places)) for _, places in page.tiles], [int(count) for count, _ in page.tiles])
                self.assertIn(f"<p><b>{entered}</b> entered</p>", board_page(desk, False).decode())
                last = desk.book.history[-1:]
                head = "".join(f'<p id="moved" data-at="{it.moment}">last move <b>{it.seq}</b> at <b>{time_of(it.moment)}</b> UTC</p>' for it in last)
                head = head or "<p>nothing moved yet</p>"
                self.assertIn(head, board_page(desk, False).decode())

    def test_urgent(self) -> None:
        """There is a row for each line of `urgent`, in order, with its number, its name on board, its service, what it says, and how many are folded into it."""
        kinds: Counter[str] = Counter()
        for name, desk in self.desks():
            with self.subTest(name):
                page = Page(board_page(desk, False))
                rows = page.rows.get("urgent", [])
                lines = [LINE.fullmatch(it) for begin in range(1, 200, 50) for it in desk.line(f"1 ann urgent {begin}")[1:]]
                self.assertEqual(len(lines), len(rows))
                for it, row, kind in zip(lines, rows, page.classes["urgent"] if rows else []):
                    assert it
                    same = f" and {it['same']} more" if it["same"] != "0" else ""
                    self.assertRegex(row[0], f"{it['what']} {it['number']}{same}( |$)")
                    self.assertEqual((it["name"] or "", (it["service"] or "").replace(" ", "/")), (row[1], row[2]))
                    self.assertIn(SAID[it["kind"]].format(it["insert"]), row[3])
                    self.assertEqual(wall.age(int(it["waited"])) if it["name"] else "", row[5])
                kinds.update(page.classes.get("urgent", []))
        self.assertEqual({it.name for it in wall.KINDS.values()}, kinds.keys())

    def test_who(self) -> None:
        """Who may act on a line stands beside it: written by hand, of a desk in trouble."""
        rows = Page(board_page(trouble(), False)).rows["urgent"]
        self.assertEqual(TROUBLE, [[re.sub("^[^a-z]+", "", it[0]), it[3], it[4]] for it in rows])

    def test_texts(self) -> None:
        """A text is shown as it was typed: no element is made of it."""
        page = Page(board_page(busy(), False))
        self.assertIn(f"step 2: {STEP_TEXT}", [it[3] for it in page.rows["urgent"]])
        self.assertEqual("&amp;lt;&lt;&gt;&quot;&#39;&amp;#39;", wall.escaped("&lt;<>\"'&#39;"))
        self.assertIn(b"step 2: &lt;img src=x onerror=alert(1)&gt;&amp;&quot;</td>", board_page(busy(), False))

    def test_moves(self) -> None:
        """The last moves stand there, newest first, and how many there are before them."""
        for name, desk in self.desks():
            with self.subTest(name):
                page = Page(board_page(desk, False))
                wanted = [f"{it.seq} {time_of(it.moment)} {it.person} {it.request} {place_word(it.from_place)} {place_word(it.to_place)}"
                          for it in desk.book.history[::-1][:50]]
                self.assertEqual(wanted, [" ".join(row[:-1]) for row in page.rows.get("moves", [])])
                left = len(desk.book.history) - 50
                self.assertEqual([f"and {left} more"] if left > 0 else [], page.words.get("more", [])[-1:])

    def test_link(self) -> None:
        """Premise, state and flags stand there in words, and the schedule as it is mirrored."""
        for name, desk in self.desks():
            with self.subTest(name):
                text = board_page(desk, False).decode()
                fop, farm, both = desk.link.lines()
                self.assertIn(f"premise {both.split(' ')[-1]}</p>", text)
                self.assertIn(f"{fop.split(' ')[1]} {wall.STATES[fop.split(' ')[1]]}</dd>", text)
                self.assertIn(f">{farm.split(' ')[1]}</dd>", text)
                self.assertIn(f"{len(desk.link.up)} up, {len(desk.link.down)} down", text)
                wanted = [it.split(" ")[1:] for it in desk.line("1 ann schedule")[1:]]
                self.assertEqual([(name, time_of(int(time))) for name, time in wanted], re.findall("<li><b>(.*?)</b> (.*?)</li>", text))

    def test_closed(self) -> None:
        """The page of a closed file says so, is not asked for again, and tells of no link and no schedule. No request failed after an opening, and each at
        Scheduled is on board; all else is as it was."""
        for name, desk in self.desks():
            with self.subTest(name):
                opened, closed = (board_page(desk, it).decode() for it in (False, True))
                self.assertIn('<noscript><meta http-equiv="refresh" content="5"></noscript>', opened)
                self.assertNotIn("refresh", closed)
                self.assertNotIn("premise k", closed)
                self.assertNotIn("premise b", closed)
                self.assertEqual(3, len(re.findall(">closed(?: file)?<", closed)))
                self.assertEqual(0, len(re.findall(">closed(?: file)?<", opened)))
                first, second = (Page(it.encode()) for it in (opened, closed))
                self.assertEqual(first.rows.get("moves"), second.rows.get("moves"))
                self.assertEqual(sorted(it[0] for it in first.rows.get("ways", [])), sorted(it[0] for it in second.rows.get("ways", [])))
                self.assertNotIn("FailedSince", second.classes.get("urgent", []))
                scheduled = {str(it) for it in wall.scheduled(desk, True)}
                lost = {number for row, kind in zip(second.rows.get("urgent", []), second.classes.get("urgent", [])) if kind == "LostReport"
                        for number in re.findall("request ([0-9]+)", row[0])}
                self.assertFalse(lost & scheduled)

    def test_opened(self) -> None:
        """Below its heading the page says when the desk was opened, and how many moves stood once that had made its own; later moves change nothing of it."""
        desk = Desk()
        line = "<header>\n<h1>Telecommand desk</h1>\n<p>opened at <b>{}</b> UTC after <b>{}</b> moves</p>\n<p><b>1</b> entered</p>\n"
        for at, act in enumerate(("enter 5 a--c no 8 1 - - ok", "initiate none", "approve 1", "release 1")):
            desk.line(f"{at} {'bob' if act == 'approve 1' else 'ann'} {act}")
        self.assertIn(line.format("1970-01-01 00:00:00", 0), board_page(desk, False).decode())
        moved = len(desk.book.history)
        desk = Desk.opened(desk.tables(), 86_399)
        self.assertGreater(desk.stood, moved)
        desk.line("86400 ann enter 6 a--c no 8 1 - - ok")
        self.assertIn(line.format("1970-01-01 23:59:59", desk.stood).replace("<b>1</b> entered", "<b>2</b> entered"), board_page(desk, False).decode())
        closed = board_page(desk, True).decode()
        self.assertIn(f'<header>\n<h1>Telecommand desk</h1>\n<p class="file">closed file</p>\n<p>{CLOSED}</p>\n<p><b>2</b> entered</p>\n', closed)
        self.assertNotIn("opened at", closed)


# ---- bounds, and the axis

class Bounds(unittest.TestCase):
    """What is cut is counted, and the axis is as its rules say."""

    def test_cuts(self) -> None:
        """A full desk shows 200 of 240 requests, 150 of 240 lines and 50 moves, and says how many more there are."""
        desk = full()
        page = Page(board_page(desk, False))
        self.assertEqual([150, 200, 50], [len(page.rows[it]) for it in ("urgent", "ways", "moves")])
        self.assertEqual(["lines left out: 90 wait for approval", "and 40 more", f"and {len(desk.book.history) - 50} more"], page.words["more"])
        self.assertEqual([str(it) for it in open_of(desk)[:200]], [it[0] for it in page.rows["ways"]])

    def test_activities(self) -> None:
        """Of 70 activities 64 are shown."""
        desk = in_doubt(70)
        desk.mirror.times.update((it, BEGIN + it) for it in range(1, 71))
        page = Page(board_page(desk, False))
        self.assertEqual(64, board_page(desk, False).count(b"<li><b>"))
        self.assertIn("and 6 more", page.words["more"])

    def test_stages(self) -> None:
        """Of a request with more than 12 moves the last 12 are drawn, and the others counted."""
        it = Scene()
        number, = it.enters("5 a--c no 8 1 - - ok")
        it.says("initiate none", "set k 1")
        other, = it.enters("5 a--c no 8 2 - - ok")
        it.says(f"release {other}")
        for _ in range(6):
            it.says(f"release {number}", "terminate", "initiate none", after=60)
            if it.desk.book.place(number).word == "Sent":
                break
            blocker, = it.enters("6 a--c no 8 2 - - ok")
            it.says(f"release {blocker}", after=60)
        rows = it.desk.book.rows_of[number]
        page = Page(board_page(it.desk, False))
        row = next(row for row in page.rows["ways"] if row[0] == str(number))
        bar = page.bars[page.rows["ways"].index(row)]
        self.assertGreater(len(rows), 12)
        self.assertIn(f"{len(rows) - 12} moves before", row[3])
        self.assertEqual([place_word(it.to_place) for it in rows[-12:]], [kind for kind, _, _ in bar])

    def test_gaps(self) -> None:
        """The axis squeezes gaps to 30 to 600 seconds, ends where it should, and has few lines: written by hand."""
        self.assertEqual([0], wall.places_on_axis([5]))
        self.assertEqual([0, 560], wall.places_on_axis([5, 6]))
        self.assertEqual([0, 280, 560], wall.places_on_axis([0, 1, 31]))
        self.assertEqual([0, 26, 560], wall.places_on_axis([0, 30, 4_102_444_799]))
        self.assertEqual([0, 186, 373, 560], wall.places_on_axis([0, 100, 200, 300]))
        self.assertEqual([(560, 4), (420, 3), (280, 2), (140, 1), (0, 0)], wall.lines_of({0: 0, 1: 140, 2: 280, 3: 420, 4: 560}))
        self.assertEqual([(560, 4), (420, 3), (139, 1)], wall.lines_of({0: 0, 1: 139, 2: 281, 3: 420, 4: 560}))
        self.assertEqual([(0, 7)], wall.lines_of({7: 0}))

    def test_bars(self) -> None:
        """Each bar is of stages that follow each other, begins at its first move, and ends at the end; and its lines are at moments that are shown."""
        dice = random.Random(SEED)
        for seed in range(SEED, SEED + DAYS):
            desk = random_desk(seed)
            text, page = board_page(desk, False).decode(), Page(board_page(desk, False))
            for number, bar in zip(open_of(desk), page.bars):
                self.assertEqual([x + width for _, x, width in bar], [x for _, x, _ in bar[1:]] + [wall.WIDTH])
                self.assertTrue(all(width > 0 for _, _, width in bar))
                self.assertEqual(desk.book.place(number).word, bar[-1][0])
            xs = numbers_in("".join(re.findall('id="ticks" d="(.*?)"', text)).replace("0V10", ""))
            self.assertTrue(1 <= len(xs) <= 8 and xs == sorted(xs, reverse=True) and xs[0] == wall.WIDTH - wall.TAIL, xs)
            self.assertTrue(all(before - it >= wall.APART for before, it in zip(xs, xs[1:])), xs)
        for _ in range(200):
            moments = sorted({dice.choice([dice.randrange(100), dice.randrange(10**4), dice.randrange(10**9)]) for _ in range(dice.randrange(1, 60))})
            self.check_axis(moments, wall.places_on_axis(moments))

    def test_back(self) -> None:
        """A bar by hand, and one whose later move has an earlier moment: a stage never begins before the one that it follows."""
        for moments, wanted in (((100, 200, 300), [("Entered", 0, 280), ("Approved", 280, 280), ("Queued", 560, 80)]),
                                ((100, 300, 200), [("Entered", 0, 560), ("Queued", 560, 80)]),
                                ((300, 100, 200), [("Queued", 560, 80)]),
                                ((100, 100, 100), [("Queued", 0, 640)])):
            desk = Desk()
            desk.line("50 ann set k 1")
            desk.line("50 ann initiate none")
            for act in ("enter 5 a--c no 8 1 - - ok", "approve 1", "release 1"):
                desk.line(f"40 {'bob' if act == 'approve 1' else 'ann'} {act}")
            for act, moment, person in zip(("enter 6 a--c no 8 1 - - ok", "approve 2", "release 2"), moments, ("ann", "bob", "ann")):
                desk.line(f"{moment} {person} {act}")
            way = wall.way_of(desk, 2)
            parts = "".join(wall.bar(way, wall.axis_of([way])))
            found = [(kind, int(x), int(width)) for kind, x, width in re.findall('class="(.*?)" x="(.*?)" width="(.*?)"', parts)]
            self.assertEqual(wanted, found, moments)

    def check_axis(self, moments: Sequence[int], xs: Sequence[int]) -> None:
        """Places rise as moments do, and a gap that is longer in seconds is not shorter on the axis but for what is rounded off."""
        self.assertEqual((len(moments), sorted(xs)), (len(xs), list(xs)))
        self.assertTrue(xs[0] == 0 and (len(xs) == 1 or xs[-1] == wall.WIDTH - wall.TAIL))
        gaps = sorted((after - before, x_after - x_before) for before, after, x_before, x_after in zip(moments, moments[1:], xs, xs[1:]))
        self.assertTrue(all(wide + 1 >= narrow for (_, narrow), (_, wide) in zip(gaps, gaps[1:])), gaps)


class Parts(unittest.TestCase):
    """The fixed parts of the page."""

    def test_parts(self) -> None:
        """They are ASCII, end with LF, and load nothing."""
        for part in PARTS:
            text = wall.fixed(part.file)
            self.assertTrue(text.endswith("\n") and "\r" not in text and "\t" not in text, part.file)
            self.assertEqual([], re.findall(r"@import|https?:|url\((?!#)", text), part.file)
        self.assertEqual(sorted(os.listdir(wall.FOLDER)), sorted(part.file for part in PARTS))

    def test_words(self) -> None:
        """The headings, the heads of columns and the words of the legend are these, written by hand: the plain program reads them from the same files."""
        for closed in (False, True):
            for desk in (busy(), in_doubt()):
                text = board_page(desk, closed).decode("ascii")
                parts = [it for it in text.split("<section ")[1:] if not it.startswith('class="sign"')]
                self.assertEqual(HEADINGS, [re.findall("<h2>(.*?)</h2>", it)[0] for it in parts])
                heads = [re.findall("<th(?: [^>]*)?>([^<]*)", it) for it in parts]
                self.assertEqual([OPEN_HEADS, WAY_HEADS, MOVE_HEADS], [it for it in heads if it])
                legend = text[text.index('<ul class="legend">'):text.index("</ul>", text.index('<ul class="legend">'))]
                self.assertEqual(LEGEND, re.findall(r'<li>(?:<svg.*?<rect class="(\w+)"[^>]*/></svg>)?([^<]*)</li>', legend))
                self.assertEqual(SIGNATURES, re.findall("<p>(.*?)</p>", text[text.index('class="sign"'):]))

    def test_constants(self) -> None:
        """The crate has them as they are: after an edit tools/page_parts.py writes its constants. The header of the response has the same policy."""
        with open(MADE, encoding="ascii") as file:
            self.assertEqual(made(), file.read())
        with open(HEADER, encoding="utf-8") as file:
            self.assertEqual([f"{policy()}; frame-ancestors 'none'"], re.findall(r"Content-Security-Policy: (.*?)\\r", file.read()))
