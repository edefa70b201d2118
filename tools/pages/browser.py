"""The page of the wall screen in a browser: headless Chromium, which is led over the protocol of its driver.

    tools/run.py --only browser                        the pages of plain desks: quiet, busy, in doubt, in trouble, with long stacks, empty, closed, and full
    cd tools; python3 -m pages.browser PAGE [WORDS]    one page, a file of HTML or a URL

of which WORDS may be `--places LINE`, the line that answers `places`; `--open N`, how many requests are open; `--text TEXT`, which has to be shown as it is
typed; `--high`, where the page may be higher than the screen; `--picture FILE`, a picture of it; and `--paper FILE`, how it is printed.

Looked for are the counts, each open request at its place, texts of persons as they were typed, what stands out over 1,920 by 1,080 points, that all that is
in doubt, failed or waits for approval stands above the fold, that nothing is loaded besides and no script is there but the page's own, that the page comes
back by itself, how long it takes to open, and the headings of what is printed. Where Chromium, its driver or pdftotext is not
installed it says that this was not tried.
"""
import argparse
import base64
import json
import os
import re
import shutil
import subprocess
import sys
import tempfile
import threading
import time
import unittest
import urllib.error
import urllib.request
from http.server import BaseHTTPRequestHandler, ThreadingHTTPServer
from typing import Any, NamedTuple, Optional, Sequence

from model.desk import Desk
from model.facts import PLACE_WORDS
from model.wall import MOST_OPEN, board_page, open_lines, open_requests
from page_parts import policy
from tests.http_peer import HERE, free_port
from tests.wall_desks import LONG, STEP_TEXT, busy, crowded, empty, in_doubt, longest, quiet, stacked, trouble

WIDE, HIGH = 1920, 1080  # of the screen, in points
OPENS = 1.0  # seconds in which a page has to be there
TRIES = 5  # of which the best counts
PATIENCE = 600  # seconds for an answer of the driver
AGAIN = 60  # seconds in which a page that asks every 5 has to say something
OPTIONS = ("--headless", "--disable-gpu", "--hide-scrollbars", "--no-first-run", "--disable-background-networking")
SECTIONS = ("How many stand where", "What is open, most urgent first", "Link", "On-board schedule", "Each open request's way", "Last moves", "Handed over by",
            "Taken over by")

REFRESH = '<meta http-equiv="refresh" content="5">'
FIRST = ("InDoubt", "FailedSince", "Approval")  # these have to be seen at once

# What a script in the browser tells of the page.
LOOK = """
const all = (it) => [...document.querySelectorAll(it)], cells = (it) => [...it.cells].map(cell => cell.textContent);
const spills = (it) => it.scrollWidth > it.clientWidth + 1 || [...it.querySelectorAll('table')].some(
    table => table.getBoundingClientRect().right > it.getBoundingClientRect().right);
return {
    tiles: all('.tile').map(it => [Number(it.querySelector('b').textContent), it.querySelector('small').textContent]),
    ways: all('.ways tbody tr').map(it => ({cells: cells(it), is_shown: it.getBoundingClientRect().height > 0})),
    urgent: all('.urgent tbody tr').map(it => ({cells: cells(it), kind: it.className, bottom: it.getBoundingClientRect().bottom})),
    more: all('.more').map(it => it.textContent),
    premise: document.querySelector('.premise').textContent,
    scripts: all('script').length,
    strange: all('img, iframe, object, embed, form, input, a').length,
    wide: document.documentElement.scrollWidth, high: document.documentElement.scrollHeight,
    spilled: all('header, section, .tile').filter(spills).map(it => it.className),
    loaded: performance.getEntriesByType('resource').map(it => it.name).filter(it => it !== location.href),
    refresh: all('noscript').map(it => it.textContent),
    age: all('#age').map(it => it.textContent),
}
"""


class Wanted(NamedTuple):
    """What a page has to show: how many stand at each place; the open requests, each with its identity and its place, or how many there are; texts."""
    counts: dict[str, int]
    ways: Optional[list[tuple[str, str, str]]] = None
    opened: Optional[int] = None
    texts: Sequence[str] = ()
    closed: Optional[bool] = None
    is_high: bool = False


def missing() -> Optional[str]:
    """What is not installed that a browser wants."""
    names = {"chromium": "chromium", "chromedriver": "chromium-driver"}
    return next((f"{name} is not installed (Debian: {package})" for name, package in names.items() if not shutil.which(name)), None)


class Browser:
    """A browser without a window, which ends with the block."""

    def __init__(self) -> None:
        """Starts the driver, and the browser."""
        port = free_port()
        self.driver = subprocess.Popen(["chromedriver", f"--port={port}"], stdout=subprocess.DEVNULL, stderr=subprocess.DEVNULL)
        self.root, self.session = f"http://{HERE}:{port}", ""
        self.wait()
        words = [*OPTIONS, *(["--no-sandbox"] if os.getuid() == 0 else [])]
        options = {"binary": shutil.which("chromium"), "args": words}
        wanted = {"browserName": "chrome", "goog:chromeOptions": options, "goog:loggingPrefs": {"browser": "ALL"}}
        self.session = self.asks("POST", "/session", {"capabilities": {"alwaysMatch": wanted}})["sessionId"]
        self.leads("Emulation.setDeviceMetricsOverride", width=WIDE, height=HIGH, deviceScaleFactor=1, mobile=False)

    def __enter__(self) -> "Browser":
        return self

    def __exit__(self, *why: object) -> None:
        try:
            self.asks("DELETE", "")
        finally:
            self.driver.terminate()
            self.driver.wait()

    def wait(self) -> None:
        """Waits until the driver answers."""
        end = time.monotonic() + PATIENCE
        while time.monotonic() < end and self.driver.poll() is None:
            try:
                self.asks("GET", "/status")
                return
            except OSError:
                time.sleep(0.05)
        raise AssertionError("chromedriver does not answer")

    def asks(self, method: str, path: str, body: Optional[dict[str, Any]] = None) -> Any:
        """The value that the driver answers; of the session, once there is one."""
        where = f"{self.root}/session/{self.session}{path}" if self.session else f"{self.root}{path}"
        data = None if method != "POST" else json.dumps(body or {}).encode()
        try:
            asked = urllib.request.Request(where, data, {"Content-Type": "application/json"}, method=method)
            with urllib.request.urlopen(asked, timeout=PATIENCE) as answer:
                return json.load(answer)["value"]
        except urllib.error.HTTPError as fault:
            raise AssertionError(f"{method} {path} {data!r:.200}: {fault}, {fault.read()!r:.600}") from None

    def leads(self, command: str, **words: object) -> Any:
        """A command of the browser's own."""
        return self.asks("POST", "/goog/cdp/execute", {"cmd": command, "params": words})

    def opens(self, url: str) -> float:
        """Opens a page. Answers the seconds until it was there, and laid out: by the clock, or of processors where that is less, since others may
        have them."""
        began, spent = time.monotonic(), processor_seconds(self.driver.pid)
        self.asks("POST", "/url", {"url": url})
        self.says("return document.documentElement.scrollHeight")
        return min(time.monotonic() - began, processor_seconds(self.driver.pid) - spent)

    def says(self, script: str) -> Any:
        """What a script tells of the page."""
        return self.asks("POST", "/execute/sync", {"script": script, "args": []})

    def complaints(self) -> list[str]:
        """What the browser itself says of the page."""
        return [it["message"] for it in self.asks("POST", "/se/log", {"type": "browser"})]

    def picture(self, path: str) -> None:
        """A picture of the screen."""
        write(path, self.leads("Page.captureScreenshot")["data"])

    def paper(self, path: str) -> None:
        """The page as it is printed."""
        write(path, self.leads("Page.printToPDF", preferCSSPageSize=True, printBackground=True)["data"])


def processor_seconds(process: int) -> float:
    """What a process, and those that it began and these began, took of processors."""
    rows: dict[int, list[str]] = {}
    for it in filter(str.isdigit, os.listdir("/proc")):
        try:
            with open(f"/proc/{it}/stat", encoding="latin-1") as file:
                rows[int(it)] = file.read().rpartition(")")[2].split()
        except OSError:  # it has ended by now
            pass
    found = {process}
    while more := {it for it, row in rows.items() if int(row[1]) in found} - found:
        found |= more
    return sum(sum(int(ticks) for ticks in rows[it][11:15]) for it in found if it in rows) / os.sysconf("SC_CLK_TCK")


def write(path: str, data: str) -> None:
    """A file, whose bytes are spelled in base 64."""
    with open(path, "wb") as file:
        file.write(base64.b64decode(data))


# ---- what is looked for

def of_counts(found: dict[str, Any], counts: dict[str, int]) -> list[str]:
    """The tiles: each place once, with its count, and each tile with the sum of its places."""
    shown = [re.findall(r"([A-Z][a-z]+) ([0-9]+)", places) for _, places in found["tiles"]]
    faults = [f"a tile of {places} says {count}" for (count, _), places in zip(found["tiles"], shown) if count != sum(int(it) for _, it in places)]
    all_shown = sorted((name, int(count)) for places in shown for name, count in places)
    return faults + ([] if all_shown == sorted(counts.items()) else [f"counts {all_shown}, and not {counts}"])


def of_ways(found: dict[str, Any], wanted: Wanted) -> list[str]:
    """The open requests: each once, with its identity and its place, and as many as are wanted."""
    shown = [(it["cells"][0], it["cells"][1], it["cells"][-1].split(" ")[-1]) for it in found["ways"]]
    faults = [f"request {it['cells'][0]} is not to be seen" for it in found["ways"] if not it["is_shown"]]
    if wanted.ways is not None and shown != wanted.ways[:MOST_OPEN]:
        faults.append(f"open requests {shown}, and not {wanted.ways[:MOST_OPEN]}")
    if wanted.opened is not None and len(shown) != min(wanted.opened, MOST_OPEN):
        faults.append(f"{len(shown)} open requests, and not {wanted.opened}")
    left_out = [f"and {it - MOST_OPEN} more" for it in [len(wanted.ways or [])] if it > MOST_OPEN]
    return faults + [f"it does not say: {it}" for it in left_out if it not in found["more"]]


def of_shape(found: dict[str, Any], is_high: bool) -> list[str]:
    """Whether something stands out over the screen, or over its section, is loaded, or should not be there."""
    faults = [f"it is {found['wide']} points wide"] if found["wide"] > WIDE else []
    faults += [f"it is {found['high']} points high"] if found["high"] > HIGH and not is_high else []
    faults += [f"{it} spills over" for it in found["spilled"]] + [f"it loads {it}" for it in found["loaded"]]
    below = [row["cells"][0] for row in found["urgent"] if row["kind"] in FIRST and row["bottom"] > HIGH]
    faults += [] if is_high else [f"{it} is below the fold" for it in below]
    return faults + ([f"{found['strange']} elements that should not be there"] if found["strange"] else [])


def faults_of(browser: Browser, wanted: Wanted) -> list[str]:
    """What is wrong with the page that is open."""
    found = browser.says(LOOK)
    cells = [cell for row in found["urgent"] for cell in row["cells"]]
    faults = of_counts(found, wanted.counts) if wanted.counts else []
    faults += of_ways(found, wanted) + of_shape(found, wanted.is_high)
    faults += [f"the text {it} is not shown" for it in wanted.texts if not any(cell.endswith(it) for cell in cells)]
    if wanted.closed is not None:
        premise, refresh = found["premise"], found["refresh"]
        wanted_scripts = 0 if wanted.closed else 1
        is_so = (premise == "closed" and refresh == []) if wanted.closed else (premise in ("premise kept", "premise broken") and refresh == [REFRESH])
        faults += [] if is_so else [f"the link is {premise}, and it is asked for again: {refresh}"]
        faults += [] if found["scripts"] == wanted_scripts else [f"{found['scripts']} scripts"]
        faults += [] if wanted.closed or len(found["age"]) == 1 else ["it does not tell how old the last move is"]
    return faults + browser.complaints()


def paper_faults(path: str, rows: int) -> list[str]:
    """What is wrong with a page as it was printed."""
    text = subprocess.run(["pdftotext", "-layout", path, "-"], check=True, capture_output=True, text=True).stdout
    faults = [f"printed: there is no {it}" for it in SECTIONS if it not in text]
    pages = [it for it in text.split("\f") if "Stands at" in it]
    return faults + (["printed: the heading of the requests is not repeated"] if rows >= 40 and len(pages) < 2 else [])


def wanted_of(desk: Desk, closed: bool, texts: Sequence[str] = (), is_high: bool = False) -> Wanted:
    """What the page of a plain desk has to show."""
    counts = dict(zip(PLACE_WORDS, map(int, desk.places().split(": ")[1].split(" "))))
    book = desk.book
    numbers = open_requests(desk, open_lines(desk, closed))
    ways = [(str(it.number), str(it.identity), book.place(it.number).word) for it in (book.requests[number - 1] for number in numbers)]
    return Wanted(counts, ways, len(ways), texts, closed, is_high)


# ---- tests

class Shown(ThreadingHTTPServer):
    """A server of one page, as the desk or a proxy answers it."""

    def __init__(self) -> None:
        """It has no page yet."""
        super().__init__((HERE, 0), Answers)
        self.page, self.status = b"", 200

    def url(self) -> str:
        """Where the page is."""
        return f"http://{HERE}:{self.server_address[1]}/board"

    def ends(self) -> None:
        """Ends."""
        self.shutdown()
        self.server_close()


class Answers(BaseHTTPRequestHandler):
    """An answer with the page, or with another status; 0 cuts it off."""
    server: Shown

    def do_GET(self) -> None:
        """Answers."""
        if self.server.status == 0:
            return
        body = self.server.page if self.server.status == 200 else b"<html><title>502</title></html>"
        self.send_response(self.server.status)
        self.send_header("Content-Type", "text/html; charset=utf-8")
        self.send_header("Content-Security-Policy", f"{policy()}; frame-ancestors 'none'")
        self.send_header("Content-Length", str(len(body)))
        self.end_headers()
        self.wfile.write(body)

    def log_message(self, format: str, *args: object) -> None:
        """Says nothing."""


class Browsed(unittest.TestCase):
    """Pages of plain desks."""

    def setUp(self) -> None:
        why = missing()
        if why:
            self.skipTest(why)
        self.folder = self.enterContext(tempfile.TemporaryDirectory(prefix="pages-"))
        self.browser = self.enterContext(Browser())
        self.shown = Shown()
        threading.Thread(target=self.shown.serve_forever, daemon=True).start()
        self.addCleanup(self.shown.ends)

    def page(self, desk: Desk, closed: bool = False) -> str:
        """Serves the page of a desk; its URL."""
        self.shown.page, self.shown.status = board_page(desk, closed), 200
        return self.shown.url()

    def look(self, name: str, desk: Desk, closed: bool = False, texts: Sequence[str] = (), is_high: bool = False) -> None:
        """Opens the page of a desk, and looks for all that it has to show."""
        with self.subTest(name):
            self.browser.opens(self.page(desk, closed))
            self.assertEqual([], faults_of(self.browser, wanted_of(desk, closed, texts, is_high)))

    def says_again(self, what: str) -> None:
        """Waits until the page that is open says this."""
        end = time.monotonic() + AGAIN
        while what not in self.browser.says("return document.body.textContent"):
            self.assertLess(time.monotonic(), end, what)
            time.sleep(0.2)

    def test_again(self) -> None:
        """The page shows the next board by itself. While none comes it keeps the last one and says since when, and it goes on once one comes."""
        self.browser.opens(self.page(quiet()))
        self.browser.says("window.stays = true")
        self.page(busy())
        self.says_again("execution 1 of warm")
        self.shown.status = 502
        self.says_again("the answer was 502. This is the last one.")
        self.shown.status = 0
        self.says_again("no answer. This is the last one.")
        self.says_again("execution 1 of warm")
        self.page(quiet())
        self.says_again("request 7 and 1 more of payload")
        self.assertEqual([True, True], self.browser.says("return [window.stays, document.getElementById('silent').hidden]"))

    def test_screen(self) -> None:
        """Desks of up to 40 open requests fit on the screen, and show what they hold."""
        self.look("empty", empty())
        self.look("quiet", quiet())
        self.look("busy", busy(), texts=[STEP_TEXT])
        self.look("long names", busy(LONG), texts=[STEP_TEXT])
        self.look("in doubt", in_doubt())
        self.look("twenty in doubt", in_doubt(20))
        self.look("trouble", trouble(), texts=[STEP_TEXT])
        self.look("closed", busy(), closed=True, texts=[STEP_TEXT])

    def test_long(self) -> None:
        """Of long stacks and many requests all that is in doubt or waits for approval stands above the fold."""
        for name, desk in (("60 rows", stacked(60)), ("200 rows", stacked(200)), ("350 open", crowded())):
            self.look(name, desk, is_high=True)
            found = self.browser.says(LOOK)
            self.assertEqual([], [row for row in found["urgent"] if row["kind"] in (*FIRST, "Flying") and row["bottom"] > HIGH], name)

    def test_full(self) -> None:
        """The page of a full desk opens within a second, and counts what it leaves out. Its longest numbers and names stand out nowhere."""
        desk = longest()
        url = self.page(desk)
        took = min(self.browser.opens(url) for _ in range(TRIES))
        print(f"browser: a page of {len(self.shown.page)} bytes in {took:.2f} seconds")
        self.assertLess(took, OPENS)
        self.assertEqual([], faults_of(self.browser, wanted_of(desk, False, is_high=True)))
        self.look("full, closed", desk, closed=True, is_high=True)

    def test_paper(self) -> None:
        """What is printed has all headings, and that of a long table on each of its pages."""
        if not shutil.which("pdftotext"):
            self.skipTest("pdftotext is not installed (Debian: poppler-utils)")
        for name, desk, closed in (("quiet", quiet(), False), ("busy", busy(), False), ("closed", in_doubt(), True)):
            with self.subTest(name):
                self.browser.opens(self.page(desk, closed))
                self.browser.paper(f"{self.folder}/page.pdf")
                self.assertEqual([], paper_faults(f"{self.folder}/page.pdf", len(wanted_of(desk, closed).ways or [])))


# ---- one page

def parsed(words: Sequence[str]) -> argparse.Namespace:
    """The words of the command line."""
    parser = argparse.ArgumentParser(prog="python3 -m pages.browser", description="Looks at one page of the wall screen.")
    parser.add_argument("page", metavar="PAGE", help="a file of HTML, or a URL")
    parser.add_argument("--places", metavar="LINE", help="the line that answers `places`")
    parser.add_argument("--open", type=int, metavar="N", help="how many requests are open")
    parser.add_argument("--text", action="append", default=[], metavar="TEXT", help="a text that has to be shown as it is typed")
    parser.add_argument("--high", action="store_true", help="the page may be higher than the screen")
    parser.add_argument("--picture", metavar="FILE", help="write a picture of it")
    parser.add_argument("--paper", metavar="FILE", help="write how it is printed")
    return parser.parse_args(words)


def main() -> int:
    """Looks at one page, and tells what is wrong with it."""
    asked, why = parsed(sys.argv[1:]), missing()
    if why:
        print(f"not tried: {why}")
        return 0
    counts = dict(zip(PLACE_WORDS, map(int, asked.places.split(": ")[1].split(" ")))) if asked.places else {}
    with Browser() as browser:
        took = browser.opens(asked.page if "://" in asked.page else f"file://{os.path.abspath(asked.page)}")
        faults = faults_of(browser, Wanted(counts, opened=asked.open, texts=asked.text, is_high=asked.high))
        if asked.picture:
            browser.picture(asked.picture)
        if asked.paper:
            browser.paper(asked.paper)
    for it in faults:
        print(f"FAILED {it}")
    print(f"opened in {took:.2f} seconds; {len(faults)} faults")
    return int(bool(faults))


if __name__ == "__main__":
    sys.exit(main())
