"""The requests that a server is sent, in lists: heads, routes and lengths, and what stands behind a request."""
from typing import Iterator, Sequence

from generate.http_words import BODY, ENTRY, NOTHING, PLACES, Case, Want, act, get, post
from model.http import FOREIGN, LARGE, NO_PATH, OTHER_METHOD


def padded(size: int, *, front: bytes = b"", end: bytes = b"\r\n") -> bytes:
    """A GET of /places whose head has so many bytes, with those that stand before it."""
    head = front + b"GET /places HTTP/1.1" + end + b"X: " + end + end
    return head.replace(b"X: ", b"X: " + b"x" * (size - len(head)))


def sized(size: int, body: str, end: str = "\r\n") -> bytes:
    """A POST of this body as an act, whose head has so many bytes."""
    spare = size - len(post("/acts", "", "X: ", length=len(body), end=end))
    return post("/acts", body, "X: " + "x" * spare, end=end)


# ---- heads

def sizes() -> Iterator[Case]:
    """Heads at the limits of bytes, header lines and line ends."""
    for end in (b"\r\n", b"\n"):
        for size, want in ((8191, 0), (8192, 0), (8193, 17), (8194, 17), (9000, 17), (20000, 17)):
            yield Case(f"a head of {size} bytes", padded(size, end=end), want)
            yield Case(f"a head of {size} bytes, line ends before it", padded(size, front=end * 100, end=end), want)
        for count, want in ((0, 0), (1, 0), (63, 0), (64, 0), (65, 17), (66, 17), (200, 17)):
            lines = b"".join(b"a: b" + end for _ in range(count))
            yield Case(f"{count} header lines", b"GET /places HTTP/1.1" + end + lines + end, want)
            yield Case(f"{count} header lines behind line ends", end * 70 + b"GET /places HTTP/1.1" + end + lines + end, want)
            if count:
                bad = 1 if count <= 64 else 17
                yield Case(f"{count} header lines, one bad", b"GET /places HTTP/1.1" + end + b"a b" + lines[4:] + end, bad)
                yield Case(f"{count} header lines and a bad first line", end * 9 + b"GET" + end + lines + end, bad)
                yield Case(f"{count} header lines of no path", b"GET /none HTTP/1.1" + end + lines + end, NO_PATH if count <= 64 else LARGE)
        yield Case("line ends alone", end * 4000, NOTHING)
        yield Case("8,193 bytes of line ends", (end * 8193)[:8193], 17)
        yield Case("a head behind many line ends", end * 2000 + b"GET /places HTTP/1.1" + end + end, 0)
    yield Case("8,192 bytes without an end", b"GET /" + b"a" * 8187, NOTHING)
    yield Case("8,193 bytes without an end", b"GET /" + b"a" * 8188, 17)
    yield Case("8,193 bytes without a line end", b"\x00" * 8193, 17)
    yield Case("8,192 bytes of nothing", b"\x00" * 8192, NOTHING)
    yield Case("8,192 bytes and the end behind them", b"GET /" + b"a" * 8187 + b"\r\n\r\n", 17)
    yield Case("the end's last byte is byte 8,193", padded(8192)[:-1] + b"\r\n", 17)
    yield Case("a bad head of 8,192 bytes", b"GET  /" + padded(8191)[5:], 1)
    yield Case("nothing", b"", NOTHING)
    yield Case("a line", b"GET /places HTTP/1.1\r\n", NOTHING)
    yield Case("a line and a CR", b"GET /places HTTP/1.1\r\n\r", NOTHING)


def heads() -> Iterator[Case]:
    """Line ends, header lines and first lines, good and bad ones."""
    first = b"GET /places HTTP/1.1"
    behind_first: Sequence[tuple[bytes, Want]] = [
            (b"\n\n", 0), (b"\r\n\r\n", 0), (b"\r\n\n", 0), (b"\n\r\n", 0), (b"\nA: b\r\nC: d\n\r\n", 0), (b"\r\nA: b\nC: d\r\n\n", 0),
            (b"\r\r\n\r\n", 1), (b"\r\n\r\r\n\n", 1), (b"\r\nA: b\r\r\n\r\n", 1), (b"\rA: b\r\n\r\n", 1), (b"\nA: b\r\n\r", NOTHING), (b"\n \n\n", 1),
            (b"\r\nA:\r\n\r\n", 0), (b"\r\nA: \t \r\n\r\n", 0), (b"\r\nA:b\r\n\r\n", 0), (b"\r\nA b\r\n\r\n", 1), (b"\r\nA : b\r\n\r\n", 1),
            (b"\r\n: b\r\n\r\n", 1), (b"\r\n A: b\r\n\r\n", 1), (b"\r\nA: b\r\n c\r\n\r\n", 1), (b"\r\nA: b\r\n\tc\r\n\r\n", 1),
            (b"\r\nA: \x00\r\n\r\n", 1),
            (b"\r\nA: \x7f\r\n\r\n", 1), (b"\r\nA: \x01\r\n\r\n", 1), (b"\r\nA: \xff\xfe\r\n\r\n", 0), (b"\r\nA\xe9: b\r\n\r\n", 1),
            (b"\r\nA(): b\r\n\r\n", 1),
            (b"\r\n!#$%&'*+-.^_`|~09azAZ: b\r\n\r\n", 0), (b"\r\nA: b: c\r\n\r\n", 0), (b"\r\nA:: b\r\n\r\n", 0), (b"\r\nA: \"b\r\n\r\n", 0),
            (b"\r\nExpect: 100-continue\r\n\r\n", 0), (b"\r\nConnection: keep-alive\r\n\r\n", 0), (b"\r\nHost: a\r\nHost: b\r\n\r\n", FOREIGN)]
    for text, want in behind_first:
        yield Case(f"behind the first line {text!r}", first + text, want)
    before_first: Sequence[tuple[bytes, Want]] = [
            (b"\r\n", 0), (b"\n", 0), (b"\r", 0), (b"\r\r\n\n\r", 0), (b" ", 1), (b"\t", 1), (b"\r\n ", 1), (b"\x00", 1), (b"\xef\xbb\xbf", 1),
            (b"x", OTHER_METHOD)]
    for text, want in before_first:
        yield Case(f"before the first line {text!r}", text + first + b"\r\n\r\n", want)
    first_lines: Sequence[tuple[bytes, Want]] = [
            (b"GET /places HTTP/1.0", 0), (b"GET /places HTTP/1.2", 1), (b"GET /places HTTP/2.0", 1), (b"GET /places HTTP/0.9", 1),
            (b"GET /places HTTP/1", 1),
            (b"GET /places HTTP/1.", 1), (b"GET /places HTTP/1.10", 1), (b"GET /places HTTP/11", 1), (b"GET /places http/1.1", 1),
            (b"GET /places Http/1.1", 1),
            (b"GET /places", 1), (b"GET /places ", 1), (b"GET /places HTTP/1.1 ", 1), (b"GET /places  HTTP/1.1", 1), (b"GET  /places HTTP/1.1", 1),
            (b"GET\t/places HTTP/1.1", 1), (b"GET /places\tHTTP/1.1", 1), (b"GET HTTP/1.1", 1), (b"GET  HTTP/1.1", 1), (b"/places HTTP/1.1", 1),
            (b" /places HTTP/1.1", 1), (b"GET /pla ces HTTP/1.1", 1), (b"GET /pla\x7fces HTTP/1.1", 1), (b"GET /pla\x00ces HTTP/1.1", 1),
            (b"G(T /places HTTP/1.1", 1),
            (b"G\xc3\x89T /places HTTP/1.1", 1), (b"GET /\xc3\xa9 HTTP/1.1", NO_PATH), (b"GET /\xe9 HTTP/1.1", 1), (b"GET /places\xc3 HTTP/1.1", 1),
            (b"GET /\xed\xa0\x80 HTTP/1.1", 1), (b"GET /\xc0\xaf HTTP/1.1", 1), (b"GET /\xf4\x90\x80\x80 HTTP/1.1", 1),
            (b"GET /requests/\xc3\xa9 HTTP/1.1", 1),
            (b"GET /requests/\xe2\x82 HTTP/1.1", 1), (b"G", 1), (b"\x16\x03\x01\x02\x00\x01\x00", 1), (b"PRI * HTTP/2.0", 1), (b"SSH-2.0-x", 1)]
    for text, want in first_lines:
        yield Case(f"the first line {text!r}", text + b"\r\n\r\n", want)


def bytes_at_each_place() -> Iterator[Case]:
    """Each byte in the method, the target, the version, a name, a value and between them; what the plain reading says of it is wanted."""
    request = b"GET /places HTTP/1.1\r\nName: value\r\n\r\n"
    for at, what in ((0, "before the method"), (1, "in the method"), (4, "before the target"), (6, "in the target"), (11, "behind the target"),
                     (16, "in the version"),
                     (20, "behind the version"), (24, "in a name"), (27, "in place of a colon"), (31, "in a value"), (36, "at the end of a line")):
        for byte in range(256):
            cut = 1 if what == "in place of a colon" else 0
            raw = request[:at - cut] + bytes([byte]) + request[at:]
            yield Case(f"byte {byte:02x} {what}", raw)


# ---- routes

PATHS: Sequence[tuple[str, Want]] = [
    ("/places", 0), ("/requests/1", 0), ("/requests/2", 2), ("/requests/0", 2), ("/requests/4294967295", 2), ("/requests/4294967296", 1),
    ("/requests/99999999999999999999999999", 1), ("/requests/" + "1" * 300, 1), ("/requests/01", 1), ("/requests/00", 1), ("/requests/-1", 1),
    ("/requests/+1", 1), ("/requests/1.0", 1), ("/requests/1e0", 1), ("/requests/0x1", 1), ("/requests/one", 1), ("/requests/%31", 1),
    ("/requests/1?", 1),
    ("/requests/1;", 1), ("/requests/{n}", 1), ("/requests/:n", 1), ("/requests/*", 1), ("/requests/places", 1), ("/requests/١", 1),
    ("/requests/", NO_PATH), ("/requests", NO_PATH), ("/requests/1/", NO_PATH), ("/requests/1/2", NO_PATH), ("//requests/1", NO_PATH),
    ("/requests//1", NO_PATH), ("/Requests/1", NO_PATH), ("/request/1", NO_PATH), ("/requests1", NO_PATH), ("requests/1", NO_PATH),
    ("/history/1/0", 0), ("/history/1/1", 0), ("/history/1/4294967295", 0), ("/history/1/4294967296", 1), ("/history/4294967296/0", 1),
    ("/history/9/0", 2),
    ("/history/0/0", 2), ("/history/x/0", 1), ("/history/1/x", 1), ("/history/x/x", 1), ("/history/01/0", 1), ("/history/1/00", 1),
    ("/history/1", NO_PATH),
    ("/history", NO_PATH), ("/history/", NO_PATH), ("/history/1/", NO_PATH), ("/history//0", NO_PATH), ("/history//", NO_PATH),
    ("/history/1/0/", NO_PATH),
    ("/history/1/0/0", NO_PATH), ("/History/1/0", NO_PATH), ("/report/0/4102444799", 0), ("/report/100/0", 0), ("/report/0/0", 0),
    ("/report/0/4102444800", 1), ("/report/4102444800/0", 1), ("/report/-1/0", 1), ("/report/0/now", 1), ("/report/00/1", 1),
    ("/report/1970-01-01T00:00:00Z/1", 1), ("/report/0", NO_PATH), ("/report/0/", NO_PATH), ("/report//1", NO_PATH),
    ("/report/0/1/", NO_PATH),
    ("/reports/0/1", NO_PATH), ("/places/", NO_PATH), ("/places?", NO_PATH), ("/places?x=1", NO_PATH), ("/places#x", NO_PATH),
    ("/places/1", NO_PATH),
    ("/place", NO_PATH), ("/placess", NO_PATH), ("/PLACES", NO_PATH), ("/pl%61ces", NO_PATH), ("/./places", NO_PATH),
    ("/x/../places", NO_PATH),
    ("//places", NO_PATH), ("places", NO_PATH), ("http://desk/places", NO_PATH), ("http://desk", NO_PATH), ("desk:80", NO_PATH),
    ("*", NO_PATH),
    ("/", NO_PATH), ("//", NO_PATH), ("/nothing", NO_PATH), ("/link", NO_PATH), ("/log/1", NO_PATH), ("/{n}", NO_PATH), ("/acts/", NO_PATH),
    ("/acts?x", NO_PATH), ("/act", NO_PATH), ("/acts/1", NO_PATH), ("/acts", OTHER_METHOD), ("/stacks", OTHER_METHOD),
    ("/procedures", OTHER_METHOD),
    ("/stacks/", NO_PATH), ("/stack", NO_PATH), ("/stacks/s1", NO_PATH),
    ("/waiting", 0), ("/waiting/", NO_PATH), ("/waiting/1", NO_PATH), ("/waiting?", NO_PATH), ("/Waiting", NO_PATH), ("/wait", NO_PATH),
    ("/waitings", NO_PATH), ("//waiting", NO_PATH), ("waiting", NO_PATH),
    ("/board", 0), ("/board/", NO_PATH), ("/board/1", NO_PATH), ("/board?", NO_PATH), ("/board?x=1", NO_PATH), ("/Board", NO_PATH), ("/boards", NO_PATH),
    ("/boar", NO_PATH), ("//board", NO_PATH), ("board", NO_PATH),
    ("/opening", 0), ("/opening/", NO_PATH), ("/opening/1", NO_PATH), ("/opening?", NO_PATH), ("/opening?x=1", NO_PATH), ("/Opening", NO_PATH),
    ("/openings", NO_PATH), ("/openin", NO_PATH), ("/open", NO_PATH), ("//opening", NO_PATH), ("opening", NO_PATH), ("/opening#x", NO_PATH),
    ("/urgent/0", 0), ("/urgent/1", 0), ("/urgent/2", 0), ("/urgent/51", 0), ("/urgent/4294967295", 0), ("/urgent/4294967296", 1), ("/urgent/" + "1" * 300, 1),
    ("/urgent/00", 1), ("/urgent/01", 1), ("/urgent/-1", 1), ("/urgent/+1", 1), ("/urgent/1.0", 1), ("/urgent/one", 1), ("/urgent/%31", 1), ("/urgent/1?", 1),
    ("/urgent/{from}", 1), ("/urgent/١", 1), ("/urgent", NO_PATH), ("/urgent/", NO_PATH), ("/urgent/1/", NO_PATH), ("/urgent/1/2", NO_PATH), ("/urgent//1", NO_PATH),
    ("/Urgent/1", NO_PATH), ("/urgen/1", NO_PATH), ("/urgent1", NO_PATH),
    ("/moves/0", 0), ("/moves/1", 0), ("/moves/2", 0), ("/moves/4294967295", 0), ("/moves/4294967296", 1), ("/moves/" + "1" * 300, 1), ("/moves/00", 1),
    ("/moves/01", 1), ("/moves/-1", 1), ("/moves/+1", 1), ("/moves/1.0", 1), ("/moves/one", 1), ("/moves/%31", 1), ("/moves/1?", 1), ("/moves/{after}", 1),
    ("/moves/١", 1), ("/moves", NO_PATH), ("/moves/", NO_PATH), ("/moves/1/", NO_PATH), ("/moves/1/2", NO_PATH), ("/moves//1", NO_PATH),
    ("/Moves/1", NO_PATH), ("/move/1", NO_PATH), ("/moves1", NO_PATH),
    ("/procedures/x", 16), ("/procedures/0", 16), ("/procedures/desk", 16), ("/procedures/" + "x" * 16, 16), ("/procedures/" + "x" * 17, 1),
    ("/procedures/" + "x" * 300, 1), ("/procedures/X", 1), ("/procedures/a-b", 1), ("/procedures/a.", 1), ("/procedures/%78", 1), ("/procedures/x?", 1),
    ("/procedures/{name}", 1), ("/procedures/-", 1), ("/procedures/é", 1), ("/procedures/", NO_PATH), ("/procedures/x/", NO_PATH),
    ("/procedures/x/1", NO_PATH), ("/procedures//x", NO_PATH), ("/procedures?", NO_PATH), ("/Procedures/x", NO_PATH), ("/procedure/x", NO_PATH),
    ("/proceduresx", NO_PATH), ("/steps/x", NO_PATH), ("/standing/Entered/0", NO_PATH)]


def routes() -> Iterator[Case]:
    """Paths and methods, and the order of the tests of a head."""
    for path, want in PATHS:
        yield Case(f"GET {path[:40]}", get(path), want)
    yield from methods()
    yield from orders_of_tests()


def methods() -> Iterator[Case]:
    """Methods that a path does not have, and that none has."""
    for method in "PUT POST DELETE HEAD OPTIONS PATCH TRACE CONNECT get Get GETT GE X !".split():
        for path in ("/places", "/requests/1", "/requests/x", "/history/1/0", "/report/0/1", "/waiting", "/board", "/opening", "/moves/0", "/moves/x", "/urgent/1", "/urgent/x", "/procedures/p1",
                     "/procedures/P1"):
            yield Case(f"{method} {path}", get(path).replace(b"GET", method.encode(), 1), OTHER_METHOD)
        yield Case(f"{method} /none", get("/none").replace(b"GET", method.encode(), 1), NO_PATH)
    for method in "PUT GET DELETE HEAD OPTIONS PATCH TRACE post Post POSTS POS X".split():
        for path in ("/acts", "/stacks", "/procedures"):
            yield Case(f"{method} {path}", post(path, BODY).replace(b"POST", method.encode(), 1), OTHER_METHOD)
        yield Case(f"{method} /acts/", post("/acts/", BODY).replace(b"POST", method.encode(), 1), NO_PATH)


def orders_of_tests() -> Iterator[Case]:
    """Heads with two faults, of which one is told."""
    coded = "Transfer-Encoding: chunked"
    orders: Sequence[tuple[str, bytes, Want]] = [
            ("no path before the method", post("/none", BODY), NO_PATH), ("no path before a coding", post("/none", BODY, coded), NO_PATH),
            ("no path before a length", post("/none", BODY, length="x"), NO_PATH),
            ("no path before a long body", post("/none", "", length=65537), NO_PATH),
            ("a bad head before no path", post("/none", BODY, "a b"), 1), ("the method before a coding", post("/places", BODY, coded), OTHER_METHOD),
            ("the method before a length", post("/places", BODY, length="x"), OTHER_METHOD),
            ("the method before a long body", post("/places", "", length=65537), OTHER_METHOD),
            ("the method before a number", post("/requests/x", BODY), OTHER_METHOD), ("no path before a number", get("/requests/x/"), NO_PATH),
            ("a coding before a long body", post("/acts", "", coded, length=65537), 1),
            ("a length before a long body", post("/acts", "", length="65537x"), 1),
            ("two lengths before a long body", post("/acts", "", "Content-Length: 65537", length=65537), 1),
            ("a long body before it has come", post("/acts", "", length=65537), 17),
            ("a long body before its JSON", post("/acts", "x", length=65537), 17),
            ("a long head before all", post("/acts", BODY, *["a: b"] * 62), 17),
            ("no path of a body that is cut", post("/none", "", length=50), NO_PATH)]
    for name, raw, want in orders:
        yield Case(name, raw, want)


def lengths() -> Iterator[Case]:
    """Content-Lengths and transfer codings."""
    yield from lengths_of_posts()
    yield from lines_beside()
    yield from lengths_of_gets()
    yield from doors()
    yield from lengths_of_bodies()


def bare() -> bytes:
    """A POST of an act without its Content-Length."""
    return post("/acts", BODY).replace(b"Content-Length: %d\r\n" % len(BODY), b"")


def lengths_of_posts() -> Iterator[Case]:
    """Content-Lengths of a POST in many spellings."""
    size = len(BODY)
    yield Case("no Content-Length", bare(), 1)
    for value, want in [
            (f"{size}", 0), (f" {size}", 0), (f"\t {size} \t", 0), (f"{size} ", 0), (f"0{size}", 1), (f"00{size}", 1), (f"+{size}", 1),
            (f"-{size}", 1), (f"{size}.0", 1),
            (f"{size},{size}", 1), (f"{size}, {size}", 1), (f"{size} {size}", 1), (f"{size};", 1), (f"0x{size:x}", 1), (f"{size}e0", 1),
            (f"'{size}'", 1), ("", 1), (" ", 1),
            ("x", 1), ("-0", 1), ("-1", 1), ("00", 1), ("٦٠", 1), ("65537", 17), ("65538", 17), ("99999", 17), ("100000", 17), ("4294967356", 17),
            ("18446744073709551676", 17), ("340282366920938463463374607431768211516", 17), ("9" * 4000, 17), ("0" + "9" * 40, 1),
            ("9" * 40 + "x", 1), ("065537", 1)]:
        raw = post("/acts", BODY, length="@").replace(b" @\r\n", b":"[1:] + value.encode() + b"\r\n")
        yield Case(f"Content-Length {value[:40]!r}", raw, want)
    for name in ("content-length", "CONTENT-LENGTH", "cOnTeNt-LeNgTh"):
        yield Case(f"{name}", post("/acts", BODY).replace(b"Content-Length", name.encode()), 0)


def lines_beside() -> Iterator[Case]:
    """Header lines beside the length of a POST, and of a GET, which are like it or are not."""
    size = len(BODY)
    for line, want in [
            (f"Content-Length: {size}", 1), (f"content-length: {size}", 1), ("Content-Length: 0", 1), ("Content-Length:", 1),
            ("Content-Length: x", 1),
            ("X-Content-Length: 3", 0), ("Content-Length-X: 3", 0), ("Content_Length: 3", 0), ("Content-Lengt: 3", 0), ("Content-Length : 3", 1),
            ("Transfer-Encoding: chunked", 1), ("Transfer-Encoding:", 1), ("Transfer-Encoding: \t", 1), ("transfer-encoding: identity", 1),
            ("TRANSFER-ENCODING: gzip", 1),
            ("Transfer-Encoding: x\r\nTransfer-Encoding: y", 1), ("X-Transfer-Encoding: chunked", 0), ("TE: chunked", 0),
            ("Transfer-Encodings: chunked", 0),
            ("Content-Encoding: gzip", 0), ("Content-Type: text/plain", 0), ("Expect: 100-continue", 0), ("Upgrade: h2c", 0)]:
        yield Case(f"beside its length {line!r}", post("/acts", BODY, line), want)
        at_front = post("/acts", BODY).replace(b"Host: 127.0.0.1\r\n", f"{line}\r\nHost: 127.0.0.1\r\n".encode())
        yield Case(f"before its length {line!r}", at_front, want)
        for path in ("/places", "/opening"):
            yield Case(f"a GET of {path} with {line!r}", get(path, line), 0 if line == "Content-Length: 0" else want)
    yield Case("a coding and no length", bare().replace(b"Host: 127.0.0.1", b"Transfer-Encoding: chunked"), 1)


def doors() -> Iterator[Case]:
    """Hosts, and what browsers say of the page that sends a request."""
    hosts: Sequence[tuple[str, Want]] = [
            ("127.0.0.1", 0), ("localhost", 0), ("LocalHost", 0), ("\t127.0.0.1 ", 0), ("", FOREIGN), ("desk", FOREIGN), ("evil.example", FOREIGN), ("127.0.0.1:1", FOREIGN),
            ("127.0.0.1:", FOREIGN), ("127.0.0.10", FOREIGN), ("[::1]", FOREIGN), ("localhost.", FOREIGN), ("127.0.0.1, evil.example", FOREIGN), ("x127.0.0.1", FOREIGN)]
    for host, want in hosts:
        called = f"Host: {host}".encode()
        yield Case(f"a GET of host {host!r}", get("/places").replace(b"Host: 127.0.0.1", called), want)
        yield Case(f"the opening asked of host {host!r}", get("/opening").replace(b"Host: 127.0.0.1", called), want)
        yield Case(f"a POST to host {host!r}", post("/acts", BODY).replace(b"Host: 127.0.0.1", called), want)
        yield Case(f"a GET of no path of host {host!r}", get("/none").replace(b"Host: 127.0.0.1", called), want or NO_PATH)
    yield Case("no host", get("/places").replace(b"Host: 127.0.0.1\r\n", b""), 0)
    yield Case("a POST with no host", post("/acts", BODY).replace(b"Host: 127.0.0.1\r\n", b""), 0)
    yield Case("two hosts", get("/places", "Host: 127.0.0.1"), FOREIGN)
    lines: Sequence[tuple[str, Want]] = [
            ("Origin: http://127.0.0.1", 0), ("Origin: https://localhost", 0), ("Origin: http://LOCALHOST", 0), ("Origin: null", FOREIGN), ("Origin:", FOREIGN), ("Origin: http://", FOREIGN),
            ("Origin: http://evil.example", FOREIGN), ("Origin: https://evil.example", FOREIGN), ("Origin: http://127.0.0.1:1", FOREIGN), ("Origin: ftp://127.0.0.1", FOREIGN),
            ("Origin: HTTP://127.0.0.1", FOREIGN), ("Origin: 127.0.0.1", FOREIGN), ("Origin: http://127.0.0.1/", FOREIGN), ("Origin: http://127.0.0.1.evil.example", FOREIGN),
            ("Origin: http://127.0.0.1\r\nOrigin: http://127.0.0.1", FOREIGN), ("oRIGIN: http://evil.example", FOREIGN), ("X-Origin: http://evil.example", 0),
            ("Sec-Fetch-Site: same-origin", 0), ("Sec-Fetch-Site: none", 0), ("Sec-Fetch-Site: same-site", FOREIGN), ("Sec-Fetch-Site: cross-site", FOREIGN),
            ("Sec-Fetch-Site: None", FOREIGN), ("Sec-Fetch-Site:", FOREIGN), ("Sec-Fetch-Site: none\r\nSec-Fetch-Site: none", FOREIGN),
            ("Sec-Fetch-Site: same-origin\r\nOrigin: null", FOREIGN), ("Sec-Fetch-Site: cross-site\r\nOrigin: http://127.0.0.1", FOREIGN)]
    for line, want in lines:
        yield Case(f"a POST with {line!r}", post("/acts", BODY, line), want)
        yield Case(f"a POST to no path with {line!r}", post("/none", BODY, line), want or NO_PATH)
        yield Case(f"a GET with {line!r}", get("/places", line), 0)
        yield Case(f"a DELETE with {line!r}", get("/acts", line).replace(b"GET", b"DELETE"), OTHER_METHOD)


def lengths_of_gets() -> Iterator[Case]:
    """Content-Lengths of a GET."""
    for value, want in [("0", 0), (" 0 ", 0), ("\t0", 0), ("1", 1), ("00", 1), ("-0", 1), ("+0", 1), ("", 1), ("0,0", 1), ("0.0", 1), ("65536", 1),
                        ("65537", 1), ("9" * 40, 1)]:
        yield Case(f"a GET with Content-Length {value[:40]!r}", get("/places", f"Content-Length:{value}"), want)
        yield Case(f"a GET of a request with Content-Length {value[:40]!r}", get("/requests/77", f"Content-Length:{value}"), want or 2)
        yield Case(f"a GET of the opening with Content-Length {value[:40]!r}", get("/opening", f"Content-Length:{value}"), want)
    yield Case("a GET with two lengths of 0", get("/places", "Content-Length: 0", "Content-Length: 0"), 1)
    yield Case("a GET with a coding and a length of 0", get("/places", "Content-Length: 0", "Transfer-Encoding: chunked"), 1)


def lengths_of_bodies() -> Iterator[Case]:
    """Bodies that are not as long as their length, and those at the limit."""
    size = len(BODY)
    lengths_told: Sequence[tuple[int, Want]] = [(0, 0), (1, NOTHING), (1000, NOTHING), (-1, 1), (-size, 1)]
    for more, want in lengths_told:
        yield Case(f"a length of {more} bytes more than come", post("/acts", BODY, length=size + more), want)
    for end in ("\r\n", "\n"):
        yield Case("a whole body of 65,536 bytes", post("/acts", BODY + " " * (65536 - size), end=end), 0)
        yield Case("a body of 65,537 bytes", post("/acts", BODY + " " * (65537 - size), end=end), 17)
        yield Case("a length of 65,536 and a body that is cut", post("/acts", BODY + " " * (65535 - size), length=65536, end=end), NOTHING)
        for more, want in ((0, 0), (1, 17)):
            yield Case(f"a head of {8192 + more} bytes and a body of 65,536", sized(8192 + more, " " * (65536 - size) + BODY, end), want)


def behind() -> Iterator[Case]:
    """Bytes behind a request, which are never read."""
    size = len(BODY)
    for name, more in [("a second GET", PLACES), ("a second act", act("withdraw 1")), ("garbage", b"\x00\xff" * 50), ("CR LF", b"\r\n"),
                       ("a long second head", padded(9000))]:
        yield Case(f"a GET and {name}", PLACES + more, 0)
        yield Case(f"an act and {name}", act(ENTRY) + more, 0)
        yield Case(f"no path and {name}", get("/none") + more, NO_PATH)
        yield Case(f"a bad head and {name}", b"GET\r\n\r\n" + more, 1)
        yield Case(f"no JSON and {name}", post("/acts", "{") + more, 1)
    yield Case("a body that is longer than its length", post("/acts", BODY + "}}", length=size), 0)
    yield Case("a GET with a body that nobody announced", PLACES + BODY.encode(), 0)
    yield Case("a GET with a body of 65,000 bytes that nobody announced", PLACES + b"x" * 65000, 0)
    yield Case("an act and 200,000 bytes", act(ENTRY) + b"x" * 200000, 0)
