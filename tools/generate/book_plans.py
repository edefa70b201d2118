"""Scripts of a plan about the book: what random ones do not meet, since it takes very many lines, or lies at the border of what a number, a name
or a line may be. Each is a function that writes its script, the same each time.
"""
import itertools
from typing import Callable, Iterable

from generate.scripts import Written
from generate.texts import procedure_text, stack_text
from model.facts import (COUNTS, LAST_MOMENT, LAST_NUMBER, LONGEST_ACT, LONGEST_TEXT, MARK, MOST_EXECUTIONS, MOST_INSERTED, MOST_PROCEDURES, MOST_REQUESTS,
                         MOST_ROWS, MOST_SHOWN, MOST_STACKS, MOST_STEPS, PLACE_WORDS, STACK_HEADER)

PLAIN = "enter {} ---- no 8 1 - - ok"


def say_all(script: Written, lines: Iterable[str], by: str = "ann") -> None:
    """Some acts, each on a line of its own."""
    for line in lines:
        script.say(f"0 {by} {line}")


def fly(script: Written, *requests: int) -> None:
    """Requests are released, taken on board and carried out, one after the other, and what comes down is read."""
    for request in requests:
        say_all(script, [f"release {request}", "up", "work", "down", "down"])


def stand_everywhere(script: Written) -> None:
    """Requests 1 to 15, of application process 7, come to stand at each place; 16 to 19 are commands of the schedule."""
    acks = ["---c", "----", "a--c"] + ["----"] * 7 + ["a---", "a---", "a---", "-s--", "----"]
    say_all(script, [f"enter 7 {ack} no 8 1 - - {'fail/16' if at == 2 else 'ok'}" for at, ack in enumerate(acks, 1)])
    say_all(script, [f"enter 8 ---c no 11 {it} ok" for it in ("4 3 100", "5 3 -", "4 11 100", "4 12 100")])
    say_all(script, [f"approve {it}" for it in (1, 2, 3, 4, *range(7, 20))], "bob")
    say_all(script, ["initiate none", "release 15", "terminate", "up", "work", "initiate none"])
    fly(script, 1, 2, 16, 17, 19, 14)
    say_all(script, ["release 13", "up", "down", "work", "release 4", "release 10", "release 18", "up", "up", "up", "work", "work", "clcw",
                     "down", "close 4", "withdraw 5", "set k 1", "release 9", "release 8", "places"])


def identities() -> Written:
    """All identities of one application process are given out, and are free again once a request is at its end; then the desk is filled."""
    script = Written("identities run out")
    for name, text in (("seven", stack_text(7)), ("two", stack_text(9, 7)), ("one", stack_text(9)), ("pair", stack_text(9, 9)),
                       ("sevens", stack_text(7, 7)), ("many", stack_text(*[100 + it % 10 for it in range(MOST_ROWS)]))):
        script.file(text, name)
    script.file(f"{STACK_HEADER}\n1,7,8,1,,,----,no,,ok\n2,7,11,4,1,1970-01-01T00:00:00Z,---c,no,,ok\n".encode(), "barred")
    stand_everywhere(script)
    again = PLAIN.format(7)
    say_all(script, [again] * (COUNTS - 15) + [again] * 6 + ["withdraw 6", again, again, "withdraw 7", again, again, "up", "clcw", "down", again,
                     "up", "clcw", "down", again, "close 8", again])
    for number in range(9, 16):
        say_all(script, [again, f"close {number}", again])
    # Every other test comes before it or behind it, in its place.
    say_all(script, [again, "enter 7 ---c no 11 4 99999 0 ok", "enter 7 ---c no 11 4 2 0 ok", "enter 7 ---c no 11 5 2 - ok", "stack s seven",
                     "stack s two", "stack s barred", "stack s one", "stack s seven", "stack s barred", "places"])
    # Identities 15 to 18, which come next, are those of requests 20 to 23; a row takes one that the row before it leaves.
    say_all(script, ["stack t sevens", "withdraw 20", "stack t sevens", "stack t two", "stack t two", "stack u seven", "withdraw 22", "stack u seven",
                     "withdraw 21", "stack u sevens", "stack v seven", "withdraw 23", "stack v seven", "places"])
    fill_desk(script)
    return script


def fill_desk(script: Written) -> None:
    """Requests are loaded until there are as many as may be; what is refused then, and what is not."""
    loads, rest = divmod(MOST_REQUESTS - 1 - len(script.book.requests), MOST_ROWS)
    script.file(stack_text(*[99] * rest), "rest")
    say_all(script, [f"stack m{it} many" for it in range(loads)] + ["stack rest rest", "places", "stack p pair", PLAIN.format(100)])
    say_all(script, [PLAIN.format(100), PLAIN.format(7), "enter 7 ---c no 11 5 65536 - ok", "stack p one", "stack p seven", "stack s one",
                     "stack p barred", "withdraw 65536", "withdraw 65535", "request 65535", "history 65535 0", PLAIN.format(100), "stack p many",
                     "enter 101 ---c no 11 1 - - ok", "enter 101 ---c no 11 5 1 - ok", "waiting", "standing Entered 0", "standing Entered 65484",
                     "standing Entered 65535", "moves 65000", "places"])


def loads() -> Written:
    """As many stacks and procedures are loaded as may be."""
    script = Written("1,000 stacks and 1,000 procedures")
    for name, text in (("one", stack_text(5)), ("steps", procedure_text("", 1)), ("none", procedure_text(9999)), ("bad", b"line\n1\n"),
                       ("long", b"\n" * (LONGEST_TEXT + 1))):
        script.file(text, name)
    say_all(script, [f"stack s{it} one" for it in range(MOST_STACKS)])
    say_all(script, ["stack more one", "stack s7 one", "stack more bad", "stack more long", "stack s7 bad", "places", "approvestack more"])
    script.say("1 bob approvestack s999")
    script.say("1 bob waiting")
    say_all(script, [f"procedure p{it} steps" for it in range(MOST_PROCEDURES)])
    say_all(script, ["procedure more steps", "procedure more none", "procedure p7 none", "procedure p7 bad", "procedure more long",
                     "begin more", "begin p999", "steps p999", "steps more", "log 1", "step 1 1 skipped -", PLAIN.format(5), "release 1000", "places"])
    script.say("1 bob approve 1001")
    return script


def full_stacks() -> Written:
    """Stacks are loaded until the last one fits to the row."""
    script = Written("a desk that stacks fill")
    for size in (1, 135, 136, 200):
        script.file(stack_text(*[it % 10 for it in range(size)]), f"rows{size}")
    say_all(script, [f"stack s{it} rows200" for it in range(327)])
    say_all(script, ["stack last rows200", "stack last rows136", "stack last rows135", "stack more rows1", PLAIN.format(5), "approve 65535"])
    script.say("1 bob approvestack last")
    say_all(script, ["request 65400", "request 65401", "request 65535", "request 65536", "places"])
    return script


def executions() -> Written:
    """As many executions are begun as may be."""
    script = Written("10,000 executions")
    script.file(procedure_text("", ""), "steps")
    say_all(script, ["procedure p steps"] + ["begin p"] * (MOST_EXECUTIONS + 1) + ["begin q", "step 10000 1 done -", "log 10000", "log 10001",
                     "step 10001 1 done -", "step 10000 2 failed bob", "log 10000", "step 10000 3 done -", "begin p", "step 1 1 skipped -", "log 1",
                     "waiting"])
    return script


def history() -> Written:
    """A request that is released and given back again and again, and its history from each of its rows on."""
    script = Written("a long history")
    say_all(script, [PLAIN.format(5), "set k 1"])
    script.say("1 bob approve 1")
    for number in range(2, 32):
        say_all(script, [PLAIN.format(5), "initiate none"])
        script.say(f"{number} bob approve {number}")
        say_all(script, [f"release {number}", "release 1", f"release {number}", "terminate", "up", "work", "history 1 0"])
    seqs = [it.seq for it in script.book.rows_of[1]]
    say_all(script, [f"history 1 {after}" for seq in seqs for after in (seq - 1, seq)] + [f"history 1 {LAST_NUMBER}", "report 0 99"])
    return script


def pages() -> Written:
    """Requests stand at each place, and some more than one answer shows at some of them: what waits, and the pages of all, from each of their borders on."""
    script = Written("pages")
    stand_everywhere(script)
    for name, count in (("fifty", MOST_SHOWN), ("more", MOST_SHOWN + 1), ("many", MOST_ROWS)):
        script.file(stack_text(*[20] * count), name)
        behind = len(script.book.requests)
        say_all(script, [f"stack {name} {name}", *(f"standing Entered {behind + it}" for it in (-1, 0, 1)), "waiting"])
    say_all(script, ["approvestack more", "approvestack many", *(f"withdraw {20 + it}" for it in range(MOST_SHOWN))], "bob")
    say_all(script, ["waiting", *(f"standing {it} 0" for it in PLACE_WORDS)])
    for place, first in (("Withdrawn", 20), ("Approved", 20 + MOST_SHOWN), ("Approved", len(script.book.requests) - MOST_SHOWN)):
        say_all(script, [f"standing {place} {first + it}" for it in range(-3, 3)])
    for first in (0, MOST_SHOWN, len(script.book.history) - MOST_SHOWN, len(script.book.history)):
        say_all(script, [f"moves {first + it}" for it in range(-3, 3) if first + it >= 0])
    say_all(script, [f"moves {LAST_NUMBER}", f"standing Approved {LAST_NUMBER}", "places"])
    return script


def full_lists() -> bytes:
    """The text of a stack of 200 rows, of which 8 are plain and each other inserts those 8, in another order than the one before."""
    time, rows = "1970-01-01T00:01:00Z", [f"{line},{line},8,1,,,a--c,no,,ok" for line in range(1, MOST_INSERTED + 1)]
    for line in range(len(rows) + 1, MOST_ROWS + 1):
        named = [str(1 + (line + at) % MOST_INSERTED) for at in range(MOST_INSERTED)]
        rows.append(f"{line},9,11,4,{';'.join(named)},{';'.join([time] * MOST_INSERTED)},---c,no,,ok")
    return "".join(f"{it}\n" for it in [STACK_HEADER, *rows]).encode()


def long_stacks() -> Written:
    """Three stacks of 200 rows, which are approved, and some of whose rows are withdrawn before: of one all rows but 8 are inserts of 8."""
    script = Written("stacks of 200 rows")
    rows = [f"{line},{line % 10},8,{line},,,aspc,{'yes' if line == 200 else 'no'},{line - 1 if line % 2 == 0 else ''},ok" for line in range(1, 201)]
    script.file(MARK + "\r\n".join([STACK_HEADER] + rows).encode(), "long")
    script.file("\r".join([STACK_HEADER] + rows).replace("yes", "no").encode(), "plain")
    script.file(full_lists(), "lists")
    say_all(script, ["stack a long", "stack b plain", "stack c lists", "withdraw 7", "withdraw 200", "withdraw 400"])
    for line in ("0 bob waiting", "1 bob approvestack a", "1 bob waiting", "2 bob approvestack b", "3 cid approvestack b", "3 cid approvestack a",
                 "4 eve approvestack a", "5 bob waiting", "5 bob places", "5 bob request 200", "5 bob request 399", "5 bob initiate none", "5 bob release 2", "5 bob release 9",
                 "6 bob approvestack c", "6 bob request 409", "6 bob request 600", "6 bob release 409", "6 bob release 600", "6 bob terminate",
                 "6 bob waiting", "6 bob places"):
        script.say(line)
    return script


# ---- borders

NUMBERS = ["0", "1", "2", "3", "10", "15", "16", "255", "256", "2047", "2048", "65535", "65536", str(LAST_MOMENT), str(LAST_MOMENT + 1),
           str(LAST_NUMBER), str(LAST_NUMBER + 1), "18446744073709551616", "9" * 40, "00", "01", "-0", "-1", f"-{LAST_MOMENT}", f"-{LAST_MOMENT + 1}",
           "+1", "1.0", "1e1", "0x1", "", "-", "a", "\u00b2".encode().decode("latin-1")]
NUMBERED = ["enter {} ---- no 8 1 - - ok", "enter 5 ---- no {} 1 - - ok", "enter 5 ---- no 8 {} - - ok", "enter 5 ---c no 11 {} - - ok",
            "enter 5 ---c no 11 {} 1 - ok", "enter 5 ---c no 11 {} 1 60 ok", "enter 5 ---c no 11 {} - 60 ok", "enter 5 ---c no 11 4 {} 60 ok",
            "enter 5 ---c no 11 5 {} - ok", "enter 5 ---c no 11 7 {} -60 ok", "enter 5 ---c no 11 4 1 {} ok", "enter 5 ---c no 11 7 1 {} ok",
            "enter 5 ---c no 11 4 1;{} 60;60 ok", "enter 5 ---c no 11 4 {};1 60;60 ok", "enter 5 ---c no 11 4 1;2 60;{} ok", "enter 5 ---c no 11 5 1;{} - ok",
            "enter 5 ---c no 11 15 - {} ok", "enter 5 ---- no 8 1 {} - ok", "enter 5 ---- no 8 1 - {} ok", "enter 5 ---- no 8 1 - - ok/{}",
            "enter 5 ---- no 8 1 - - refuse/{}", "enter 5 ---- no 8 1 - - nostart/{}", "enter 5 ---- no 8 1 - - halt/{}/16",
            "enter 5 ---- no 8 1 - - halt/9/{}", "enter 5 ---- no 8 1 - - fail/{}", "withdraw {}", "approve {}", "release {}", "close {}",
            "request {}", "history {} 0", "history 1 {}", "log {}", "moves {}", "standing Approved {}", "standing {} 0", "step {} 1 done -",
            "step 1 {} failed -", "set k {}", "set t1 {}", "set limit {}", "set vs {}", "initiate setvr {}", "loseup {}", "losedown {}", "clock {}",
            "report {} 9", "report 0 {}", "{}", "places {}", "link {}", "schedule {}", "waiting {}", "tick {}", "terminate {}", "initiate none {}", "up {}",
            "down {}", "work {}", "clcw {}"]
NAMES = ["a", "0", "z9", "x" * 16, "x" * 17, "", "A", "a-b", "a_b", "desk", "a\0", "\xff", "-", "a b"]
NAMED = ["begin {}", "steps {}", "approvestack {}", "stack {} one", "procedure {} steps", "step 2 1 done {}", "step 3 1 {} -"]


def borders() -> Written:
    """Each number of each line at the borders of what it may be, and spelled otherwise; and so each name and each word."""
    script = Written("borders")
    for name, text in (("one", stack_text(5)), ("steps", procedure_text("", "", ""))):
        script.file(text, name)
    say_all(script, ["enter 5 a--- no 8 1 - - ok"] * 2 + ["procedure p steps", "begin p", "begin p", "begin p", "initiate none"])
    say_all(script, [line.format(it) for line in NUMBERED for it in NUMBERS])
    say_all(script, [line.format(it) for line in NAMED for it in NAMES])
    words = [word for it in PLACE_WORDS for word in (it, it.lower(), it.upper(), it[:-1], f"{it}x", f"{it} ")]
    say_all(script, [line.format(it) for line in ("standing {} 0", "standing {}", "standing 0 {}") for it in [*words, "Nowhere", "open", "places"]])
    for it in NUMBERS:
        script.say(f"{it} ann places")
    for it in NAMES:
        script.say(f"1 {it} places")
    acks = ["".join(it) for it in itertools.product("a-", "s-", "p-", "c-")] + ["ASPC", "a---c", "---", "saaa", "cpsa", "", "----c"]
    say_all(script, [line.format(it) for line in ("enter 6 {} no 8 1 - - ok", "enter 6 {} yes 11 1 - - ok") for it in acks])
    say_all(script, [f"enter 6 ---c {it} 8 1 - - ok" for it in ("yes", "no", "Yes", "y", "", "maybe", "1")])
    say_all(script, [f"enter 6 ---c no 11 1 - - {it}" for it in ("ok", "ok/1", "fail/16", "OK", "ok/", "/ok")])
    say_all(script, ["places", "history 1 0", "schedule", "link"])
    return script


def lengths() -> Written:
    """Acts of 200 bytes, and of 201; names of files of some lengths and letters; and lines of few words."""
    script = Written("lengths")
    for kind, text in (("stack", stack_text(5)), ("procedure", procedure_text(""))):
        for size in (LONGEST_ACT - 1, LONGEST_ACT, LONGEST_ACT + 1, LONGEST_ACT + 20):
            script.say(f"{LAST_MOMENT} a234567890123456 {kind} n{size} " + script.file(text, kind[0] * (size - len(f"{kind} n{size} "))))
        path = script.file(text, f"{kind}-\u00fc\u4e2d.csv").encode().decode("latin-1")
        script.files[path] = script.files[path.encode("latin-1").decode("utf-8")]
        say_all(script, [f"{kind} letters {script.file(text, kind)}", f"{kind} other {kind} ", f"{kind} other  {kind}", f"{kind}  other {kind}",
                         f"{kind} other", f"{kind} other ", f"{kind}", f"{kind} ", f"{kind} \xff {kind}", f"{kind} other \xff"])
    rows = {"stack": stack_text(*[6] * MOST_ROWS), "procedure": procedure_text(*[""] * MOST_STEPS)}
    for kind, text in rows.items():
        last = text.splitlines()[-1] + b"\n"
        say_all(script, [f"{kind} rows {script.file(text + more)}" for more in (last * 101, last, b"")])
        say_all(script, [f"{kind} size{size} {script.file(text + b'x' * (size - len(text)))}" for size in (LONGEST_TEXT, LONGEST_TEXT + 1)])
        say_all(script, [f"{kind} ends{size} {script.file(text + bytes([10]) * (size - len(text)))}" for size in (LONGEST_TEXT, LONGEST_TEXT + 1)])
    longest = [";".join([str(it)] * MOST_INSERTED) for it in (LAST_NUMBER, LAST_MOMENT)]
    say_all(script, [f"enter {apid} aspc yes 11 4 {' '.join(longest)} ok" for apid in (5, 50)])  # of 200 bytes, and of 201
    for size in (0, 1, LONGEST_ACT - 1, LONGEST_ACT, LONGEST_ACT + 1, LONGEST_ACT + 2, 5000):
        script.say("0 ann " + "x" * size)
        script.say("no moment " + "x" * size)
        script.say("0 ann places" + " " * size)
        script.say("x" * (size + 1))
    for line in (" ", "  ", "   ", "0", "0 ann", "0 ann ", "0  places", " 0 ann places", "0 ann  places", "0 ann places\t", "\t# none", " # none",
                 "# a comment", "", "\r", "0 ann places\r", "0 ann places\r\r"):
        script.say(line)
    return script


PLANS: tuple[Callable[[], Written], ...] = (identities, loads, full_stacks, executions, history, pages, long_stacks, borders, lengths)
