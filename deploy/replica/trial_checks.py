"""What the trial looks at behind its faults: the log, each answer, and all rows of all files, beside the plain desk of tools/model, which carries out the log."""
import json
from collections import defaultdict
from typing import Iterable, NamedTuple, Optional, Sequence

from entry import Entry
from etcd import span
from generate.http_words import get, post
from log import Log
from model.calls import Calls
from model.desk import QUESTIONS, Desk
from model.http import Refused, answer_to
from model.rows import Tables
from tables import digest_of
from tests.plain_runs import kept_tables, unlike
from order import Item, Order, Verdict
from trial_clients import Look, Told, Try
from trial_machines import Member
from words import shortened

SHOWN = 200  # lines of a reply that an answer shows
OPENING, NO_PATH = "/opening", "/none"  # each machine's desk was opened by itself, so the entrance has no path for that


Answer = tuple[int, bytes]  # a status, and a body


class Carried(NamedTuple):
    """A log that the plain desk has carried out: each place, and its answer if it was carried out, the desk in the end, and what was wrong of questions on the way."""
    items: list[Item]
    answers: list[Optional[Answer]]
    desk: Desk
    wrong_looks: list[str]


def items_of(member: Member, name: str) -> list[Item]:
    """The whole log, as of now, with what it says of each place."""
    log = Log(member.opened(), name, member.seal())
    order, entries = Order(1, log.skips()), list[Optional[Entry]]()
    while more := log.entries(len(entries) + 1, log.etcd.ask(span(log.key(len(entries) + 1), log.end, 500))):
        entries += more
    for it in entries:
        order.take(it)
    return [order.items[place] for place in range(1, len(entries) + 1)]


def counts(item: Item) -> bool:
    """Whether it is a post that is to be carried out."""
    return item.entry is not None and item.entry.is_post() and item.verdict is Verdict.GOOD


def carried_out(items: Sequence[Item], first: Tables, looks: Iterable[Look]) -> Carried:
    """What the plain desk makes of a log, opened over the tables with which all desks begin. Each question is asked of it at the place of its answer."""
    calls, answers, faults, looks_at = Calls(Desk.opened(first, 0)), list[Optional[Answer]](), list[str](), defaultdict[int, list[Look]](list)
    for look in looks:
        looks_at[look.place].append(look)
    for it in [Item(0, None, Verdict.GOOD, 0.0), *items]:
        answers.append(answer_by(calls, post(it.entry.path, it.entry.body)) if it.entry and counts(it) else None)
        faults += [f"place {it.place}: {look.path} was answered {look.status} {look.answer[:200]!r}" for look in looks_at.pop(it.place, [])
                   if (look.status, look.answer) != answer_by(calls, get(NO_PATH if look.path == OPENING else look.path))]
    faults += [f"place {look.place} is none: {look.path} was answered {look.status}" for more in looks_at.values() for look in more]
    return Carried(list(items), answers[1:], calls.desk, faults)


def too_late(items: Sequence[Item], seen: Sequence[tuple[float, float]], tries: Iterable[Try]) -> list[str]:
    """Posts that were first given to a desk when nobody was told to wait any more, of those that were sent to the machine that put them into the log."""
    sent, faults = defaultdict[tuple[str, str, bytes], list[Try]](list), list[str]()
    for it in tries:
        sent[it.machine, it.post.path, shortened(*it.post)].append(it)
    for item in items:
        if not item.entry or not counts(item):
            continue
        least, most = seen[item.place] if item.place < len(seen) else (0.0, 0.0)
        mine = sent[item.entry.mark.split("-")[0], item.entry.path, item.entry.body]
        if not any(it.at <= most and least <= it.at + it.seconds for it in mine):
            faults.append(f"place {item.place}: it was begun {[f'{least - it.at:.1f} to {most - it.at:.1f}' for it in mine]} s after it was sent, and "
                          f"{[it.seconds for it in mine]} s were told")
    return faults


def answer_by(calls: Calls, request: bytes) -> Answer:
    """What the plain desk answers to a request."""
    asked = answer_to(request)
    assert asked is not None, "it is a whole one"
    head, body = calls.response(asked).split(b"\r\n\r\n", 1)
    return int(head.split(b" ")[1]), body


def wrong_answers(carried: Carried, told: Iterable[Told]) -> list[str]:
    """Answers that are not those of the plain desk at their places, or of a place that is not carried out; and those of posts that are not there."""
    faults = []
    for it in told:
        if it.place == 0:
            asked = answer_to(post(it.post.path, it.post.body))
            is_right = isinstance(asked, Refused) and answer_by(Calls(Desk()), post(it.post.path, it.post.body)) == (it.status, it.answer)
        else:
            entry = carried.items[it.place - 1].entry
            is_right = (entry is not None and (entry.path, entry.body) == (it.post.path, shortened(*it.post))
                        and carried.answers[it.place - 1] == (it.status, it.answer))
        if not is_right:
            faults.append(f"place {it.place}: {it.post.body[:200]!r} was answered {it.status} {it.answer[:200]!r}")
    return faults


def done_wrongly(tables: Tables, told: Iterable[Told]) -> list[str]:
    """Acts and loads that were accepted, by these answers, and whose reply is not the one that a file keeps under their number."""
    kept = {(it.person, it.number): it.body for it in tables.reply}
    faults = [f"{len(tables.reply)} rows of replies have {len(kept)} callers"] * (len(kept) != len(tables.reply))
    for it in told:
        if it.status != 200:
            continue
        keys, lines = json.loads(it.post.body), json.loads(it.answer)["lines"]
        is_question = it.post.path == "/acts" and keys["act"].split(" ")[0] in QUESTIONS
        body = kept.get((keys["by"], keys["number"]))
        if body is None and is_question:
            continue
        if body is None or not is_question and body.split("\n")[:-1][:SHOWN] != lines:
            faults.append(f"{it.post.body[:200]!r} was answered {lines[:3]}, and kept is {body}")
    return faults


def wrong_files(carried: Carried, members: Sequence[Member]) -> list[str]:
    """Files of desks that have ended whose tables are not those of the plain desk, row by row, or not those of the others, with the numbers of the rows."""
    faults = ["the digests of the files are not the same"] * (len({digest_of(f"{it.folder}/desk/desk.db") for it in members}) > 1)
    for it in members:
        found = kept_tables(f"{it.folder}/desk/desk.db", "mode=rw")
        why = unlike(found, carried.desk.tables()) if found != carried.desk.tables() else ""
        faults += [f"the file of {it.name}: {why}"] * (why != "" or found != carried.desk.tables())
    return faults
