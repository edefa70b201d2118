"""What is put down of the program: the scripts, files, texts and requests are those of the generators, beside the plain desk as it stands."""
import os
import random
import shutil
import tempfile
from dataclasses import replace

from generate import http_calls, http_posts, http_requests, link_scenes
from generate.book_plans import PLANS
from generate.check_random import random_text
from generate.check_texts import all_texts
from generate.http_words import Case, get, numbered
from generate.left_changes import OF_CARGO, OF_FIVE, OF_LISTS, OF_REPLIES, OF_WHOLE, alone
from generate.left_desks import EVERYWHERE, FILES, FIVE, GOING, LISTS, OTHERS, RIDERS, WHOLE
from generate.link_plans import Planner
from generate.link_scripts import SCENES, STYLES, TOLD
from generate.link_writers import Writer
from generate.scripts import Written, book_script
from model.facts import MOST_EXECUTIONS, MOST_PROCEDURES, MOST_STEPS
from model.http import answer_to
from planted.recorded import Exchange, Recorded, Rows, Script, Served, Text, file_of, opening, record, rows_of, run_in, schema_of
from tests.changes import change_file, changed_by
from tests.full_desks import make_desks
from tests.http_peer import Server
from tests.made_files import OLD_DAY, OLDER, make_older
from tests.test_broken import changes_of

TURNS = 1000  # of a script of each style
BOOKS, BOOK_LINES = 4, 1200
TEXTS, CHANGES = 600, 300
KEPT = ("stacks of 200 rows", "borders")


def link_scripts(seed: int) -> list[Script]:
    """Scripts over the link: of each style, by plans, and each scene."""
    writers = [Writer(seed, replace(it, turns=min(it.turns, TURNS))).write() for it in [*STYLES.values(), *TOLD.values()]]
    scenes = {name: words for name, *words in SCENES if name != "same_name"}
    writers += [getattr(link_scenes, name)(seed, *words) for name, words in scenes.items()]
    writers.append(Planner(seed).write())
    options = [{"w": it.w, "vc": it.vc, **({"ring": it.style.ring} if it.style.ring else {})} for it in writers]
    return [Script(f"link {it.style.name}", it.lines, words) for it, words in zip(writers, options)]


def by_written(it: Written, is_kept: bool) -> Script:
    """A script on the book."""
    return Script(f"book {it.title}", it.lines, files=it.files, is_kept=is_kept)


def book_scripts(seed: int) -> list[Script]:
    """Scripts on the book: random ones, of which every second is kept, and those by plans."""
    made = [by_written(book_script(it, BOOK_LINES), it % 2 == 1) for it in range(seed, seed + BOOKS)]
    return made + [by_written(it, it.title in KEPT) for it in (plan() for plan in PLANS)]


def record_texts(program: str, work: str, seed: int, made: Recorded) -> None:
    """Texts that are judged by hand, and random ones, of which `check` tells what there is to tell."""
    made.texts += [Text(it.kind, it.data, it.wanted) for it in all_texts()]
    for kind, data in [random_text(it) for it in range(seed, seed + TEXTS)]:
        with open(f"{work}/text.csv", "wb") as file:
            file.write(data)
        made.texts.append(Text(kind, data, run_in(work, [program, "check", kind, "text.csv"])[1][0]))


def counted(least: int, most: int) -> str:
    """The front of a statement in which n has these numbers as i."""
    return f"WITH RECURSIVE n(i) AS (SELECT {least} UNION ALL SELECT i + 1 FROM n WHERE i < {most})"


def limit_changes(rows: Rows) -> dict[str, list[str]]:
    """What fills a file up to a limit, and past it by one: with procedures, with the steps of one, with executions."""
    procedures, executions = len(rows["procedure"]), len(rows["execution"])
    steps = "INSERT INTO step {} SELECT 'x1', i, 'look', 0, 0 FROM n"
    made: dict[str, list[str]] = {}
    for more in (0, 1):
        added = counted(1, MOST_PROCEDURES - procedures + more)
        made[f"{MOST_PROCEDURES + more} procedures"] = [
            f"INSERT INTO procedure {added} SELECT 'x' || i, 'ann' FROM n", f"INSERT INTO step {added} SELECT 'x' || i, 1, 'look', 0, 0 FROM n"]
        one = ["INSERT INTO procedure VALUES ('x1', 'ann')", steps.format(counted(1, 1))]
        made[f"{MOST_EXECUTIONS + more} executions"] = [
            *one, f"INSERT INTO execution {counted(executions + 1, MOST_EXECUTIONS + more)} SELECT i, 'x1', 'ann', 0 FROM n"]
        made[f"{MOST_STEPS + more} steps"] = [one[0], steps.format(counted(1, MOST_STEPS + more))]
    return made


def record_left(program: str, work: str, made: Recorded) -> None:
    """Desks as their first day left them, opened as they are and as statements by hand changed them; and files of earlier versions of the schema."""
    for older in OLDER:
        folder = tempfile.mkdtemp(dir=work)
        make_older(f"{folder}/older.db", older)
        made.files.append(file_of(f"{folder}/older.db"))
        made.openings.append(opening(program, folder, f"{folder}/older.db", f"{older}", OLD_DAY, older.lines.splitlines()))
    changes = {"five": alone(OF_FIVE), "whole": [*alone(OF_WHOLE), *OF_REPLIES, *OF_CARGO], "lists": OF_LISTS}
    for left in (FIVE, WHOLE, RIDERS, OTHERS, EVERYWHERE, GOING, LISTS):
        folder = tempfile.mkdtemp(dir=work)
        files = {name: text.encode() for name, text in FILES.items()}
        record(program, Script(left.name, left.lines.splitlines(), files=files, is_kept=True), folder)
        made.files.append(file_of(f"{folder}/kept.db"))
        shutil.copy(f"{folder}/kept.db", f"{folder}/copy.db")
        change_file(f"{folder}/copy.db", changed_by(f"UPDATE request SET author = CAST(x'ff{len(left.name):02}' AS TEXT)"))
        made.files.insert(0, file_of(f"{folder}/copy.db"))
        for statements, _ in [((), True), *changes.get(left.name, [])]:
            shutil.copy(f"{folder}/kept.db", f"{folder}/copy.db")
            is_changed = not statements or change_file(f"{folder}/copy.db", changed_by(*statements))
            # (other tables and other statements are not for a reading of rows)
            if is_changed and schema_of(f"{folder}/copy.db") == made.files[-1].schema:
                title = f"{left.name}, {'; '.join(statements)[:300] or 'as it was left'}"
                made.openings.append(opening(program, folder, f"{folder}/copy.db", title, left.days[0].moment))
        shutil.copy(f"{folder}/kept.db", f"{folder}/copy.db")
        for day in left.days:
            title = f"{left.name}, its day at {day.moment}"
            made.openings.append(opening(program, folder, f"{folder}/copy.db", title, day.moment, day.lines(), files))
        for title, filling in limit_changes(made.files[-1].rows).items() if left is WHOLE else ():
            shutil.copy(f"{folder}/kept.db", f"{folder}/copy.db")
            if change_file(f"{folder}/copy.db", changed_by(*filling)):
                made.openings.append(opening(program, folder, f"{folder}/copy.db", f"{left.name}, {title}", left.days[0].moment))


def record_broken(program: str, work: str, seed: int, made: Recorded) -> None:
    """Desks with a request at each place, of which one value or one row was changed."""
    dice, folder = random.Random(seed), tempfile.mkdtemp(dir=work)
    jobs = [(desk, change) for desk in make_desks(program, folder) for change in changes_of(desk, dice)]
    for desk, change in dice.sample(jobs, min(len(jobs), CHANGES)):
        shutil.copy(desk.path, f"{folder}/copy.db")
        if change_file(f"{folder}/copy.db", change):
            made.openings.append(opening(program, folder, f"{folder}/copy.db", change.text, desk.moment))


def record_served(program: str, work: str, made: Recorded) -> None:
    """Lists of requests: what a server answers to each, with the places behind each that may have made an act."""
    lists = [http_requests.sizes, http_requests.heads, http_requests.bytes_at_each_place, http_requests.routes, http_requests.lengths,
             http_requests.behind, http_posts.shapes, http_posts.keys, http_posts.values, http_posts.loads, http_posts.acts, http_posts.fly,
             http_calls.forms, http_calls.repeats, http_calls.loads_again, http_calls.longer]
    for cases in lists:
        folder, sent = tempfile.mkdtemp(dir=work), numbered([*cases(), Case("the places", get("/places"))])
        with Server(program, folder, "desk.db", len(sent)) as server:
            exchanges = [Exchange(it.raw, server.exchange(it.raw, shuts=answer_to(it.raw) is None)) for it in sent]
            server.end()
        made.served.append(Served(f"requests, {cases.__name__}", [], {}, exchanges, rows_of(f"{folder}/desk.db")))


def recorded_by(program: str, seed: int) -> Recorded:
    """All of it."""
    made = Recorded()
    with tempfile.TemporaryDirectory(prefix="planted-", dir="/dev/shm" if os.access("/dev/shm", os.W_OK) else None) as work:
        made.scripts = [*book_scripts(seed), *link_scripts(seed)]
        for script in made.scripts:
            record(program, script, tempfile.mkdtemp(dir=work))
        record_texts(program, work, seed, made)
        record_left(program, work, made)
        record_broken(program, work, seed, made)
        record_served(program, work, made)
    return made
