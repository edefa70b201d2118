"""Desks of which every table has several rows, and where a request stands at every place. Their scripts are written by hand, and their replies are made by
SQLite.
"""
import shutil
from dataclasses import dataclass

from model.facts import place_word
from model.kept import columns_of, connect, tables_of
from model.rows import ROWS, Tables
from model.sound import why_unsound
from tests.made_files import EARLIER, as_version, keep_replies, make_file, some_replies
from tests.runs import run_kept, write_lines

FILES = {
    "heater.csv": """\
line,apid,service,subtype,target,time,ack,critical,after,outcome
1,7,8,1,,,---c,no,,ok
2,7,8,2,,,a--c,yes,1,ok/3
3,7,11,4,2,2031-05-04T10:00:00Z,---c,no,,ok
4,8,8,3,,,aspc,no,2,halt/2/40
5,7,11,4,4;2,2031-05-04T11:00:00Z;2031-05-04T10:00:00Z,---c,no,4,ok
""",
    "spare.csv": """\
line,apid,service,subtype,target,time,ack,critical,after,outcome
1,9,3,1,,,----,no,,ok
2,9,3,2,,,a---,no,1,refuse/30
""",
    "late.csv": """\
line,apid,service,subtype,target,time,ack,critical,after,outcome
1,9,3,1,,,----,yes,,ok
""",
    "power.csv": """\
step,text,second,request
1,check the battery,no,
2,"switch on, slowly",yes,23
3,check the current,no,
4,say what is seen,yes,
""",
    "panel.csv": """\
step,text,second,request
1,open the panel,no,18
2,close it,no,
""",
}

# Requests 1 to 22, of which one comes to stand at each place; the stacks are 23 to 29, and 30 inserts eight of these.
FORMS = """\
5 a--c no 8 1 - - ok
5 ---c no 11 4 1 600000 ok
5 a--c no 8 2 - - ok
5 ---c no 11 4 3 600060 ok
6 a--- no 8 1 - - ok
6 -s-c no 8 1 - - ok/4
6 ---c no 8 1 - - fail/20
6 asp- no 17 1 - - nostart/255
6 ---- no 17 1 - - refuse/16
5 a--c no 8 3 - - ok
5 ---c no 11 4 10 700000 ok
5 ---c no 11 5 10 - ok
0 ---- no 255 255 - - ok
2047 ---- no 1 1 - - ok
6 ---- no 8 4 - - ok
5 a--c no 8 8 - - ok
6 ---- no 8 5 - - halt/9/16
5 ---c no 11 7 1 -30 ok
6 a--c yes 8 6 - - ok
6 a--c yes 8 7 - - ok
5 ---c no 11 15 - 60 ok
5 ---c no 11 4 19;16 800000;800060 ok
""".splitlines()

DAY = [f"100 ann enter {form}" for form in FORMS] + """\
110 ann stack heater heater.csv
110 eve stack spare spare.csv
120 bob approvestack heater
121 eve approvestack heater
122 bob approve 19
123 eve approve 19
124 bob approve 20
130 ann withdraw 9
140 ann procedure power power.csv
141 cid procedure panel panel.csv
142 ann begin power
143 bob begin power
144 cid begin panel
200 ann initiate none
210 ann step 1 1 done -
211 ann step 1 2 done bob
212 ann up
213 ann work
214 ann down
220 ann release 2
221 ann up
222 ann work
223 ann down
224 ann release 11
225 ann up
226 ann work
227 ann down
228 ann release 12
229 ann up
230 ann work
231 ann down
232 ann release 7
233 ann up
234 ann work
235 ann down
240 ann release 8
241 ann release 13
242 ann loseup 0
243 ann loseup 0
250 ann terminate
251 bob close 13
260 ann set vs 5
261 ann initiate none
270 ann release 14
271 ann up
272 ann clcw
273 ann down
274 ann release 5
275 ann up
276 ann down
280 ann release 6
281 ann up
282 ann work
283 ann work
284 ann work
285 ann down
290 ann step 1 3 skipped eve
291 ann step 2 1 failed -
292 cid step 3 1 skipped -
300 ann release 4
301 ann release 15
310 ann set k 1
320 ann release 22
330 cid enter 5 ---c no 11 4 1;3;5;8;10;16;19;20 900000;900010;900020;900030;900040;900050;900060;900070 ok
""".splitlines()
DAY[22:22] = [f"105 {'eve' if n % 2 else 'bob'} approve {n}" for n in (1, 2, 3, 4, 5, 6, 7, 8, 10, 11, 12, 13, 14, 15, 16, 18, 22)]

NEXT = """\
90000 cid enter 5 a--c no 8 1 - - ok
90001 bob stack late late.csv
90002 ann approvestack late
90010 cid close 14
90020 cid initiate none
90030 cid release 22
90031 cid up
90032 cid work
90033 cid down
90040 bob step 1 4 done joe
90041 cid begin panel
90042 ann step 4 1 done -
90050 cid approvestack late
90060 cid release 24
""".splitlines()


REPLIES = 250  # more than two pages of 100, in which an opening reads them


@dataclass
class Desk:
    """A desk as it was left: its file, its tables and its columns."""
    path: str
    moment: int
    tables: Tables
    columns: dict[str, list[str]]


def left_desk(path: str, moment: int) -> Desk:
    """A desk as its file has it, to be opened at this moment."""
    connection = connect(path, "immutable=1")
    try:
        return Desk(path, moment, tables_of(connection), columns_of(connection))
    finally:
        connection.close()


def make_desks(program: str, folder: str) -> list[Desk]:
    """Runs the scripts: a day at the desk, and the next one on a copy of its file, which has the replies of both. And as programs wrote it that knew no later
    version, of each earlier one: the desk of the first day."""
    for name, text in FILES.items():
        write_lines(f"{folder}/{name}", text.splitlines())
    write_lines(f"{folder}/day.tc", DAY)
    write_lines(f"{folder}/next.tc", NEXT)
    write_lines(f"{folder}/empty.tc", [])
    made = run_kept(program, folder, "day.db", 0, "day.tc")
    keep_replies(f"{folder}/day.db", REPLIES)
    shutil.copy(f"{folder}/day.db", f"{folder}/next.db")
    more = run_kept(program, folder, "next.db", 86400, "next.tc")
    refused = [line for it in (made, more) for line in it.lines if line.startswith("refused")]
    if made.status or more.status or refused:
        raise AssertionError(f"the desks could not be made: {made.status} {more.status} {refused} {made.errors}{more.errors}")
    desks = [left_desk(f"{folder}/day.db", 86400), left_desk(f"{folder}/next.db", 172800)]
    for version in EARLIER:
        make_file(f"{folder}/version{version}.db", as_version(desks[0].tables, version))
        desks.append(left_desk(f"{folder}/version{version}.db", 86400))
    return desks


def lacks(desks: list[Desk]) -> list[str]:
    """What the desks should have and do not: tables of few rows, and places where nobody stands."""
    day = desks[0].tables
    few = [name for name in ROWS if name != "meta" and len(getattr(day, name)) < 2]
    few += [f"the replies of {desk.path}" for desk in desks if desk.tables.reply != some_replies(REPLIES if "reply" in desk.columns else 0)]
    empty = [place_word(t.place) for t in day.tally if t.amount == 0]
    unsound = [why for why in (why_unsound(desk.tables) for desk in desks) if why]
    unknown = [name for desk in desks for name in desk.columns if name not in ROWS]
    return few + empty + unsound + unknown + ([] if len(day.move) >= 60 else ["60 moves"])
