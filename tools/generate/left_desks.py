"""Desks as the lines of their first day leave them, and what each opening answers then: all written out by hand."""
from dataclasses import dataclass

from model.facts import PROCEDURE_HEADER, STACK_HEADER

FILES = {
    "one.csv": f"{STACK_HEADER}\n1,6,8,1,,,---c,yes,,ok\n",
    "two.csv": f"{STACK_HEADER}\n1,7,8,1,,,a--c,no,,ok\n2,7,11,4,1,1970-01-01T01:00:00Z,---c,no,1,ok\n",
    "steps.csv": f"{PROCEDURE_HEADER}\n1,look,no,\n2,look again,yes,\n",
    "bad.csv": "line\n1\n",
}


@dataclass
class Day:
    """A run on a desk, opened at a moment: what the opening prints, then lines behind '> ', each before what it is answered, and last the places."""
    moment: int
    text: str

    def lines(self) -> list[str]:
        """The lines that are given."""
        return [it[2:] for it in self.text.splitlines() if it.startswith("> ")]

    def answers(self) -> list[str]:
        """All that has to be printed."""
        return [it for it in self.text.splitlines() if not it.startswith("> ")]


@dataclass
class Left:
    """A desk as the lines of its first day leave it, of which none is refused; and the days that follow."""
    name: str
    lines: str
    days: list[Day]


# Requests 1 to 5 stand at Queued, Sent, Scheduled, Completed and Completed.
FIVE_OPENED = """\
move 23 500 desk 1 Queued Approved open
move 24 500 desk 2 Sent Doubtful open
move 25 500 desk 3 Scheduled Doubtful open
"""
FIVE = Left("five", """\
0 ann enter 5 a--c no 8 1 - - ok
0 ann enter 5 a--c no 8 1 - - ok
0 ann enter 5 a--c no 8 1 - - ok
0 ann enter 5 a--c no 8 1 - - ok
0 ann enter 5 ---c no 11 4 3 1100 ok
0 bob approve 1
0 bob approve 2
0 bob approve 3
0 bob approve 4
0 bob approve 5
0 ann initiate none
0 ann release 5
0 ann up
0 ann work
0 ann down
0 ann release 4
0 ann up
0 ann work
0 ann down
0 ann down
0 ann clcw
0 ann down
0 ann set k 1
0 ann release 2
0 ann release 1
0 ann places
""", [
    Day(500, FIVE_OPENED + "places 5: 0 1 0 0 0 0 0 0 0 2 0 2 0 0 0\n"),
    Day(9000, "places 5: 0 1 0 0 0 0 0 0 0 2 0 2 0 0 0\n"),
    Day(9000, """\
> 600 cid enter 5 a--c no 8 1 - - ok
ok request 6 5/5
move 26 600 cid 6 - Entered enter
> 600 cid history 2 0
history 2: 5
move 2 0 ann 2 - Entered enter
move 7 0 bob 2 Entered Approved approve
move 20 0 ann 2 Approved Queued release
move 21 0 ann 2 Queued Sent transmit
move 24 500 desk 2 Sent Doubtful open
> 601 cid close 3
ok
move 27 601 cid 3 Doubtful Closed close
> 602 cid initiate none
ok
started
> 603 cid release 1
ok
move 28 603 cid 1 Approved Queued release
move 29 603 cid 1 Queued Sent transmit
> 604 cid link
fop S1 vs 1 nn 0 sent 1 wait 0 count 1 timer 10 k 10 t1 10 limit 3
farm Open vr 0 b 0 flags --- w 20
link up 1 down 0 premise kept
places 6: 1 0 0 1 0 0 0 0 0 2 0 1 0 0 1
"""),
    Day(4102444799, """\
move 30 4102444799 desk 1 Sent Doubtful open
places 6: 1 0 0 0 0 0 0 0 0 2 0 2 0 0 1
"""),
])

# An activity rides in an insert that never left the desk, and one in an insert that was sent.
RIDERS = Left("riders", """\
0 ann enter 5 a--c no 8 1 - - ok
0 ann enter 5 ---c no 11 4 1 1100 ok
0 ann enter 5 a--c no 8 1 - - ok
0 ann enter 5 ---c no 11 4 3 1100 ok
0 bob approve 1
0 bob approve 2
0 bob approve 3
0 bob approve 4
0 ann initiate none
0 ann set k 1
0 ann release 4
0 ann release 2
""", [
    Day(7, """\
move 14 7 desk 1 Riding Approved open
move 15 7 desk 2 Queued Approved open
move 16 7 desk 3 Riding Doubtful open
move 17 7 desk 4 Sent Doubtful open
places 4: 0 2 0 0 0 0 0 0 0 0 0 2 0 0 0
"""),
    Day(9000, "places 4: 0 2 0 0 0 0 0 0 0 0 0 2 0 0 0\n"),
])

# Activities ride in an insert that was accepted, and in one that was confirmed and closed; a request was confirmed, and one started.
OTHERS = Left("others", """\
1 ann enter 5 a--c no 8 1 - - ok
1 ann enter 5 a--c no 11 4 1 1100 ok
1 ann enter 5 a--c no 8 1 - - ok
1 ann enter 5 ---c no 11 4 3 1100 ok
1 ann enter 5 ---- no 8 1 - - ok
1 ann enter 5 -s-- no 8 1 - - ok
2 bob approve 1
2 bob approve 2
2 bob approve 3
2 bob approve 4
2 bob approve 5
2 bob approve 6
3 ann initiate none
4 ann release 6
4 ann up
4 ann work
4 ann down
5 ann release 2
5 ann up
5 ann down
6 ann release 4
6 ann up
6 ann clcw
6 ann down
6 ann close 4
7 ann release 5
7 ann up
7 ann clcw
7 ann down
""", [
    Day(77, """\
move 28 77 desk 1 Riding Doubtful open
move 29 77 desk 2 Accepted Doubtful open
move 30 77 desk 3 Riding Doubtful open
move 31 77 desk 5 Confirmed Doubtful open
move 32 77 desk 6 Started Doubtful open
places 6: 0 0 0 0 0 0 0 0 0 0 0 5 0 0 1
"""),
    Day(77, "places 6: 0 0 0 0 0 0 0 0 0 0 0 5 0 0 1\n"),
])

# Requests stand at each place that an opening takes them from, and at some others: 1 at Completed, 2 at Started, 3 at Accepted, 4 at Scheduled by
# 5, which is at Completed, 6 at Confirmed. 7 rides in 8, which is at Sent, as 9 to 17 are; 18 rides in 19, which waits at Queued. 20 is at
# Entered, 21 at Approved.
PLAIN, INSERT = "{} no 8 1 - -", "---c no 11 4 {} {}"
ENTERED = (*2 * [PLAIN.format("as-c")], PLAIN.format("a---"), PLAIN.format("a--c"), INSERT.format(4, 1100), PLAIN.format("----"),
           PLAIN.format("a--c"), INSERT.format(7, 1100), *9 * [PLAIN.format("----")], PLAIN.format("a--c"), INSERT.format(18, 1200),
           *2 * [PLAIN.format("----")])
FLOWN = ("initiate none;release 1;up;work;down;down;down;release 2;up;work;down;down;losedown 0;release 3;up;down;work;"
         "release 5;up;work;down;release 6;up;clcw;down;work").split(";")
EVERYWHERE = Left("everywhere", "".join([
    *[f"0 ann enter 5 {it} ok\n" for it in ENTERED], *[f"0 bob approve {it}\n" for it in (*range(1, 20), 21)],
    *[f"0 ann {it}\n" for it in FLOWN], *[f"0 ann release {it}\n" for it in (*range(8, 18), 19)]]), [
    Day(100, """\
move 85 100 desk 2 Started Doubtful open
move 86 100 desk 3 Accepted Doubtful open
move 87 100 desk 4 Scheduled Doubtful open
move 88 100 desk 6 Confirmed Doubtful open
move 89 100 desk 7 Riding Doubtful open
move 90 100 desk 8 Sent Doubtful open
move 91 100 desk 9 Sent Doubtful open
move 92 100 desk 10 Sent Doubtful open
move 93 100 desk 11 Sent Doubtful open
move 94 100 desk 12 Sent Doubtful open
move 95 100 desk 13 Sent Doubtful open
move 96 100 desk 14 Sent Doubtful open
move 97 100 desk 15 Sent Doubtful open
move 98 100 desk 16 Sent Doubtful open
move 99 100 desk 17 Sent Doubtful open
move 100 100 desk 18 Riding Approved open
move 101 100 desk 19 Queued Approved open
places 21: 1 3 0 0 0 0 0 0 0 2 0 15 0 0 0
"""),
    Day(100, """\
> 200 ann link
fop S6 vs 0 nn 0 sent 0 wait 0 count 1 timer 0 k 10 t1 10 limit 3
farm Open vr 0 b 0 flags --- w 20
link up 0 down 0 premise kept
> 200 ann schedule
mirror disabled 0
> 200 ann initiate none
ok
started
> 200 ann release 17
refused 3 WrongPlace
> 200 ann release 19
ok
move 102 200 ann 19 Approved Queued release
move 103 200 ann 18 Approved Riding release
move 104 200 ann 19 Queued Sent transmit
> 200 bob close 17
ok
move 105 200 bob 17 Doubtful Closed close
> 200 ann up
ok accepted 19
places 21: 1 1 0 1 0 1 0 0 0 2 0 14 0 0 1
"""),
])

# Approvals that are not complete, a stack, and an execution go on; the link, the spacecraft and the mirror are new.
GOING = Left("going", """\
1 ann enter 6 ---- yes 8 1 - - ok
2 bob approve 1
3 ann stack s one.csv
4 bob approvestack s
5 ann procedure p steps.csv
6 ann begin p
7 ann step 1 1 done -
8 ann set k 1
8 ann set t1 7
8 ann set limit 1
8 ann clock 500
8 ann initiate unlock
8 ann up
8 ann clcw
""", [
    Day(100, """\
> 101 bob approve 1
refused 6 ApprovedAlready
> 102 cid approve 1
ok approvals 2 of 2
move 3 102 cid 1 Entered Approved approve
> 103 bob approvestack s
refused 6 ApprovedAlready
> 103 ann approvestack s
refused 5 SamePerson
> 104 cid approvestack s
ok approvals 2 of 2
move 4 104 cid 2 Entered Approved approve
> 105 ann stack s one.csv
refused 9 NameUsed
> 105 ann procedure p steps.csv
refused 9 NameUsed
> 106 ann step 1 1 done -
refused 14 StepOutOfOrder
> 106 ann step 1 2 done ann
refused 15 Countersign
> 107 bob step 1 2 skipped eve
ok
> 108 ann log 1
execution 1 p next 0
step 1 7 ann done -
step 2 107 bob skipped eve
> 109 ann begin p
ok execution 2
> 110 ann link
fop S6 vs 0 nn 0 sent 0 wait 0 count 1 timer 0 k 10 t1 10 limit 3
farm Open vr 0 b 0 flags --- w 20
link up 0 down 0 premise kept
> 111 ann clock 1
ok now 1
> 112 ann schedule
mirror disabled 0
> 113 bob approve 2
refused 13 UnknownStack
> 114 ann enter 6 ---- no 8 1 - - ok
ok request 3 6/2
move 5 114 ann 3 - Entered enter
places 3: 1 2 0 0 0 0 0 0 0 0 0 0 0 0 0
"""),
    Day(200, "places 3: 1 2 0 0 0 0 0 0 0 0 0 0 0 0 0\n"),
])

# A row in every table, of which each is changed once: a stack's two requests, one that was entered, a procedure and its execution.
WHOLE = Left("whole", """\
1 ann stack s two.csv
2 bob approvestack s
3 ann enter 5 a--c yes 8 1 - - ok/9
4 cid approve 3
5 ann procedure p steps.csv
6 ann begin p
7 ann step 1 1 done -
8 bob step 1 2 failed cid
""", [Day(9, "places 3: 1 2 0 0 0 0 0 0 0 0 0 0 0 0 0\n")])

# Inserts of several activities, which stand in the rows of cargo from position 2 on: 11, of 1, 2 and 3, is at Sent; 14, of 6 and 5, waits at Queued; 12, of one
# alone, and 15, of 7, 8, 9 and 1, are entered. 10 asks for no report of its acceptance, and 13 is a delete.
LISTS = Left("lists", "".join(["0 ann enter 5 a--c no 8 1 - - ok\n"] * 9) + """\
0 ann enter 5 ---- no 8 1 - - ok
0 ann enter 6 ---c no 11 4 1;2;3 1100;1200;1300 ok
0 ann enter 6 ---c no 11 4 4 1100 ok
0 ann enter 6 ---c no 11 5 1 - ok
0 ann enter 6 ---c no 11 4 6;5 1100;1200 ok
""" + "".join(f"0 bob approve {it}\n" for it in (*range(1, 10), 11, 14)) + """\
0 ann initiate none
0 ann set k 1
0 ann release 11
0 ann release 14
0 ann enter 6 ---c no 11 4 7;8;9;1 100;200;300;400 ok
""", [
    Day(500, """\
move 35 500 desk 1 Riding Doubtful open
move 36 500 desk 2 Riding Doubtful open
move 37 500 desk 3 Riding Doubtful open
move 38 500 desk 5 Riding Approved open
move 39 500 desk 6 Riding Approved open
move 40 500 desk 11 Sent Doubtful open
move 41 500 desk 14 Queued Approved open
places 15: 4 7 0 0 0 0 0 0 0 0 0 4 0 0 0
"""),
    Day(9000, """\
> 9001 cid request 11
request 11 6/0 11/4 ---c no 1;2;3 1100;1200;1300 ok ann Doubtful
> 9001 cid request 12
request 12 6/1 11/4 ---c no 4 1100 ok ann Entered
> 9001 cid request 15
request 15 6/4 11/4 ---c no 7;8;9;1 100;200;300;400 ok ann Entered
> 9002 cid initiate none
ok
started
> 9003 cid release 14
ok
move 42 9003 cid 14 Approved Queued release
move 43 9003 cid 6 Approved Riding release
move 44 9003 cid 5 Approved Riding release
move 45 9003 cid 14 Queued Sent transmit
> 9004 cid close 2
ok
move 46 9004 cid 2 Doubtful Closed close
places 15: 4 4 0 1 0 2 0 0 0 0 0 3 0 0 1
"""),
])

# What is printed as the file of each earlier version is opened that has rows in every table (tools/cases/schema-N).
OF_VERSIONS = {1: Day(500, """\
move 35 500 desk 1 Scheduled Doubtful open
move 36 500 desk 2 Riding Approved open
move 37 500 desk 7 Queued Approved open
move 38 500 desk 11 Sent Doubtful open
places 12: 4 4 0 0 0 0 0 0 0 1 1 2 0 0 0
"""), 2: Day(500, """\
move 42 500 desk 1 Scheduled Doubtful open
move 43 500 desk 2 Riding Approved open
move 44 500 desk 4 Started Doubtful open
move 45 500 desk 6 Queued Approved open
move 46 500 desk 9 Confirmed Doubtful open
move 47 500 desk 13 Sent Doubtful open
places 15: 5 4 0 0 0 0 0 0 0 1 0 4 1 0 0
""")}


# ---- a history that is full

FULL = Left("full", """\
1 ann enter 5 a--c no 8 1 - - ok
1 ann enter 5 a--c no 8 1 - - ok
1 ann enter 5 a--c no 8 1 - - ok
2 bob approve 1
2 bob approve 3
3 ann stack s one.csv
4 ann procedure p steps.csv
5 ann begin p
6 ann initiate none
6 ann release 3
6 ann terminate
""", [
    Day(7, """\
> 10 ann places
places 4: 2 1 0 0 0 0 0 0 0 0 0 1 0 0 0
> 10 ann enter 5 ---- no 8 1 - - ok
ok request 5 5/3
move 990000 10 ann 5 - Entered enter
> 11 ann enter 5 ---- no 8 1 - - ok
refused 18 DeskFull
> 11 ann enter 5 ---c no 11 5 99 - ok
refused 2 UnknownRequest
> 11 ann enter 5 ---c no 11 4 5 0 ok
refused 19 BadActivity
> 12 bob withdraw 99
refused 2 UnknownRequest
> 12 bob withdraw 3
refused 3 WrongPlace
> 12 bob withdraw 2
refused 18 DeskFull
> 13 bob approve 4
refused 13 UnknownStack
> 13 bob approve 1
refused 3 WrongPlace
> 13 ann approve 2
refused 5 SamePerson
> 13 bob approve 2
refused 18 DeskFull
> 14 ann approvestack s
refused 5 SamePerson
> 14 bob approvestack t
refused 13 UnknownStack
> 14 bob approvestack s
refused 18 DeskFull
> 15 ann release 2
refused 4 NotApproved
> 15 ann release 1
refused 11 ServiceNotActive
> 16 ann terminate
refused 18 DeskFull
> 16 ann tick
refused 18 DeskFull
> 16 ann down
refused 18 DeskFull
> 17 ann initiate none
ok
started
> 18 ann release 1
refused 18 DeskFull
> 18 ann terminate
refused 18 DeskFull
> 19 ann close 2
refused 3 WrongPlace
> 19 ann close 3
refused 18 DeskFull
> 20 ann step 9 1 done -
refused 16 UnknownProcedure
> 20 ann step 1 2 done -
refused 14 StepOutOfOrder
> 20 ann step 1 1 skipped -
refused 18 DeskFull
> 21 ann stack s one.csv
refused 9 NameUsed
> 21 ann stack t bad.csv
refused 1 BadText
> 21 ann stack t one.csv
refused 18 DeskFull
> 22 ann procedure q steps.csv
ok procedure q 2
> 22 ann begin q
ok execution 2
> 22 ann set k 3
ok
> 22 ann up
ok nothing
> 22 ann loseup 0
ok nothing
> 22 ann losedown 0
ok nothing
> 22 ann clcw
ok
> 22 ann down
refused 18 DeskFull
> 22 ann work
ok nothing
> 22 ann clock 5
ok now 5
> 22 ann initiate check
refused 12 BadDirective
> 23 ann log 1
execution 1 p next 1
> 23 ann history 3 0
history 3: 5
move 3 1 ann 3 - Entered enter
move 5 2 bob 3 Entered Approved approve
move 7 6 ann 3 Approved Queued release
move 8 6 ann 3 Queued Sent transmit
move 9 6 ann 3 Sent Doubtful doubt
> 23 ann history 1 989990
history 1: 9
move 989991 6 x 1 Queued Approved giveback
move 989992 6 x 1 Approved Queued release
move 989993 6 x 1 Queued Approved giveback
move 989994 6 x 1 Approved Queued release
move 989995 6 x 1 Queued Approved giveback
move 989996 6 x 1 Approved Queued release
move 989997 6 x 1 Queued Approved giveback
move 989998 6 x 1 Approved Queued release
move 989999 6 x 1 Queued Approved giveback
> 23 ann link
fop S1 vs 0 nn 0 sent 0 wait 0 count 1 timer 0 k 3 t1 10 limit 3
farm Open vr 0 b 0 flags --- w 20
link up 0 down 1 premise kept
places 5: 3 1 0 0 0 0 0 0 0 0 0 1 0 0 0
"""),
    Day(24, """\
> 25 ann tick
refused 18 DeskFull
> 25 ann begin q
ok execution 3
places 5: 3 1 0 0 0 0 0 0 0 0 0 1 0 0 0
"""),
])


def fill(last: int) -> str:
    """The statement that puts rows 10 to the last into the history of that desk: request 1 is released and given back, again
    and again."""
    return f"""\
WITH RECURSIVE n(seq) AS (SELECT 10 UNION ALL SELECT seq + 1 FROM n WHERE seq < {last})
INSERT INTO move SELECT seq, 1, 2 + seq % 2, 3 - seq % 2, CASE seq % 2 WHEN 0 THEN 4 ELSE 7 END, 'x', 6 FROM n"""
