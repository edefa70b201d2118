"""What lies in the columns of a desk's tables.

Scripts are run on desks that are kept, and each file is read by Python's SQLite. What has to lie in each column of each row of every table is
written out below, by hand, beside the lines that put it there; nothing of it is computed. The statements that make the tables are written out too.
"""
import os
import tempfile
from dataclasses import dataclass, field
from itertools import zip_longest

from model.facts import SCHEMA
from model.kept import connect, sqlite3, statements_of
from model.rows import ROWS
from tests.asked import ASKED
from tests.runs import Tried, run_kept, write_lines

NO_TALLY = "\n".join(f"{place}|0" for place in range(1, 16))

FILES = {
    "long.csv": """\
line,apid,service,subtype,target,time,ack,critical,after,outcome
1,0,8,1,,,a---,no,,ok
2,2047,11,4,1,2031-05-04T10:00:00Z,---c,yes,1,ok
3,5,11,5,1,,---c,no,,ok
4,5,11,7,1,-60,---c,no,2,ok
5,5,11,15,,4102444799,---c,no,4,ok
6,5,255,255,,,aspc,no,5,halt/9/255
""",
    "short.csv": """\
line,apid,service,subtype,target,time,ack,critical,after,outcome
1,5,8,1,,,a--c,no,,ok/1
2,5,11,5,1,,---c,no,1,ok
3,0,11,4,1,1970-01-01T00:00:00Z,a--c,no,,ok
""",
    "lists.csv": """\
line,apid,service,subtype,target,time,ack,critical,after,outcome
1,7,8,1,,,a---,no,,ok
2,7,8,2,,,a---,no,,ok
3,7,8,3,,,a---,no,,ok
4,7,8,4,,,a---,no,,ok
5,7,8,5,,,a---,no,,ok
6,7,8,6,,,a---,no,,ok
7,7,11,4,3;1;2,1970-01-01T00:01:00Z;1970-01-01T00:02:00Z;2031-05-04T10:00:00Z,---c,no,,ok
""",
    "steps.csv": '''\
step,text,second,request
1,it's ~ done,no,
2,"switch on, slowly",yes,1
3,"say ""go""",no,
''',
    "one.csv": f"step,text,second,request\n1,{'~' * 80},yes,1\n",
}


@dataclass
class Case:
    """A desk: the lines of its days, each day behind its moment; what is refused of them; and the rows of its tables, of which none stand here
    that are those of an empty desk."""
    name: str
    days: list[tuple[int, str]]
    refused: int
    rows: dict[str, str] = field(default_factory=dict)


# Requests of every kind, with the least and the greatest of each number. The last four lines enter nothing.
ENTRIES = Case("entries", [(0, """\
0 ann enter 0 ---- no 1 1 - - ok
4102444799 a234567890123456 enter 2047 aspc yes 255 255 - - ok/9
7 bob enter 5 a--- no 8 1 - - refuse/16
7 bob enter 5 -s-- no 8 2 - - nostart/255
7 bob enter 5 --p- no 10 3 - - halt/1/40
7 bob enter 5 ---c no 12 4 - - fail/17
7 bob enter 5 a--c no 8 11 - - ok/1
8 cid enter 6 ---c no 11 1 - - ok
8 cid enter 6 a--c no 11 2 - - ok
8 cid enter 6 -s-c yes 11 3 - - ok
8 cid enter 6 ---c no 11 4 2 4102444799 ok
8 cid enter 6 ---c no 11 4 3 0 ok
8 cid enter 6 ---c no 11 5 1 - ok
8 cid enter 6 ---c no 11 7 1 -4102444799 ok
8 cid enter 6 ---c no 11 7 7 4102444799 ok
8 cid enter 6 ---c no 11 15 - 0 ok
8 cid enter 0 aspc no 11 17 - - ok
9 cid approve 2
9 bob approve 2
9 eve approve 1
10 cid approve 1
10 bob approve 10
10 bob withdraw 10
10 bob approve 10
11 cid enter 6 ---c no 11 5 99 - ok
11 cid enter 6 ---c no 11 4 1 5 ok
""")], 4, {
    "request": """\
1|0|0|0|0|1|1|0|0|ok|ann||0|0|2
2|2047|0|15|1|255|255|0|0|ok/9|a234567890123456||0|0|2
3|5|0|8|0|8|1|0|0|refuse/16|bob||0|0|1
4|5|1|4|0|8|2|0|0|nostart/255|bob||0|0|1
5|5|2|2|0|10|3|0|0|halt/1/40|bob||0|0|1
6|5|3|1|0|12|4|0|0|fail/17|bob||0|0|1
7|5|4|9|0|8|11|0|0|ok/1|bob||0|0|1
8|6|0|1|0|11|1|0|0|ok|cid||0|0|1
9|6|1|9|0|11|2|0|0|ok|cid||0|0|1
10|6|2|5|1|11|3|0|0|ok|cid||0|0|13
11|6|3|1|0|11|4|2|4102444799|ok|cid||0|0|1
12|6|4|1|0|11|4|3|0|ok|cid||0|0|1
13|6|5|1|0|11|5|1|0|ok|cid||0|0|1
14|6|6|1|0|11|7|1|-4102444799|ok|cid||0|0|1
15|6|7|1|0|11|7|7|4102444799|ok|cid||0|0|1
16|6|8|1|0|11|15|0|0|ok|cid||0|0|1
17|0|1|15|0|11|17|0|0|ok|cid||0|0|1
""",
    "move": """\
1|1|0|1|1|ann|0
2|2|0|1|1|a234567890123456|4102444799
3|3|0|1|1|bob|7
4|4|0|1|1|bob|7
5|5|0|1|1|bob|7
6|6|0|1|1|bob|7
7|7|0|1|1|bob|7
8|8|0|1|1|cid|8
9|9|0|1|1|cid|8
10|10|0|1|1|cid|8
11|11|0|1|1|cid|8
12|12|0|1|1|cid|8
13|13|0|1|1|cid|8
14|14|0|1|1|cid|8
15|15|0|1|1|cid|8
16|16|0|1|1|cid|8
17|17|0|1|1|cid|8
18|2|1|2|2|bob|9
19|1|1|2|2|eve|9
20|10|1|13|3|bob|10
""",
    "tally": "1|14\n2|2\n3|0\n4|0\n5|0\n6|0\n7|0\n8|0\n9|0\n10|0\n11|0\n12|0\n13|1\n14|0\n15|0\n",
    "request_approval": "2|cid\n2|bob\n1|eve\n10|bob\n",
})

# Moves of every cause: requests 1 to 10 fly, or are withdrawn; 10 is at Sent as the desk is closed, and 11 is of the second day.
MOVES = Case("moves", [(0, """\
1 ann enter 5 a--c no 8 1 - - ok
1 ann enter 5 ---c no 11 4 1 1000 ok
1 ann enter 5 ---- no 8 1 - - ok
1 ann enter 5 ---- no 8 1 - - ok
1 ann enter 5 ---c no 11 5 1 - ok
1 ann enter 5 a--- no 8 1 - - ok
1 ann enter 5 ---c no 11 4 6 1000 ok
1 ann enter 5 ---c no 11 3 - - ok
1 ann enter 5 ---- no 8 1 - - ok
1 ann enter 5 ---- no 8 1 - - ok
2 bob approve 1
2 bob approve 2
2 bob approve 3
2 bob approve 4
2 bob approve 5
2 bob approve 6
2 bob approve 7
2 bob approve 8
2 bob approve 10
3 cid withdraw 9
4 ann initiate none
5 ann release 2
6 ann up
6 ann work
7 eve down
9 ann release 5
9 ann up
9 ann work
9 eve down
10 ann release 7
10 ann up
10 ann work
10 eve down
11 ann release 8
11 ann up
11 ann work
11 eve down
12 ann clcw
12 ann down
12 ann set k 1
13 ann release 3
14 ann release 4
15 ann up
15 ann clcw
15 zoe down
16 cid close 3
17 ann release 10
18 bob terminate
19 ann up
20 ann initiate none
21 ann release 10
22 ann close 10
22 ann urgent 1
"""), (900, """\
901 ann enter 5 as-- no 8 1 - - fail/20
902 bob approve 11
903 ann initiate none
904 ann release 11
905 ann up
906 eve down
907 ann work
908 eve down
909 eve down
909 eve urgent 2
""")], 1, {
    "request": """\
1|5|0|9|0|8|1|0|0|ok|ann||0|0|14
2|5|1|1|0|11|4|1|1000|ok|ann||0|0|10
3|5|2|0|0|8|1|0|0|ok|ann||0|0|15
4|5|3|0|0|8|1|0|0|ok|ann||0|0|12
5|5|4|1|0|11|5|1|0|ok|ann||0|0|10
6|5|5|8|0|8|1|0|0|ok|ann||0|0|14
7|5|6|1|0|11|4|6|1000|ok|ann||0|0|10
8|5|7|1|0|11|3|0|0|ok|ann||0|0|10
9|5|8|0|0|8|1|0|0|ok|ann||0|0|13
10|5|9|0|0|8|1|0|0|ok|ann||0|0|12
11|5|10|12|0|8|1|0|0|fail/20|ann||0|0|11
""",
    "move": """\
1|1|0|1|1|ann|1
2|2|0|1|1|ann|1
3|3|0|1|1|ann|1
4|4|0|1|1|ann|1
5|5|0|1|1|ann|1
6|6|0|1|1|ann|1
7|7|0|1|1|ann|1
8|8|0|1|1|ann|1
9|9|0|1|1|ann|1
10|10|0|1|1|ann|1
11|1|1|2|2|bob|2
12|2|1|2|2|bob|2
13|3|1|2|2|bob|2
14|4|1|2|2|bob|2
15|5|1|2|2|bob|2
16|6|1|2|2|bob|2
17|7|1|2|2|bob|2
18|8|1|2|2|bob|2
19|10|1|2|2|bob|2
20|9|1|13|3|cid|3
21|2|2|3|4|ann|5
22|1|2|6|4|ann|5
23|2|3|4|5|ann|5
24|2|4|10|9|eve|7
25|1|6|7|10|eve|7
26|5|2|3|4|ann|9
27|5|3|4|5|ann|9
28|5|4|10|9|eve|9
29|1|7|14|11|eve|9
30|7|2|3|4|ann|10
31|6|2|6|4|ann|10
32|7|3|4|5|ann|10
33|7|4|10|9|eve|10
34|6|6|7|10|eve|10
35|8|2|3|4|ann|11
36|8|3|4|5|ann|11
37|8|4|10|9|eve|11
38|6|7|14|12|eve|11
39|3|2|3|4|ann|13
40|3|3|4|5|ann|13
41|4|2|3|4|ann|14
42|3|4|5|6|zoe|15
43|4|3|4|5|zoe|15
44|3|5|15|13|cid|16
45|10|2|3|4|ann|17
46|4|4|12|8|bob|18
47|10|3|2|7|bob|18
48|10|2|3|4|ann|21
49|10|3|4|5|ann|21
50|10|4|12|14|desk|900
51|11|0|1|1|ann|901
52|11|1|2|2|bob|902
53|11|2|3|4|ann|904
54|11|3|4|5|ann|904
55|11|4|8|9|eve|906
56|11|8|9|9|eve|908
57|11|9|11|9|eve|909
""",
    "tally": "1|0\n2|0\n3|0\n4|0\n5|0\n6|0\n7|0\n8|0\n9|0\n10|4\n11|1\n12|2\n13|1\n14|2\n15|1\n",
    "request_approval": "1|bob\n2|bob\n3|bob\n4|bob\n5|bob\n6|bob\n7|bob\n8|bob\n10|bob\n11|bob\n",
})

# A critical stack with a command of each kind, and one whose lines are requests 7 to 9; targets are numbers of requests, lines are not.
STACKS = Case("stacks", [(0, """\
10 ann stack stack0123456789z long.csv
11 bob stack a short.csv
11 bob stack a long.csv
11 bob withdraw 8
12 zoe approvestack stack0123456789z
12 zoe approvestack stack0123456789z
13 bob approvestack stack0123456789z
14 bob approvestack a
14 eve approvestack a
15 eve enter 0 ---- no 8 1 - - ok
""")], 3, {
    "request": """\
1|0|0|8|0|8|1|0|0|ok|ann|stack0123456789z|1|0|2
2|2047|0|1|1|11|4|1|1935655200|ok|ann|stack0123456789z|2|1|2
3|5|0|1|0|11|5|1|0|ok|ann|stack0123456789z|3|0|2
4|5|1|1|0|11|7|1|-60|ok|ann|stack0123456789z|4|2|2
5|5|2|1|0|11|15|0|4102444799|ok|ann|stack0123456789z|5|4|2
6|5|3|15|0|255|255|0|0|halt/9/255|ann|stack0123456789z|6|5|2
7|5|4|9|0|8|1|0|0|ok/1|bob|a|1|0|2
8|5|5|1|0|11|5|7|0|ok|bob|a|2|1|13
9|0|1|9|0|11|4|7|0|ok|bob|a|3|0|2
10|0|2|0|0|8|1|0|0|ok|eve||0|0|1
""",
    "move": """\
1|1|0|1|1|ann|10
2|2|0|1|1|ann|10
3|3|0|1|1|ann|10
4|4|0|1|1|ann|10
5|5|0|1|1|ann|10
6|6|0|1|1|ann|10
7|7|0|1|1|bob|11
8|8|0|1|1|bob|11
9|9|0|1|1|bob|11
10|8|1|13|3|bob|11
11|1|1|2|2|bob|13
12|2|1|2|2|bob|13
13|3|1|2|2|bob|13
14|4|1|2|2|bob|13
15|5|1|2|2|bob|13
16|6|1|2|2|bob|13
17|7|1|2|2|eve|14
18|9|1|2|2|eve|14
19|10|0|1|1|eve|15
""",
    "tally": "1|1\n2|8\n3|0\n4|0\n5|0\n6|0\n7|0\n8|0\n9|0\n10|0\n11|0\n12|0\n13|1\n14|0\n15|0\n",
    "stack": "stack0123456789z|ann|1\na|bob|0\n",
    "stack_approval": "stack0123456789z|zoe\nstack0123456789z|bob\na|eve\n",
})

# Procedures, executions that begin out of order of their names and moments, and a record of each verdict.
PROCEDURES = Case("procedures", [(0, """\
1 ann enter 5 ---- no 8 1 - - ok
2 bob approve 1
3 ann initiate none
20 ann procedure z steps.csv
21 bob procedure proc0123456789zz one.csv
21 bob procedure z one.csv
22 bob begin z
4102444799 cid begin z
0 eve begin proc0123456789zz
22 eve begin none
24 ann step 1 1 done zoe
25 ann step 1 2 done ann
25 ann step 1 2 done bob
26 ann step 1 3 skipped -
27 cid step 2 1 failed -
27 cid step 2 2 done bob
28 eve step 3 1 skipped ann
""")], 4, {
    "request": "1|5|0|0|0|8|1|0|0|ok|ann||0|0|4\n",
    "move": "1|1|0|1|1|ann|1\n2|1|1|2|2|bob|2\n3|1|2|3|4|ann|25\n4|1|3|4|5|ann|25\n",
    "tally": "1|0\n2|0\n3|0\n4|1\n5|0\n6|0\n7|0\n8|0\n9|0\n10|0\n11|0\n12|0\n13|0\n14|0\n15|0\n",
    "request_approval": "1|bob\n",
    "procedure": "z|ann\nproc0123456789zz|bob\n",
    "step": ("z|1|it's ~ done|0|0\nz|2|switch on, slowly|1|1\nz|3|say \"go\"|0|0\nproc0123456789zz|1|~~~~~~~~~~~~~~~~~~~~~~~~~~~~~~~~~~~~~~~~"
             "~~~~~~~~~~~~~~~~~~~~~~~~~~~~~~~~~~~~~~~~|1|1\n"),
    "execution": "1|z|bob|22\n2|z|cid|4102444799\n3|proc0123456789zz|eve|0\n",
    "record": "1|1|1|ann|zoe|24\n1|2|1|ann|bob|25\n1|3|2|ann||26\n2|1|3|cid||27\n3|1|2|eve|ann|28\n",
})

# Inserts of several activities, by themselves and in a stack, whose lines are requests 4 to 10: the first stands in the row of its request, each other one in
# cargo, by its position. As the desk is closed one is at Sent and one at Queued, and their activities ride.
LISTS = Case("lists", [(0, """\
1 ann enter 5 a--c no 8 1 - - ok
1 ann enter 5 a--- no 8 1 - - ok
1 ann enter 5 ---c no 11 4 2;1 4102444799;0 ok
1 ann enter 5 ---c no 11 4 1;2 60 ok
1 ann enter 5 ---c no 11 4 1;1 60;60 ok
1 ann enter 5 ---c no 11 4 1;99;1 60;60;60 ok
2 bob stack s lists.csv
3 ann enter 5 ---c no 11 4 1;2;4;5;6;7;8;9 100;101;102;103;104;105;106;107 ok
4 bob approve 1
4 bob approve 2
4 bob approve 3
4 ann approvestack s
5 ann initiate none
5 ann set k 1
5 ann release 3
6 ann release 10
"""), (900, """\
901 ann enter 5 ---c no 11 4 9 60 ok
""")], 3, {
    "request": """\
1|5|0|9|0|8|1|0|0|ok|ann||0|0|12
2|5|1|8|0|8|1|0|0|ok|ann||0|0|12
3|5|2|1|0|11|4|2|4102444799|ok|ann||0|0|12
4|7|0|8|0|8|1|0|0|ok|bob|s|1|0|2
5|7|1|8|0|8|2|0|0|ok|bob|s|2|0|2
6|7|2|8|0|8|3|0|0|ok|bob|s|3|0|2
7|7|3|8|0|8|4|0|0|ok|bob|s|4|0|2
8|7|4|8|0|8|5|0|0|ok|bob|s|5|0|2
9|7|5|8|0|8|6|0|0|ok|bob|s|6|0|2
10|7|6|1|0|11|4|6|60|ok|bob|s|7|0|2
11|5|3|1|0|11|4|1|100|ok|ann||0|0|1
12|5|4|1|0|11|4|9|60|ok|ann||0|0|1
""",
    "cargo": """\
3|2|1|0
10|2|4|120
10|3|5|1935655200
11|2|2|101
11|3|4|102
11|4|5|103
11|5|6|104
11|6|7|105
11|7|8|106
11|8|9|107
""",
    "move": """\
1|1|0|1|1|ann|1
2|2|0|1|1|ann|1
3|3|0|1|1|ann|1
4|4|0|1|1|bob|2
5|5|0|1|1|bob|2
6|6|0|1|1|bob|2
7|7|0|1|1|bob|2
8|8|0|1|1|bob|2
9|9|0|1|1|bob|2
10|10|0|1|1|bob|2
11|11|0|1|1|ann|3
12|1|1|2|2|bob|4
13|2|1|2|2|bob|4
14|3|1|2|2|bob|4
15|4|1|2|2|ann|4
16|5|1|2|2|ann|4
17|6|1|2|2|ann|4
18|7|1|2|2|ann|4
19|8|1|2|2|ann|4
20|9|1|2|2|ann|4
21|10|1|2|2|ann|4
22|3|2|3|4|ann|5
23|2|2|6|4|ann|5
24|1|2|6|4|ann|5
25|3|3|4|5|ann|5
26|10|2|3|4|ann|6
27|6|2|6|4|ann|6
28|4|2|6|4|ann|6
29|5|2|6|4|ann|6
30|1|6|12|14|desk|900
31|2|6|12|14|desk|900
32|3|4|12|14|desk|900
33|4|6|2|14|desk|900
34|5|6|2|14|desk|900
35|6|6|2|14|desk|900
36|10|3|2|14|desk|900
37|12|0|1|1|ann|901
""",
    "tally": "1|2\n2|7\n3|0\n4|0\n5|0\n6|0\n7|0\n8|0\n9|0\n10|0\n11|0\n12|3\n13|0\n14|0\n15|0\n",
    "request_approval": "1|bob\n2|bob\n3|bob\n",
    "stack": "s|bob|0\n",
    "stack_approval": "s|ann\n",
})
CASES = (Case("nothing", [(0, "")], 0), ENTRIES, MOVES, STACKS, PROCEDURES, LISTS)
TEXTS = {"name", "outcome", "author", "stack", "person", "procedure", "body", "second"}


# ---- what differs

def row_faults(case: Case, connection: sqlite3.Connection, name: str) -> tuple[list[str], int, int]:
    """How a table's rows differ from those that are written out; they stand in the order in which they were written."""
    wanted = case.rows.get(name, {"meta": "schema|3", "tally": NO_TALLY}.get(name, "")).splitlines()
    cursor = connection.execute(f"SELECT * FROM {name} ORDER BY rowid")
    columns, rows = [it[0] for it in cursor.description], cursor.fetchall()
    kinds = [str if it in TEXTS else int for it in columns]
    faults = [f"{name}: {row} is of other kinds" for row in rows if [type(it) for it in row] != kinds]
    for want, row in zip_longest(wanted, ["|".join(str(it) for it in row) for row in rows]):
        if want != row:
            faults.append(f"{name}: the row {row}, and not {want}")
    return faults[:1], len(rows), len(rows) * len(columns)


def schema_faults(connection: sqlite3.Connection) -> tuple[list[str], int]:
    """How the statements that made the tables differ from those that are written out; and whether all is STRICT and in order."""
    made = statements_of(connection)
    faults = [f"made by {got}, and not by {want}" for want, got in zip_longest(SCHEMA, made) if want != got]
    if [it for it, in connection.execute("PRAGMA integrity_check")] != ["ok"]:
        faults.append("SQLite finds the file damaged")
    return faults[:1], len(made)


def desk_faults(program: str, case: Case, folder: str) -> list[str]:
    """Runs the days of a desk; what its lines are refused, and how often."""
    refused, faults = 0, []
    for at, (moment, lines) in enumerate(case.days):
        write_lines(f"{folder}/day{at}.tc", lines.splitlines())
        ran = run_kept(program, folder, "desk.db", moment, f"day{at}.tc")
        refused += sum(it.startswith("refused ") for it in ran.lines)
        faults += [f"status {ran.status}: {ran.errors}"] if ran.status not in (0, 1) or ran.errors else []
    return faults + ([f"{refused} lines were refused, and not {case.refused}"] if refused != case.refused else [])


def try_case(program: str, case: Case, work: str) -> tuple[list[str], int, int, int]:
    """A desk: its faults, its rows, its values and its statements."""
    folder = f"{work}/{case.name}"
    os.mkdir(folder)
    for name, text in FILES.items():
        write_lines(f"{folder}/{name}", text.splitlines())
    faults, rows, values = desk_faults(program, case, folder), 0, 0
    connection = connect(f"{folder}/desk.db", "immutable=1")
    try:
        of_schema, statements = schema_faults(connection)
        for name in ROWS:
            of_table, there, held = row_faults(case, connection, name)
            faults, rows, values = faults + of_table, rows + there, values + held
    except sqlite3.Error as fault:
        of_schema, statements = [f"the file does not read: {fault}"], 0
    finally:
        connection.close()
    return [f"{case.name}: {it}" for it in faults + of_schema], rows, values, statements


class Written(Tried):
    """The tables, column by column."""

    def test_desks(self) -> None:
        """Each desk has the rows that are written out, and is made by these statements."""
        with tempfile.TemporaryDirectory(prefix="written-") as work:
            told = [try_case(ASKED.program, case, work) for case in CASES]
        faults = [it for found, *_ in told for it in found]
        rows, values, statements = sum(it[1] for it in told), sum(it[2] for it in told), sum(it[3] for it in told)
        print(f"written cases: {len(CASES)} desks, {rows} rows, {values} values, {statements} statements, {len(faults)} differ")
        self.no_faults(faults)
