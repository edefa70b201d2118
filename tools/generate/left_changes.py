"""Changes of the files of left_desks.py, and whether a desk could have written what they make: all written out by hand."""
from typing import Sequence

# Of the desk FIVE.
OF_FIVE: list[tuple[str, bool]] = [
    ("UPDATE request SET author = 'eve' WHERE num = 2", True),
    ("UPDATE request SET author = 'desk' WHERE num = 2", False),
    ("UPDATE request SET author = 'bob' WHERE num = 2", False),
    ("UPDATE request SET subtype = 7 WHERE num = 1", True),
    ("UPDATE request SET cnt = 9 WHERE num = 4", False),
    ("UPDATE request SET place = 2 WHERE num = 2", False),
    ("UPDATE request SET place = 99 WHERE num = 2", False),
    ("UPDATE request SET target = 6 WHERE num = 5", False),
    ("UPDATE request SET line = 1 WHERE num = 1", False),
    ("UPDATE request SET num = 9 WHERE num = 5", False),
    ("UPDATE move SET from_place = 2 WHERE seq = 21", False),
    ("UPDATE move SET to_place = 4 WHERE seq = 22", False),
    ("UPDATE move SET cause = 1 WHERE seq = 22", False),
    ("UPDATE move SET seq = 30 WHERE seq = 22", False),
    ("UPDATE move SET person = 'eve' WHERE seq = 22", True),
    ("UPDATE move SET moment = 4000 WHERE seq = 2", True),
    ("DELETE FROM move WHERE seq = 22", False),
    ("UPDATE tally SET amount = 9 WHERE place = 4", False),
    ("DELETE FROM tally WHERE place = 15", False),
    ("DELETE FROM request_approval WHERE request = 1", False),
    ("UPDATE request_approval SET person = 'ann' WHERE request = 1", False),
    ("CREATE TABLE other (a INTEGER) STRICT", False),
]
# Of the desk WHOLE.
OF_WHOLE: list[tuple[str, bool]] = [
    ("UPDATE request SET ack = 16 WHERE num = 1", False),
    ("UPDATE request SET critical = 2 WHERE num = 1", False),
    ("UPDATE request SET subtype = 16 WHERE num = 2", False),
    ("UPDATE request SET target = 1 WHERE num = 1", False),
    ("UPDATE request SET outcome = 'ok/10' WHERE num = 3", False),
    ("UPDATE request SET outcome = 'ok/1' WHERE num = 3", True),
    ("UPDATE request SET stack = '' WHERE num = 1", False),
    ("UPDATE request SET prior = 0 WHERE num = 2", True),
    ("UPDATE request SET prior = 2 WHERE num = 2", False),
    ("UPDATE request SET place = 0 WHERE num = 1", False),
    ("UPDATE move SET cause = 15 WHERE seq = 3", False),
    ("UPDATE stack SET critical = 1", False),
    ("DELETE FROM stack_approval", False),
    ("UPDATE request_approval SET person = 'eve'", True),
    ("DELETE FROM request_approval", True),
    ("UPDATE record SET verdict = 4 WHERE step = 2", False),
    ("UPDATE record SET verdict = 2 WHERE step = 2", True),
    ("UPDATE record SET verdict = 3 WHERE step = 1", False),
    ("UPDATE record SET second = 'bob' WHERE step = 2", False),
    ("UPDATE record SET second = '' WHERE step = 2", False),
    ("UPDATE step SET request = 65536 WHERE step = 1", False),
    ("UPDATE step SET request = 3 WHERE step = 1", True),
    ("UPDATE step SET countersign = 1 WHERE step = 1", False),
    ("UPDATE execution SET num = 2", False),
    ("UPDATE meta SET value = 0", False),
    ("UPDATE meta SET value = 1", False),
    ("UPDATE meta SET value = 2", False),
    ("UPDATE meta SET value = 4", False),
    ("DELETE FROM meta", False),
    ("CREATE INDEX by_author ON request (author)", False),
    ("CREATE VIEW counts AS SELECT amount FROM tally", False),
    ("DROP INDEX move_by_request", False),
    ("DROP TABLE record", False),
    ("DROP TABLE request_approval", False),
]

# ---- changes of several statements: of the version, and of what later versions brought

REPLY_TABLE = "CREATE TABLE reply (person TEXT NOT NULL, number INTEGER NOT NULL, body TEXT NOT NULL, PRIMARY KEY (person, number)) STRICT"
CARGO_TABLE = ("CREATE TABLE cargo (request INTEGER NOT NULL, position INTEGER NOT NULL, target INTEGER NOT NULL, at_time INTEGER NOT NULL,"
               " PRIMARY KEY (request, position)) STRICT")
FIRST, SECOND, THIRD = (f"UPDATE meta SET value = {version}" for version in (1, 2, 3))
# Tables that are nearly those of replies, or of what an insert names behind its first activity.
NO_REPLY_TABLES = [
    REPLY_TABLE.replace(" STRICT", ""),
    REPLY_TABLE.replace(", PRIMARY KEY (person, number)", ""),
    REPLY_TABLE.replace("(person, number)", "(number, person)"),
    REPLY_TABLE.replace("body TEXT", "body BLOB"),
    REPLY_TABLE.replace("body TEXT NOT NULL", "body TEXT"),
    REPLY_TABLE.replace("body TEXT NOT NULL", "body TEXT NOT NULL, moment INTEGER NOT NULL"),
    REPLY_TABLE.replace("reply", "replies"),
]
NO_CARGO_TABLES = [
    CARGO_TABLE.replace(" STRICT", ""),
    CARGO_TABLE.replace(", PRIMARY KEY (request, position)", ""),
    CARGO_TABLE.replace("(request, position)", "(position, request)"),
    CARGO_TABLE.replace("(request, position)", "(request)"),
    CARGO_TABLE.replace("at_time INTEGER", "at_time TEXT"),
    CARGO_TABLE.replace("at_time INTEGER NOT NULL", "at_time INTEGER"),
    CARGO_TABLE.replace("at_time INTEGER NOT NULL", "at_time INTEGER NOT NULL, apid INTEGER NOT NULL"),
    CARGO_TABLE.replace("target INTEGER NOT NULL, ", ""),
    CARGO_TABLE.replace("position INTEGER NOT NULL, target INTEGER NOT NULL", "target INTEGER NOT NULL, position INTEGER NOT NULL"),
    CARGO_TABLE.replace("cargo", "cargoes"),
]
INDEX = "CREATE INDEX move_by_request ON move (request, seq)"
# It is made anew: it is listed behind all tables then, and lies where it lay.
INDEX_AGAIN = ("DROP INDEX move_by_request", INDEX)
# As SQLite's own tools copy it: it is listed behind the tables that are there then, and lies behind them.
INDEX_BEHIND = (*INDEX_AGAIN, "VACUUM")
RECORD_TABLE = ("CREATE TABLE record (execution INTEGER NOT NULL, step INTEGER NOT NULL, verdict INTEGER NOT NULL, person TEXT NOT NULL, second TEXT NOT NULL,"
                " moment INTEGER NOT NULL, PRIMARY KEY (execution, step)) STRICT")
# Indexes that are nearly that of the moves.
NO_INDEXES = [
    INDEX.replace("(request, seq)", "(seq, request)"),
    INDEX.replace("(request, seq)", "(request)"),
    INDEX.replace("(request, seq)", "(request, seq, moment)"),
    INDEX.replace("(request, seq)", "(request DESC, seq)"),
    INDEX.replace("(request, seq)", "(request, moment)"),
    INDEX.replace("move (request, seq)", "record (execution, step)"),
    INDEX.replace("INDEX", "UNIQUE INDEX"),
    INDEX.replace("move_by_request", "moves_by_request"),
    f"{INDEX} WHERE seq > 0",
]
# Orders in which no tool copies: the index listed behind tables that lie behind it, between tables of the first version, or before a table that had been there; and what ANALYZE leaves, till it is taken away.
NO_ORDERS: list[tuple[str, ...]] = [
    INDEX_AGAIN,
    ("DROP TABLE record", *INDEX_BEHIND, RECORD_TABLE),
    (*INDEX_BEHIND, "DROP TABLE record", RECORD_TABLE),
    (*INDEX_BEHIND, "CREATE INDEX more ON move (person)"),
    *(("DROP INDEX move_by_request", it) for it in NO_INDEXES),
    ("ANALYZE",),
    (*INDEX_BEHIND, "ANALYZE"),
]
Changes = list[tuple[tuple[str, ...], bool]]
# Of files of any earlier version.
OF_OLDER: Changes = [
    (("UPDATE meta SET value = 0",), False),
    ((THIRD,), False),
    (("UPDATE meta SET value = 4",), False),
    (("UPDATE meta SET value = -1",), False),
    (("UPDATE meta SET name = 'version'",), False),
    (("DELETE FROM meta",), False),
    (("INSERT INTO meta VALUES ('more', 1)",), False),
    (("INSERT INTO meta VALUES ('more', 2)",), False),
    (("INSERT INTO meta VALUES ('more', 3)",), False),
    ((CARGO_TABLE,), False),
    ((CARGO_TABLE, FIRST), False),
    ((CARGO_TABLE, SECOND), False),
    ((CARGO_TABLE, "DROP TABLE cargo"), True),
    (("CREATE TABLE other (a INTEGER) STRICT",), False),
    (("CREATE TABLE other (a INTEGER) STRICT", CARGO_TABLE, THIRD), False),
    (("CREATE VIEW counts AS SELECT amount FROM tally",), False),
    (("DROP INDEX move_by_request",), False),
    (INDEX_BEHIND, True),
    *((it, False) for it in NO_ORDERS),
    (("ANALYZE", "DROP TABLE sqlite_stat1"), True),
    (("DROP TABLE record",), False),
    (("DELETE FROM tally WHERE place = 15",), False),
    (("UPDATE request SET author = 'eve' WHERE num = 3",), True),
]
# Of files of the first version.
OF_FIRST: Changes = OF_OLDER + [
    ((SECOND,), False),
    ((REPLY_TABLE,), False),
    ((REPLY_TABLE, SECOND), True),
    ((REPLY_TABLE, THIRD), False),
    ((REPLY_TABLE, SECOND, "INSERT INTO reply VALUES ('ann', 1, char(10))"), True),
    ((REPLY_TABLE, SECOND, "INSERT INTO reply VALUES ('ann', 0, char(10))"), False),
    ((REPLY_TABLE, "UPDATE meta SET value = 4"), False),
    ((REPLY_TABLE, "DROP TABLE reply"), True),
    *(((it, SECOND), False) for it in NO_REPLY_TABLES),
    ((REPLY_TABLE, "CREATE INDEX more ON reply (number)", SECOND), False),
    (("CREATE TABLE other (a INTEGER) STRICT", SECOND), False),
    (("CREATE TABLE other (a INTEGER) STRICT", REPLY_TABLE, SECOND), False),
    (("DROP TABLE record", REPLY_TABLE, SECOND), False),
    ((CARGO_TABLE, THIRD), False),
    ((REPLY_TABLE, CARGO_TABLE), False),
    ((REPLY_TABLE, CARGO_TABLE, SECOND), False),
    ((REPLY_TABLE, CARGO_TABLE, THIRD), True),
    ((CARGO_TABLE, REPLY_TABLE, THIRD), False),
    ((REPLY_TABLE, CARGO_TABLE, "DROP TABLE cargo", SECOND), True),
    ((REPLY_TABLE, CARGO_TABLE, "DROP TABLE reply", THIRD), False),
    ((*INDEX_BEHIND, REPLY_TABLE, SECOND), True),
    ((REPLY_TABLE, *INDEX_BEHIND, SECOND), True),
    ((*INDEX_BEHIND, REPLY_TABLE, CARGO_TABLE, THIRD), True),
    ((REPLY_TABLE, *INDEX_BEHIND, CARGO_TABLE, THIRD), True),
    ((REPLY_TABLE, CARGO_TABLE, *INDEX_BEHIND, THIRD), True),
    ((*INDEX_BEHIND, REPLY_TABLE), False),
    ((REPLY_TABLE, *INDEX_BEHIND, THIRD), False),
    ((*INDEX_BEHIND, CARGO_TABLE, REPLY_TABLE, THIRD), False),
    *(((REPLY_TABLE, it, THIRD), False) for it in NO_CARGO_TABLES),
    *(((it, CARGO_TABLE, THIRD), False) for it in NO_REPLY_TABLES),
]
# The same, where each row reads by itself.
OF_FIRST_ROWS: Changes = [
    (("UPDATE request SET place = 3 WHERE num = 3",), False),
    (("UPDATE request SET cnt = 9 WHERE num = 3",), False),
    (("DELETE FROM move WHERE seq = 34",), False),
    (("DELETE FROM stack_approval",), False),
]
# Of files of the second version, which have replies.
OF_SECOND: Changes = OF_OLDER + [
    ((FIRST,), False),
    (("DROP TABLE reply",), False),
    (("DROP TABLE reply", FIRST), True),
    (("DROP TABLE reply", THIRD), False),
    (("DROP TABLE reply", REPLY_TABLE), True),
    *((("DROP TABLE reply", it), False) for it in NO_REPLY_TABLES),
    (("DROP TABLE reply", *INDEX_BEHIND, REPLY_TABLE), True),
    ((*INDEX_BEHIND, CARGO_TABLE, THIRD), True),
    ((CARGO_TABLE, *INDEX_BEHIND, THIRD), True),
    ((CARGO_TABLE, *INDEX_BEHIND), False),
    ((CARGO_TABLE, THIRD), True),
    *(((it, THIRD), False) for it in NO_CARGO_TABLES),
    ((CARGO_TABLE, "CREATE INDEX more ON cargo (target)", THIRD), False),
    (("DROP TABLE reply", CARGO_TABLE), False),
    (("DROP TABLE reply", CARGO_TABLE, THIRD), False),
    (("DROP TABLE reply", CARGO_TABLE, REPLY_TABLE, THIRD), False),
    (("DROP TABLE reply", REPLY_TABLE, CARGO_TABLE, THIRD), True),
    (("CREATE INDEX more ON reply (number)",), False),
    (("INSERT INTO reply VALUES ('zed', 1, char(10))",), True),
    (("INSERT INTO reply VALUES ('ann', 0, char(10))",), False),
    (("UPDATE reply SET body = 'ok' WHERE rowid = 1",), False),
    (("UPDATE reply SET body = 'ok' WHERE rowid = 1", CARGO_TABLE, THIRD), False),
    (("DELETE FROM reply",), True),
]
# The same, where each row reads by itself.
OF_SECOND_ROWS: Changes = [
    (("UPDATE request SET place = 3 WHERE num = 3",), False),
    (("UPDATE request SET cnt = 9 WHERE num = 3",), False),
    (("DELETE FROM move WHERE seq = 41",), False),
    (("DELETE FROM stack_approval",), False),
]
# Of a desk of the newest version, which has no replies.
OF_NEWEST: Changes = [
    ((FIRST,), False),
    ((SECOND,), False),
    (("DROP TABLE cargo",), False),
    (("DROP TABLE cargo", FIRST), False),
    (("DROP TABLE cargo", SECOND), True),
    (("DROP TABLE cargo", CARGO_TABLE), True),
    *((("DROP TABLE cargo", it), False) for it in NO_CARGO_TABLES),
    (("DROP TABLE reply",), False),
    (("DROP TABLE reply", FIRST), False),
    (("DROP TABLE reply", SECOND), False),
    (("DROP TABLE reply", REPLY_TABLE), False),
    (("DROP TABLE cargo", "DROP TABLE reply"), False),
    (("DROP TABLE cargo", "DROP TABLE reply", FIRST), True),
    (("DROP TABLE cargo", "DROP TABLE reply", SECOND), False),
    (("DROP TABLE cargo", "DROP TABLE reply", REPLY_TABLE, SECOND), True),
    (("DROP TABLE cargo", "DROP TABLE reply", REPLY_TABLE, CARGO_TABLE), True),
    (("DROP TABLE cargo", "DROP TABLE reply", CARGO_TABLE, REPLY_TABLE), False),
    *((("DROP TABLE cargo", "DROP TABLE reply", it, CARGO_TABLE), False) for it in NO_REPLY_TABLES),
    (("ALTER TABLE reply RENAME COLUMN body TO lines",), False),
    (("ALTER TABLE reply RENAME TO replies",), False),
    (("ALTER TABLE reply ADD COLUMN moment INTEGER",), False),
    (("ALTER TABLE cargo RENAME COLUMN at_time TO moment",), False),
    (("ALTER TABLE cargo RENAME TO cargoes",), False),
    (("ALTER TABLE cargo ADD COLUMN apid INTEGER",), False),
    (("CREATE INDEX more ON cargo (target)",), False),
    ((REPLY_TABLE.replace("reply", "another"),), False),
    ((CARGO_TABLE.replace("cargo", "another"),), False),
    (("INSERT INTO meta VALUES ('more', 3)",), False),
    (INDEX_BEHIND, True),
    (("DROP TABLE cargo", *INDEX_BEHIND, CARGO_TABLE), True),
    (("DROP TABLE cargo", "DROP TABLE reply", *INDEX_BEHIND, REPLY_TABLE, CARGO_TABLE), True),
    (("DROP TABLE cargo", *INDEX_BEHIND, SECOND), True),
    (("DROP TABLE cargo", "DROP TABLE reply", *INDEX_BEHIND, FIRST), True),
    (("DROP TABLE cargo", "DROP TABLE reply", "DROP TABLE record", RECORD_TABLE, REPLY_TABLE, CARGO_TABLE, *INDEX_BEHIND), True),
    (("DROP TABLE cargo", "DROP TABLE reply", "DROP TABLE record", *INDEX_BEHIND, RECORD_TABLE, REPLY_TABLE, CARGO_TABLE), False),
    (("DROP TABLE cargo", "DROP TABLE reply", CARGO_TABLE, REPLY_TABLE, *INDEX_BEHIND), False),
    (("DROP TABLE cargo", "DROP TABLE reply", *INDEX_BEHIND, CARGO_TABLE, REPLY_TABLE), False),
    ((*INDEX_BEHIND, SECOND), False),
    *((it, False) for it in NO_ORDERS),
    (("ANALYZE", "DROP TABLE sqlite_stat1"), True),
    (("ANALYZE", "DROP TABLE sqlite_stat1", *INDEX_BEHIND), True),
]


def alone(changes: Sequence[tuple[str, bool]]) -> Changes:
    """Changes of one statement each, as those of several are written."""
    return [((statement,), is_sound) for statement, is_sound in changes]


def kept(person: str, number: str, body: str) -> tuple[str, ...]:
    """The statement that keeps a reply, each value as SQL spells it."""
    return (f"INSERT INTO reply VALUES ({person}, {number}, {body})",)


def loosely(statement: str, table: str = "reply") -> tuple[str, ...]:
    """A statement on a table, which takes values of any kind meanwhile."""
    return ("PRAGMA writable_schema = ON", f"UPDATE sqlite_schema SET sql = replace(sql, ') STRICT', ')') WHERE name = '{table}'",
            "PRAGMA writable_schema = RESET", statement,
            "PRAGMA writable_schema = ON", f"UPDATE sqlite_schema SET sql = sql || ' STRICT' WHERE name = '{table}'", "PRAGMA writable_schema = RESET")


# Replies that are kept at such a desk: no other is there.
OF_REPLIES: Changes = [
    (kept("'ann'", "1", "'ok' || char(10)"), True),
    (kept("'ann'", "4294967295", "'ok' || char(10)"), True),
    (kept("'sixteenletters12'", "7", "'ok' || char(10)"), True),
    (kept("'ann'", "1", "char(10)"), True),
    (kept("'ann'", "1", "char(10, 10)"), True),
    (kept("'ann'", "1", "CAST(x'c3a90a' AS TEXT)"), True),
    (kept("'ann'", "1", "'ok' || char(13, 10)"), True),
    (kept("'ann'", "1", f"'{'x' * 70_000}' || char(10)"), True),
    (kept("'desk'", "1", "'ok' || char(10)"), False),
    (kept("''", "1", "'ok' || char(10)"), False),
    (kept("'Ann'", "1", "'ok' || char(10)"), False),
    (kept("'ann '", "1", "'ok' || char(10)"), False),
    (kept("'seventeenletters1'", "1", "'ok' || char(10)"), False),
    (kept("CAST(x'ff' AS TEXT)", "1", "'ok' || char(10)"), False),
    (kept("'ann'", "0", "'ok' || char(10)"), False),
    (kept("'ann'", "-1", "'ok' || char(10)"), False),
    (kept("'ann'", "4294967296", "'ok' || char(10)"), False),
    (kept("'ann'", "4294967297", "'ok' || char(10)"), False),
    (kept("'ann'", "9223372036854775807", "'ok' || char(10)"), False),
    (kept("'ann'", "-9223372036854775807 - 1", "'ok' || char(10)"), False),
    (kept("'ann'", "1", "'ok'"), False),
    (kept("'ann'", "1", "''"), False),
    (kept("'ann'", "1", "'ok' || char(13)"), False),
    (kept("'ann'", "1", "char(10) || 'ok'"), False),
    (kept("'ann'", "1", "CAST(x'ff0a' AS TEXT)"), False),
    (kept("'ann'", "1", "CAST(x'c30a' AS TEXT)"), False),
    (kept("'ann'", "1", "CAST(x'eda0800a' AS TEXT)"), False),
    (loosely("INSERT INTO reply VALUES ('ann', 1, x'6f6b0a')"), False),
    (loosely("INSERT INTO reply VALUES (x'616e6e', 1, 'ok' || char(10))"), False),
    (loosely("INSERT INTO reply VALUES ('ann', 1.5, 'ok' || char(10))"), False),
    (loosely("INSERT INTO reply VALUES ('ann', 'one', 'ok' || char(10))"), False),
    (loosely("INSERT INTO reply VALUES ('ann', 1, 'ok' || char(10))"), True),
]


# ---- what an insert names behind its first activity

def carried(request: str, position: str = "2", target: str = "1", at_time: str = "600") -> tuple[str, ...]:
    """The statement that writes such a row, each value as SQL spells it."""
    return (f"INSERT INTO cargo VALUES ({request}, {position}, {target}, {at_time})",)


def many(count: int, *behind: str) -> tuple[str, ...]:
    """Statements that write so many of them, and these behind."""
    numbers = f"WITH RECURSIVE n(i) AS (SELECT 1 UNION ALL SELECT i + 1 FROM n WHERE i < {count})"
    return (f"INSERT INTO cargo {numbers} SELECT i, 2, 1, 600 FROM n", *behind)


# Of the desk LISTS.
OF_LISTS: Changes = [
    # fewer and more
    (("DELETE FROM cargo WHERE rowid = 6",), True),
    (("DELETE FROM cargo WHERE request = 15",), True),
    (("DELETE FROM cargo WHERE request = 11",), True),
    (carried("15", position="5"), False),
    (carried("15", position="5", target="2"), True),
    ((*carried("15", position="5", target="2"), *carried("15", position="6", target="3")), True),
    (tuple(it for at in (5, 6, 7, 8) for it in carried("15", position=f"{at}", target=f"{at - 3}")), True),
    (tuple(it for at in (5, 6, 7, 8, 9) for it in carried("15", position=f"{at}", target=f"{at - 3}")), False),
    # a gap, no position that there is, one of the first
    (("DELETE FROM cargo WHERE rowid = 4",), False),
    (("DELETE FROM cargo WHERE rowid = 5",), False),
    (("DELETE FROM cargo WHERE rowid = 1",), False),
    *(((f"UPDATE cargo SET position = {at} WHERE rowid = {row}",), False)
      for row, at in ((6, 1), (6, 5), (6, 8), (6, 9), (6, 255), (4, 1), (4, 5), (4, 9), (3, 1), (3, 3))),
    (carried("15", position="6", target="2"), False),
    (carried("15", position="1", target="2"), False),
    (carried("15", position="9", target="2"), False),
    (("UPDATE cargo SET position = position + 10 WHERE request = 15",), False),
    # of others: of one that has none, of a plain request, of a delete, of nobody
    (carried("12", target="5"), False),
    (("UPDATE cargo SET rowid = rowid + 10 WHERE rowid > 2", "INSERT INTO cargo (rowid, request, position, target, at_time) VALUES (3, 12, 2, 5, 60)"), True),
    *((carried(number, target="2"), False) for number in ("1", "9", "10", "13", "16", "65535")),
    (("UPDATE cargo SET rowid = rowid + 10", "INSERT INTO cargo (rowid, request, position, target, at_time) VALUES (1, 9, 2, 2, 60)"), False),
    (("UPDATE cargo SET rowid = rowid + 10 WHERE rowid > 2", "INSERT INTO cargo (rowid, request, position, target, at_time) VALUES (3, 13, 2, 5, 60)"), False),
    *(((f"UPDATE cargo SET request = {number} WHERE rowid = 6",), False) for number in ("14", "13", "12", "1", "16")),
    (("UPDATE cargo SET request = 15, position = 5 WHERE rowid = 3",), False),
    # in another order
    (("UPDATE cargo SET rowid = 100 WHERE rowid = 6",), True),
    (("UPDATE cargo SET rowid = -100 WHERE rowid = 1",), True),
    (("UPDATE cargo SET rowid = 100 WHERE rowid = 4",), False),
    (("UPDATE cargo SET rowid = 100 WHERE rowid = 5",), False),
    (("UPDATE cargo SET rowid = 100 WHERE rowid = 1",), False),
    (("UPDATE cargo SET rowid = 100 WHERE rowid = 3",), False),
    (("UPDATE cargo SET rowid = -100 WHERE rowid = 6",), False),
    # what is named, and when
    (("UPDATE cargo SET target = 2 WHERE rowid = 6",), True),
    *(((f"UPDATE cargo SET target = {number} WHERE rowid = 6",), False) for number in ("7", "8", "9", "10", "11", "13", "15", "16", "0", "65536", "4294967295")),
    *(((f"UPDATE cargo SET at_time = {time} WHERE rowid = 6",), True) for time in ("0", "200", "4102444799")),
    *(((f"UPDATE cargo SET at_time = {time} WHERE rowid = 6",), False) for time in ("-1", "4102444800")),
    (("UPDATE request SET target = 2 WHERE num = 15",), True),
    (("UPDATE request SET target = 8 WHERE num = 15",), False),
    (("UPDATE request SET ack = 1 WHERE num = 8",), False),
    (("UPDATE request SET ack = 9 WHERE num = 10", "UPDATE cargo SET target = 10 WHERE rowid = 6"), True),
    (("UPDATE request SET ack = 9 WHERE num = 13", "UPDATE cargo SET target = 13 WHERE rowid = 6"), False),
    (("UPDATE request SET target = 10 WHERE num = 13",), True),
    (("UPDATE request SET target = 12 WHERE num = 13",), False),
    # the request is no insert
    (("UPDATE request SET subtype = 5, at_time = 0 WHERE num = 15",), False),
    (("UPDATE request SET subtype = 5, at_time = 0 WHERE num = 15", "DELETE FROM cargo WHERE request = 15"), True),
    (("UPDATE request SET subtype = 7 WHERE num = 15",), False),
    (("UPDATE request SET service = 8, target = 0, at_time = 0, ack = 9 WHERE num = 15",), False),
]
# Rows of that table at a desk whose inserts name one request each, and whether each reads by itself. An opening refuses them all: what they name is
# named already, or was entered later.
OF_CARGO: Changes = [
    (carried("2"), True),
    (carried("1"), True),
    (carried("65535"), True),
    (carried("0"), False),
    (carried("65536"), False),
    (carried("-1"), False),
    (carried("2", position="1"), True),
    (carried("2", position="8"), True),
    (carried("2", position="255"), True),
    (carried("2", position="0"), False),
    (carried("2", position="-1"), False),
    (carried("2", position="256"), False),
    (carried("2", target="0"), True),
    (carried("2", target="4294967295"), True),
    (carried("2", target="-1"), False),
    (carried("2", target="4294967296"), False),
    (carried("2", at_time="0"), True),
    (carried("2", at_time="4102444799"), True),
    (carried("2", at_time="-1"), False),
    (carried("2", at_time="4102444800"), False),
    (carried("9223372036854775807"), False),
    (carried("2", at_time="-9223372036854775807 - 1"), False),
    ((*carried("2"), *carried("2", position="3"), *carried("3")), True),
    ((*carried("2", position="3"), *carried("2")), True),
    ((*carried("2"), "UPDATE cargo SET rowid = -5"), True),
    ((*carried("2", position="0"), "UPDATE cargo SET rowid = -9223372036854775807 - 1"), False),
    (many(2001), True),
    (many(2001, "UPDATE cargo SET position = 0 WHERE rowid = 1000"), False),
    (many(2001, "UPDATE cargo SET at_time = -1 WHERE rowid = 2001"), False),
    (loosely("INSERT INTO cargo VALUES ('two', 2, 1, 600)", "cargo"), False),
    (loosely("INSERT INTO cargo VALUES (2, 2.5, 1, 600)", "cargo"), False),
    (loosely("INSERT INTO cargo VALUES (2, 2, x'31', 600)", "cargo"), False),
    (loosely("INSERT INTO cargo VALUES (2, 2, 1, 'noon')", "cargo"), False),
    (loosely("INSERT INTO cargo VALUES (2, 2, 1, 600)", "cargo"), True),
]
