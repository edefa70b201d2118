"""Single rows of a desk's file that are others, and by hand of each whether all rows still read; soundness is not asked for. They are of the desks
of full_desks.py, of which each table has rows. Request 5 is of no stack and of a plain command, 12 deletes an activity, 22 inserts two, 23 is of the
stack heater.
"""

# Of each table, columns with values that no row may have: the row does not read, wherever it lies.
UNREADABLE = {
    "meta": ["value = 0", "value = 1", "value = 2", "value = 4", "name = 'other'"],
    "request WHERE num = 5": [
        "num = 65536", "apid = 2048", "apid = -1", "cnt = 16384", "ack = 16", "ack = 99", "ack = -1", "critical = 2", "service = 0", "service = 256",
        "subtype = 0", "subtype = 256", "service = 11, subtype = 6", "target = 1", "at_time = 1", "outcome = ''", "outcome = 'ok/10'",
        "outcome = 'fail/15'", "author = ''", "author = 'Ann'", "author = 'seventeenletters1'", "stack = 'A'", "line = 7", "line = -1", "prior = 1",
        "place = 0", "place = 16", "place = 99"],
    "request WHERE num = 12": ["at_time = 1", "subtype = 8", "subtype = 17"],
    "request WHERE num = 23": ["stack = 'Heater'", "stack = ''", "line = -1", "prior = 4294967296"],
    "move WHERE seq = 3": [
        "seq = -5", "seq = 1000000000000", "request = 0", "request = 65536", "from_place = 16", "from_place = -1", "to_place = 0", "to_place = 99",
        "cause = 0", "cause = 15", "cause = 99", "person = ''", "person = 'Ann'", "moment = -5", "moment = 4102444800"],
    "tally WHERE place = 15": ["place = 16", "amount = -1", "amount = 4294967296"],
    "request_approval WHERE rowid = 1": ["request = 0", "request = 65536", "person = ''", "person = 'Bob'"],
    "stack WHERE name = 'spare'": ["name = ''", "name = 'Spare'", "author = ''", "author = 'E ve'", "critical = 2", "critical = -1"],
    "stack_approval WHERE rowid = 1": ["stack = ''", "stack = 'H'", "person = ''", "person = 'B'"],
    "procedure WHERE name = 'panel'": ["name = ''", "name = 'Panel'", "author = ''", "author = 'C'"],
    "step WHERE rowid = 1": ["procedure = ''", "procedure = 'P'", "step = -1", "body = ''", f"body = '{'x' * 81}'", "body = 'a\tb'",
                             "countersign = 2", "request = 65536", "request = -1"],
    "execution WHERE num = 1": ["num = -1", "num = 4294967296", "procedure = ''", "person = ''", "person = 'A'", "moment = 4102444800",
                                "moment = -1"],
    "record WHERE rowid = 1": ["execution = -1", "step = -1", "verdict = 0", "verdict = 4", "person = ''", "person = 'A'", "second = 'B'",
                               "moment = 4102444800", "moment = -1"],
    "reply WHERE rowid = 1": ["person = ''", "person = 'A'", "person = 'desk'", "number = 0", "number = -1", "number = 4294967296", "body = ''",
                              "body = 'ok'", "body = CAST(x'ff0a' AS TEXT)"],
    "reply WHERE rowid = 100": ["body = 'ok'"],
    "reply WHERE rowid = 101": ["body = 'ok'"],
    "reply WHERE rowid = 250": ["body = 'ok'", "rowid = -5, number = 0"],
    "cargo WHERE request = 22": ["request = 0", "request = 65536", "position = 0", "position = 256", "target = -1", "target = 4294967296", "at_time = -1",
                                 "at_time = 4102444800"],
    "cargo WHERE position = 8": ["position = 0", "rowid = -5, at_time = -1"],
}
# Statements behind which all rows read, though no desk wrote them: a number that is left out, a row that is another's or gone, a place or a sum
# that is another. A report of such a file is printed.
READABLE = [
    "DELETE FROM move WHERE seq = 3", "DELETE FROM move WHERE seq = 1", "DELETE FROM request", "DELETE FROM request WHERE num = 2",
    "DELETE FROM request_approval", "DELETE FROM stack", "DELETE FROM stack_approval", "DELETE FROM procedure", "DELETE FROM step",
    "DELETE FROM execution", "DELETE FROM record", "UPDATE move SET person = 'zed' WHERE seq = 3", "UPDATE move SET moment = 7 WHERE seq = 4",
    "UPDATE move SET cause = 14 WHERE seq = 2", "UPDATE move SET from_place = 2 WHERE seq = 2", "UPDATE move SET request = 65535 WHERE seq = 5",
    "UPDATE request SET place = 15 WHERE num = 1", "UPDATE request SET cnt = 16383 WHERE num = 1", "UPDATE request SET author = 'zed' WHERE num = 1",
    "UPDATE tally SET amount = amount + 1 WHERE place = 1", "UPDATE stack SET critical = 1 WHERE name = 'spare'",
    "UPDATE request_approval SET person = 'zed' WHERE rowid = 1", "UPDATE step SET request = 65535 WHERE rowid = 1",
    "UPDATE execution SET procedure = 'none' WHERE num = 1", "UPDATE record SET step = 99 WHERE rowid = 1", "DELETE FROM reply",
    "DELETE FROM reply WHERE rowid = 100", "UPDATE reply SET person = 'zed', number = 4294967295, body = char(10) WHERE rowid = 1",
    "UPDATE reply SET rowid = -5 WHERE rowid = 250", "DELETE FROM cargo", "DELETE FROM cargo WHERE position = 2",
    "UPDATE cargo SET position = 9 WHERE position = 8", "UPDATE cargo SET position = 1 WHERE position = 2", "UPDATE cargo SET request = 1 WHERE position = 8",
    "UPDATE cargo SET request = 65535 WHERE position = 8", "UPDATE cargo SET target = 0 WHERE position = 8", "UPDATE cargo SET rowid = -5 WHERE position = 8"]
