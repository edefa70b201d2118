BEGIN;
CREATE TABLE meta (name TEXT PRIMARY KEY, value INTEGER NOT NULL) STRICT;
CREATE TABLE request (num INTEGER PRIMARY KEY, apid INTEGER NOT NULL, cnt INTEGER NOT NULL, ack INTEGER NOT NULL, critical INTEGER NOT NULL, service INTEGER NOT NULL, subtype INTEGER NOT NULL, target INTEGER NOT NULL, at_time INTEGER NOT NULL, outcome TEXT NOT NULL, author TEXT NOT NULL, stack TEXT NOT NULL, line INTEGER NOT NULL, prior INTEGER NOT NULL, place INTEGER NOT NULL) STRICT;
CREATE TABLE move (seq INTEGER PRIMARY KEY, request INTEGER NOT NULL, from_place INTEGER NOT NULL, to_place INTEGER NOT NULL, cause INTEGER NOT NULL, person TEXT NOT NULL, moment INTEGER NOT NULL) STRICT;
CREATE INDEX move_by_request ON move (request, seq);
CREATE TABLE tally (place INTEGER PRIMARY KEY, amount INTEGER NOT NULL) STRICT;
CREATE TABLE request_approval (request INTEGER NOT NULL, person TEXT NOT NULL, PRIMARY KEY (request, person)) STRICT;
CREATE TABLE stack (name TEXT PRIMARY KEY, author TEXT NOT NULL, critical INTEGER NOT NULL) STRICT;
CREATE TABLE stack_approval (stack TEXT NOT NULL, person TEXT NOT NULL, PRIMARY KEY (stack, person)) STRICT;
CREATE TABLE procedure (name TEXT PRIMARY KEY, author TEXT NOT NULL) STRICT;
CREATE TABLE step (procedure TEXT NOT NULL, step INTEGER NOT NULL, body TEXT NOT NULL, countersign INTEGER NOT NULL, request INTEGER NOT NULL, PRIMARY KEY (procedure, step)) STRICT;
CREATE TABLE execution (num INTEGER PRIMARY KEY, procedure TEXT NOT NULL, person TEXT NOT NULL, moment INTEGER NOT NULL) STRICT;
CREATE TABLE record (execution INTEGER NOT NULL, step INTEGER NOT NULL, verdict INTEGER NOT NULL, person TEXT NOT NULL, second TEXT NOT NULL, moment INTEGER NOT NULL, PRIMARY KEY (execution, step)) STRICT;
CREATE TABLE reply (person TEXT NOT NULL, number INTEGER NOT NULL, body TEXT NOT NULL, PRIMARY KEY (person, number)) STRICT;
INSERT INTO meta VALUES ('schema', 2);
INSERT INTO request VALUES (1, 5, 0, 9, 0, 8, 1, 0, 0, 'ok', 'ann', '', 0, 0, 7);
INSERT INTO request VALUES (2, 5, 1, 9, 0, 8, 1, 0, 0, 'ok', 'ann', '', 0, 0, 6);
INSERT INTO request VALUES (3, 5, 2, 9, 1, 8, 1, 0, 0, 'ok', 'ann', '', 0, 0, 1);
INSERT INTO request VALUES (4, 5, 3, 14, 0, 17, 1, 0, 0, 'halt/2/40', 'ann', '', 0, 0, 9);
INSERT INTO request VALUES (5, 6, 0, 1, 0, 11, 4, 1, 1100, 'ok', 'bob', '', 0, 0, 10);
INSERT INTO request VALUES (6, 6, 1, 1, 0, 11, 4, 2, 4102444799, 'ok', 'bob', '', 0, 0, 3);
INSERT INTO request VALUES (7, 6, 2, 1, 0, 11, 7, 1, -4102444799, 'ok', 'bob', '', 0, 0, 13);
INSERT INTO request VALUES (8, 0, 0, 0, 0, 255, 255, 0, 0, 'ok', 'bob', '', 0, 0, 2);
INSERT INTO request VALUES (9, 2047, 0, 0, 0, 1, 1, 0, 0, 'ok', 'bob', '', 0, 0, 5);
INSERT INTO request VALUES (10, 7, 0, 9, 0, 8, 1, 0, 0, 'ok', 'ann', 'heater', 1, 0, 1);
INSERT INTO request VALUES (11, 7, 1, 15, 1, 8, 2, 0, 0, 'ok/3', 'ann', 'heater', 2, 1, 1);
INSERT INTO request VALUES (12, 7, 2, 1, 0, 11, 4, 10, 3600, 'ok', 'ann', 'heater', 3, 0, 1);
INSERT INTO request VALUES (13, 9, 0, 0, 0, 3, 1, 0, 0, 'ok', 'bob', 'spare', 1, 0, 4);
INSERT INTO request VALUES (14, 9, 1, 8, 0, 3, 2, 0, 0, 'refuse/30', 'bob', 'spare', 2, 1, 2);
INSERT INTO request VALUES (15, 5, 4, 9, 0, 8, 9, 0, 0, 'ok', 'bob', '', 0, 0, 1);
INSERT INTO move VALUES (1, 1, 0, 1, 1, 'ann', 100);
INSERT INTO move VALUES (2, 2, 0, 1, 1, 'ann', 100);
INSERT INTO move VALUES (3, 3, 0, 1, 1, 'ann', 100);
INSERT INTO move VALUES (4, 4, 0, 1, 1, 'ann', 100);
INSERT INTO move VALUES (5, 5, 0, 1, 1, 'bob', 101);
INSERT INTO move VALUES (6, 6, 0, 1, 1, 'bob', 101);
INSERT INTO move VALUES (7, 7, 0, 1, 1, 'bob', 101);
INSERT INTO move VALUES (8, 8, 0, 1, 1, 'bob', 102);
INSERT INTO move VALUES (9, 9, 0, 1, 1, 'bob', 102);
INSERT INTO move VALUES (10, 1, 1, 2, 2, 'bob', 110);
INSERT INTO move VALUES (11, 2, 1, 2, 2, 'bob', 110);
INSERT INTO move VALUES (12, 4, 1, 2, 2, 'bob', 110);
INSERT INTO move VALUES (13, 5, 1, 2, 2, 'ann', 110);
INSERT INTO move VALUES (14, 6, 1, 2, 2, 'ann', 110);
INSERT INTO move VALUES (15, 8, 1, 2, 2, 'ann', 110);
INSERT INTO move VALUES (16, 9, 1, 2, 2, 'ann', 110);
INSERT INTO move VALUES (17, 10, 0, 1, 1, 'ann', 120);
INSERT INTO move VALUES (18, 11, 0, 1, 1, 'ann', 120);
INSERT INTO move VALUES (19, 12, 0, 1, 1, 'ann', 120);
INSERT INTO move VALUES (20, 13, 0, 1, 1, 'bob', 121);
INSERT INTO move VALUES (21, 14, 0, 1, 1, 'bob', 121);
INSERT INTO move VALUES (22, 13, 1, 2, 2, 'ann', 122);
INSERT INTO move VALUES (23, 14, 1, 2, 2, 'ann', 122);
INSERT INTO move VALUES (24, 5, 2, 3, 4, 'ann', 201);
INSERT INTO move VALUES (25, 1, 2, 6, 4, 'ann', 201);
INSERT INTO move VALUES (26, 5, 3, 4, 5, 'ann', 201);
INSERT INTO move VALUES (27, 5, 4, 10, 9, 'ann', 204);
INSERT INTO move VALUES (28, 1, 6, 7, 10, 'ann', 204);
INSERT INTO move VALUES (29, 9, 2, 3, 4, 'ann', 205);
INSERT INTO move VALUES (30, 9, 3, 4, 5, 'ann', 205);
INSERT INTO move VALUES (31, 9, 4, 5, 6, 'ann', 205);
INSERT INTO move VALUES (32, 4, 2, 3, 4, 'bob', 206);
INSERT INTO move VALUES (33, 4, 3, 4, 5, 'bob', 206);
INSERT INTO move VALUES (34, 4, 4, 8, 9, 'bob', 209);
INSERT INTO move VALUES (35, 4, 8, 9, 9, 'bob', 209);
INSERT INTO move VALUES (36, 7, 1, 13, 3, 'ann', 211);
INSERT INTO move VALUES (37, 13, 2, 3, 4, 'ann', 221);
INSERT INTO move VALUES (38, 13, 3, 4, 5, 'ann', 221);
INSERT INTO move VALUES (39, 6, 2, 3, 4, 'ann', 222);
INSERT INTO move VALUES (40, 2, 2, 6, 4, 'ann', 222);
INSERT INTO move VALUES (41, 15, 0, 1, 1, 'bob', 299);
INSERT INTO tally VALUES (1, 5);
INSERT INTO tally VALUES (2, 2);
INSERT INTO tally VALUES (3, 1);
INSERT INTO tally VALUES (4, 1);
INSERT INTO tally VALUES (5, 1);
INSERT INTO tally VALUES (6, 1);
INSERT INTO tally VALUES (7, 1);
INSERT INTO tally VALUES (8, 0);
INSERT INTO tally VALUES (9, 1);
INSERT INTO tally VALUES (10, 1);
INSERT INTO tally VALUES (11, 0);
INSERT INTO tally VALUES (12, 0);
INSERT INTO tally VALUES (13, 1);
INSERT INTO tally VALUES (14, 0);
INSERT INTO tally VALUES (15, 0);
INSERT INTO request_approval VALUES (1, 'bob');
INSERT INTO request_approval VALUES (2, 'bob');
INSERT INTO request_approval VALUES (4, 'bob');
INSERT INTO request_approval VALUES (3, 'bob');
INSERT INTO request_approval VALUES (5, 'ann');
INSERT INTO request_approval VALUES (6, 'ann');
INSERT INTO request_approval VALUES (8, 'ann');
INSERT INTO request_approval VALUES (9, 'ann');
INSERT INTO stack VALUES ('heater', 'ann', 1);
INSERT INTO stack VALUES ('spare', 'bob', 0);
INSERT INTO stack_approval VALUES ('heater', 'bob');
INSERT INTO stack_approval VALUES ('spare', 'ann');
INSERT INTO procedure VALUES ('power', 'bob');
INSERT INTO step VALUES ('power', 1, 'check the battery', 0, 0);
INSERT INTO step VALUES ('power', 2, 'switch on, slowly', 1, 4);
INSERT INTO step VALUES ('power', 3, 'say what is seen', 0, 0);
INSERT INTO execution VALUES (1, 'power', 'bob', 131);
INSERT INTO execution VALUES (2, 'power', 'ann', 131);
INSERT INTO record VALUES (1, 1, 1, 'bob', '', 206);
INSERT INTO record VALUES (1, 2, 1, 'bob', 'ann', 206);
INSERT INTO record VALUES (2, 1, 3, 'ann', '', 210);
INSERT INTO reply VALUES ('ann', 1, 'ok request 1 5/0
move 1 100 ann 1 - Entered enter
');
INSERT INTO reply VALUES ('ann', 2, 'ok request 2 5/1
move 2 100 ann 2 - Entered enter
');
INSERT INTO reply VALUES ('ann', 3, 'ok request 3 5/2
move 3 100 ann 3 - Entered enter
');
INSERT INTO reply VALUES ('ann', 4, 'ok request 4 5/3
move 4 100 ann 4 - Entered enter
');
INSERT INTO reply VALUES ('bob', 1, 'ok request 5 6/0
move 5 101 bob 5 - Entered enter
');
INSERT INTO reply VALUES ('bob', 2, 'ok request 6 6/1
move 6 101 bob 6 - Entered enter
');
INSERT INTO reply VALUES ('bob', 3, 'ok request 7 6/2
move 7 101 bob 7 - Entered enter
');
INSERT INTO reply VALUES ('bob', 4, 'ok request 8 0/0
move 8 102 bob 8 - Entered enter
');
INSERT INTO reply VALUES ('bob', 5, 'ok request 9 2047/0
move 9 102 bob 9 - Entered enter
');
INSERT INTO reply VALUES ('bob', 6, 'ok approvals 1 of 1
move 10 110 bob 1 Entered Approved approve
');
INSERT INTO reply VALUES ('bob', 7, 'ok approvals 1 of 1
move 11 110 bob 2 Entered Approved approve
');
INSERT INTO reply VALUES ('bob', 8, 'ok approvals 1 of 1
move 12 110 bob 4 Entered Approved approve
');
INSERT INTO reply VALUES ('bob', 9, 'ok approvals 1 of 2
');
INSERT INTO reply VALUES ('ann', 5, 'ok approvals 1 of 1
move 13 110 ann 5 Entered Approved approve
');
INSERT INTO reply VALUES ('ann', 6, 'ok approvals 1 of 1
move 14 110 ann 6 Entered Approved approve
');
INSERT INTO reply VALUES ('ann', 7, 'ok approvals 1 of 1
move 15 110 ann 8 Entered Approved approve
');
INSERT INTO reply VALUES ('ann', 8, 'ok approvals 1 of 1
move 16 110 ann 9 Entered Approved approve
');
INSERT INTO reply VALUES ('ann', 10, 'ok stack heater 3 10
move 17 120 ann 10 - Entered enter
move 18 120 ann 11 - Entered enter
move 19 120 ann 12 - Entered enter
');
INSERT INTO reply VALUES ('bob', 10, 'ok stack spare 2 13
move 20 121 bob 13 - Entered enter
move 21 121 bob 14 - Entered enter
');
INSERT INTO reply VALUES ('bob', 11, 'ok approvals 1 of 2
');
INSERT INTO reply VALUES ('ann', 11, 'ok approvals 1 of 1
move 22 122 ann 13 Entered Approved approve
move 23 122 ann 14 Entered Approved approve
');
INSERT INTO reply VALUES ('bob', 12, 'ok procedure power 3
');
INSERT INTO reply VALUES ('bob', 13, 'ok execution 1
');
INSERT INTO reply VALUES ('ann', 12, 'ok execution 2
');
INSERT INTO reply VALUES ('ann', 14, 'ok
started
');
INSERT INTO reply VALUES ('ann', 15, 'ok
move 24 201 ann 5 Approved Queued release
move 25 201 ann 1 Approved Riding release
move 26 201 ann 5 Queued Sent transmit
');
INSERT INTO reply VALUES ('ann', 16, 'ok accepted 5
');
INSERT INTO reply VALUES ('ann', 17, 'ok work 6/0
');
INSERT INTO reply VALUES ('ann', 18, 'ok tm 1,7 6/0 step 0 code 0
move 27 204 ann 5 Sent Completed report
move 28 204 ann 1 Riding Scheduled insert
');
INSERT INTO reply VALUES ('ann', 19, 'ok
move 29 205 ann 9 Approved Queued release
move 30 205 ann 9 Queued Sent transmit
');
INSERT INTO reply VALUES ('ann', 20, 'ok accepted 9
');
INSERT INTO reply VALUES ('ann', 21, 'ok
');
INSERT INTO reply VALUES ('ann', 22, 'ok clcw 010c0002
move 31 205 ann 9 Sent Confirmed confirm
');
INSERT INTO reply VALUES ('bob', 14, 'ok
');
INSERT INTO reply VALUES ('bob', 15, 'ok
move 32 206 bob 4 Approved Queued release
move 33 206 bob 4 Queued Sent transmit
');
INSERT INTO reply VALUES ('bob', 16, 'ok accepted 4
');
INSERT INTO reply VALUES ('bob', 17, 'ok
');
INSERT INTO reply VALUES ('bob', 18, 'ok work 2047/0
');
INSERT INTO reply VALUES ('bob', 19, 'ok work 5/3
');
INSERT INTO reply VALUES ('bob', 20, 'ok tm 1,1 5/3 step 0 code 0
move 34 209 bob 4 Sent Accepted report
');
INSERT INTO reply VALUES ('bob', 21, 'ok clcw 010c0003
');
INSERT INTO reply VALUES ('bob', 22, 'ok tm 1,3 5/3 step 0 code 0
move 35 209 bob 4 Accepted Started report
');
INSERT INTO reply VALUES ('ann', 23, 'ok
');
INSERT INTO reply VALUES ('ann', 24, 'ok
move 36 211 ann 7 Entered Withdrawn withdraw
');
INSERT INTO reply VALUES ('ann', 25, 'ok
');
INSERT INTO reply VALUES ('ann', 26, 'ok now 1000
');
INSERT INTO reply VALUES ('ann', 27, 'ok
');
INSERT INTO reply VALUES ('ann', 28, 'ok
move 37 221 ann 13 Approved Queued release
move 38 221 ann 13 Queued Sent transmit
');
INSERT INTO reply VALUES ('ann', 29, 'ok
move 39 222 ann 6 Approved Queued release
move 40 222 ann 2 Approved Riding release
');
INSERT INTO reply VALUES ('ann', 4294967295, 'ok
');
INSERT INTO reply VALUES ('bob', 24, 'ok request 15 5/4
move 41 299 bob 15 - Entered enter
');
COMMIT;
