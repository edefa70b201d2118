BEGIN;
CREATE TABLE meta (name TEXT PRIMARY KEY, value INTEGER NOT NULL) STRICT;
CREATE TABLE request (num INTEGER PRIMARY KEY, apid INTEGER NOT NULL, cnt INTEGER NOT NULL, ack INTEGER NOT NULL, critical INTEGER NOT NULL, service INTEGER NOT NULL, subtype INTEGER NOT NULL, target INTEGER NOT NULL, at_time INTEGER NOT NULL, outcome TEXT NOT NULL, author TEXT NOT NULL, stack TEXT NOT NULL, line INTEGER NOT NULL, prior INTEGER NOT NULL, place INTEGER NOT NULL) STRICT;
CREATE TABLE move (seq INTEGER PRIMARY KEY, request INTEGER NOT NULL, from_place INTEGER NOT NULL, to_place INTEGER NOT NULL, cause INTEGER NOT NULL, person TEXT NOT NULL, moment INTEGER NOT NULL) STRICT;
CREATE INDEX move_by_request ON move (request, seq);
CREATE TABLE tally (place INTEGER PRIMARY KEY, amount INTEGER NOT NULL) STRICT;
CREATE TABLE request_approval (request INTEGER NOT NULL, person TEXT NOT NULL, PRIMARY KEY (request, person)) STRICT;
CREATE TABLE stack (name TEXT PRIMARY KEY, author TEXT NOT NULL, critical INTEGER NOT NULL) STRICT;
CREATE TABLE stack_approval (stack TEXT NOT NULL, person TEXT NOT NULL, PRIMARY KEY (stack, person)) STRICT;
CREATE TABLE procedure (name TEXT PRIMARY KEY, author TEXT NOT NULL) STRICT;
CREATE TABLE step (procedure TEXT NOT NULL, step INTEGER NOT NULL, body TEXT NOT NULL, countersign INTEGER NOT NULL, request INTEGER NOT NULL, PRIMARY KEY (procedure, step)) STRICT;
CREATE TABLE execution (num INTEGER PRIMARY KEY, procedure TEXT NOT NULL, person TEXT NOT NULL, moment INTEGER NOT NULL) STRICT;
CREATE TABLE record (execution INTEGER NOT NULL, step INTEGER NOT NULL, verdict INTEGER NOT NULL, person TEXT NOT NULL, second TEXT NOT NULL, moment INTEGER NOT NULL, PRIMARY KEY (execution, step)) STRICT;
CREATE TABLE reply (person TEXT NOT NULL, number INTEGER NOT NULL, body TEXT NOT NULL, PRIMARY KEY (person, number)) STRICT;
INSERT INTO meta VALUES ('schema', 2);
INSERT INTO request VALUES (1, 5, 0, 9, 0, 8, 1, 0, 0, 'ok', 'ann', '', 0, 0, 13);
INSERT INTO request VALUES (2, 5, 1, 9, 0, 8, 2, 0, 0, 'ok', 'bob', '', 0, 0, 1);
INSERT INTO move VALUES (1, 1, 0, 1, 1, 'ann', 100);
INSERT INTO move VALUES (2, 2, 0, 1, 1, 'bob', 110);
INSERT INTO move VALUES (3, 1, 1, 13, 3, 'ann', 120);
INSERT INTO tally VALUES (1, 1);
INSERT INTO tally VALUES (2, 0);
INSERT INTO tally VALUES (3, 0);
INSERT INTO tally VALUES (4, 0);
INSERT INTO tally VALUES (5, 0);
INSERT INTO tally VALUES (6, 0);
INSERT INTO tally VALUES (7, 0);
INSERT INTO tally VALUES (8, 0);
INSERT INTO tally VALUES (9, 0);
INSERT INTO tally VALUES (10, 0);
INSERT INTO tally VALUES (11, 0);
INSERT INTO tally VALUES (12, 0);
INSERT INTO tally VALUES (13, 1);
INSERT INTO tally VALUES (14, 0);
INSERT INTO tally VALUES (15, 0);
INSERT INTO reply VALUES ('ann', 7, 'ok request 1 5/0
move 1 100 ann 1 - Entered enter
');
INSERT INTO reply VALUES ('bob', 7, 'ok request 2 5/1
move 2 110 bob 2 - Entered enter
');
INSERT INTO reply VALUES ('ann', 8, 'ok
move 3 120 ann 1 Entered Withdrawn withdraw
');
COMMIT;
