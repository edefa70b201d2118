-- Names in place of numbers, and what waits for a person, for whoever reads a desk's file with the stock shell: one that no desk has open, or a copy.
--   sqlite3 -readonly desk.db
--   sqlite> .read examples/views.sql
--   sqlite> SELECT * FROM waiting;
-- The views are temporary, so that the file stays as it is: a view in the file would make it no desk's.
-- A file of an earlier version lacks tables (`reply`, `cargo`) until a desk has opened it: `waiting`, `cargoes` and `replies` are not read there, all else is.

CREATE TEMP TABLE place_name (place INTEGER PRIMARY KEY, name TEXT);
INSERT INTO place_name VALUES (1, 'Entered'), (2, 'Approved'), (3, 'Queued'), (4, 'Sent'), (5, 'Confirmed'), (6, 'Riding'), (7, 'Scheduled'),
    (8, 'Accepted'), (9, 'Started'), (10, 'Completed'), (11, 'Failed'), (12, 'Doubtful'), (13, 'Withdrawn'), (14, 'Deleted'), (15, 'Closed');

CREATE TEMP TABLE cause_name (cause INTEGER PRIMARY KEY, name TEXT);
INSERT INTO cause_name VALUES (1, 'enter'), (2, 'approve'), (3, 'withdraw'), (4, 'release'), (5, 'transmit'), (6, 'confirm'), (7, 'giveback'),
    (8, 'doubt'), (9, 'report'), (10, 'insert'), (11, 'delete'), (12, 'reset'), (13, 'close'), (14, 'open');

-- each request, with the place where it stands
CREATE TEMP VIEW requests AS
    SELECT num, apid || '/' || cnt AS identity, service || '/' || subtype AS command, critical, author, stack, line, place_name.name AS place
    FROM request JOIN place_name USING (place) ORDER BY num;

-- each move: its moment in UTC, from where to where, and why
CREATE TEMP VIEW timeline AS
    SELECT seq, datetime(moment, 'unixepoch') AS moment, person, request, coalesce(before.name, '-') AS from_place, after.name AS to_place,
        cause_name.name AS cause
    FROM move LEFT JOIN place_name AS before ON before.place = from_place JOIN place_name AS after ON after.place = to_place
        JOIN cause_name USING (cause)
    ORDER BY seq;

-- how many requests stand at each place
CREATE TEMP VIEW counts AS
    SELECT place_name.name AS place, amount FROM tally JOIN place_name USING (place) ORDER BY tally.place;

-- each activity that an insert names behind its first
CREATE TEMP VIEW cargoes AS
    SELECT request, position, target, datetime(at_time, 'unixepoch') AS at_time FROM cargo ORDER BY request, position;

-- each reply that is kept, by its first line
CREATE TEMP VIEW replies AS
    SELECT person, number, substr(body, 1, instr(body, char(10)) - 1) AS line FROM reply ORDER BY rowid;

-- each approval of a request or of a stack: the how many-th of those that are wanted, by whom, and when. Only the last that is wanted makes a move, and so
-- has a moment; none has where all rows of the stack were withdrawn before.
CREATE TEMP VIEW approvals AS
    WITH given(what, name, person, author, wanted, position, moment) AS (
        SELECT 'request', request, person, author, 1 + critical, row_number() OVER (PARTITION BY request ORDER BY request_approval.rowid),
            (SELECT moment FROM move WHERE move.request = num AND cause = 2)
        FROM request_approval JOIN request ON num = request
        UNION ALL
        SELECT 'stack', stack, person, author, 1 + critical, row_number() OVER (PARTITION BY stack ORDER BY stack_approval.rowid), moved.moment
        FROM stack_approval JOIN stack ON name = stack LEFT JOIN (
            SELECT stack, min(moment) AS moment FROM request JOIN move ON move.request = num AND cause = 2 WHERE stack <> '' GROUP BY stack
        ) AS moved USING (stack))
    SELECT what, name, author, position || ' of ' || wanted AS approval, person,
        iif(position = wanted, datetime(moment, 'unixepoch'), NULL) AS moment
    FROM given ORDER BY what, name, position;

-- the requests that a release of one at Approved moves: itself, and of an insert its activities, by their positions
CREATE TEMP VIEW going AS
    SELECT num AS request, 0 AS position, num AS goes FROM request WHERE place = 2
    UNION ALL SELECT num, 1, target FROM request WHERE place = 2 AND service = 11 AND subtype = 4
    UNION ALL SELECT num, position, cargo.target FROM request JOIN cargo ON cargo.request = num WHERE place = 2;

-- why the release of one at Approved is refused by the book, which is 7 and then 19: a line of its stack that is not at Completed, or an activity that is not
-- at Approved. The rows of a stack are numbered one behind the other.
CREATE TEMP VIEW locks AS
    SELECT going.request, 7 AS refusal, going.position, 'locked by line ' || it.prior || ' of ' || it.stack || ', request ' || before.num || ' at ' || name AS why
    FROM going JOIN request AS it ON it.num = goes JOIN request AS before ON before.num = it.num - it.line + it.prior
        JOIN place_name ON place_name.place = before.place
    WHERE it.prior <> 0 AND before.place <> 10
    UNION ALL
    SELECT going.request, 19, going.position, 'its activity ' || goes || ' is at ' || name
    FROM going JOIN request AS it ON it.num = goes JOIN place_name ON place_name.place = it.place
    WHERE it.place <> 2;

-- what waits for a person: for an approval, for its release (free, or why not), for what became of it to be found out (doubt), or for its next step
CREATE TEMP VIEW waiting AS
    WITH waits(kind, number, waits_for, what, author, critical, given, wanted, persons, told) AS (
        SELECT 1, num, 'approval', 'request ' || num, author, critical, (SELECT count(*) FROM request_approval WHERE request = num), 1 + critical,
            (SELECT group_concat(person, ' ') FROM request_approval WHERE request = num), ''
        FROM request WHERE place = 1 AND stack = ''
        UNION ALL
        SELECT 1, first, 'approval', 'stack ' || name, author, critical, (SELECT count(*) FROM stack_approval WHERE stack_approval.stack = name), 1 + critical,
            (SELECT group_concat(person, ' ') FROM stack_approval WHERE stack_approval.stack = name),
            rows || ' of its requests, from ' || first || ' on'
        FROM (SELECT stack, count(*) AS rows, min(num) AS first FROM request WHERE place = 1 AND stack <> '' GROUP BY stack) AS at_entered
            JOIN stack ON name = at_entered.stack
        UNION ALL
        SELECT 2, num, 'release', 'request ' || num, author, critical, NULL, NULL, NULL,
            coalesce((SELECT group_concat(why, '; ') FROM (SELECT why FROM locks WHERE locks.request = num
                GROUP BY why ORDER BY min(refusal), min(position))), 'free')
        FROM request WHERE place = 2
        UNION ALL
        SELECT 3, num, 'doubt', 'request ' || num, author, critical, NULL, NULL, NULL,
            (SELECT 'since ' || datetime(moment, 'unixepoch') FROM move WHERE move.request = num ORDER BY seq DESC LIMIT 1)
        FROM request WHERE place = 12
        UNION ALL
        SELECT 4, num, 'step', 'execution ' || num, person, NULL, NULL, NULL, NULL, 'step ' || step.step || ' of ' || step.procedure ||
            iif(countersign, ', with a second person', '') || iif(request <> 0, ', releases request ' || request, '') || ': ' || body
        FROM execution JOIN step ON step.procedure = execution.procedure
            AND step.step = 1 + (SELECT count(*) FROM record WHERE record.execution = num)
        WHERE NOT EXISTS (SELECT 1 FROM record WHERE record.execution = num AND verdict = 3))
    SELECT waits_for, what, author, CASE critical WHEN 1 THEN 'yes' WHEN 0 THEN 'no' END AS critical, given, wanted, persons, told
    FROM waits ORDER BY kind, number;
