-- Makes the schema tcdesk, where it is not there yet, for the moves of many desks: psql -f tables.sql. Run again, it leaves all rows as they are.
BEGIN;
SET LOCAL client_min_messages = warning;
CREATE SCHEMA IF NOT EXISTS tcdesk;

CREATE TABLE IF NOT EXISTS tcdesk.place (place smallint PRIMARY KEY, name text NOT NULL UNIQUE);
INSERT INTO tcdesk.place VALUES (0, '-'), (1, 'Entered'), (2, 'Approved'), (3, 'Queued'), (4, 'Sent'), (5, 'Confirmed'), (6, 'Riding'), (7, 'Scheduled'),
    (8, 'Accepted'), (9, 'Started'), (10, 'Completed'), (11, 'Failed'), (12, 'Doubtful'), (13, 'Withdrawn'), (14, 'Deleted'), (15, 'Closed')
    ON CONFLICT DO NOTHING;

CREATE TABLE IF NOT EXISTS tcdesk.cause (cause smallint PRIMARY KEY, name text NOT NULL UNIQUE);
INSERT INTO tcdesk.cause VALUES (1, 'enter'), (2, 'approve'), (3, 'withdraw'), (4, 'release'), (5, 'transmit'), (6, 'confirm'), (7, 'giveback'),
    (8, 'doubt'), (9, 'report'), (10, 'insert'), (11, 'delete'), (12, 'reset'), (13, 'close'), (14, 'open')
    ON CONFLICT DO NOTHING;

-- each desk: how many moves are known of it, and when a copy was loaded last
CREATE TABLE IF NOT EXISTS tcdesk.desk (desk text PRIMARY KEY, moves integer NOT NULL, loaded timestamptz NOT NULL);

-- each move of each desk, as its file has it
CREATE TABLE IF NOT EXISTS tcdesk.move (
    desk text NOT NULL, seq integer NOT NULL, request integer NOT NULL,
    from_place smallint NOT NULL CHECK (from_place BETWEEN 0 AND 15), to_place smallint NOT NULL CHECK (to_place BETWEEN 1 AND 15),
    cause smallint NOT NULL CHECK (cause BETWEEN 1 AND 14), person text NOT NULL, moment timestamptz NOT NULL,
    PRIMARY KEY (desk, seq));
CREATE INDEX IF NOT EXISTS move_by_moment ON tcdesk.move (moment);
CREATE INDEX IF NOT EXISTS move_by_request ON tcdesk.move (desk, request, seq);

-- the moves with names in place of numbers
CREATE OR REPLACE VIEW tcdesk.timeline AS
    SELECT desk, seq, moment, person, request, before.name AS from_place, after.name AS to_place, cause.name AS cause
    FROM tcdesk.move JOIN tcdesk.place AS before ON before.place = from_place JOIN tcdesk.place AS after ON after.place = to_place
        JOIN tcdesk.cause USING (cause);

-- take_moves(DESK): what the temporary table `staged` holds is the history of this desk. What is not there yet is added; what is there has to be the same, row
-- by row, else all is refused. Answers how many moves came.
CREATE OR REPLACE FUNCTION tcdesk.take_moves(of_desk text) RETURNS integer LANGUAGE plpgsql AS $$
DECLARE
    last integer := (SELECT coalesce(max(seq), 0) FROM pg_temp.staged);
    came integer;
    other integer;
BEGIN
    IF last <> (SELECT count(*) FROM pg_temp.staged WHERE seq >= 1) OR EXISTS (SELECT FROM pg_temp.staged WHERE seq < 1) THEN
        RAISE EXCEPTION 'refused: the moves of the copy are not numbered 1, 2, 3 and so on: it is no desk''s, or not all of one';
    END IF;
    -- who loads the same desk meanwhile waits here
    INSERT INTO tcdesk.desk AS known VALUES (of_desk, last, now())
        ON CONFLICT (desk) DO UPDATE SET moves = greatest(known.moves, excluded.moves), loaded = excluded.loaded;
    INSERT INTO tcdesk.move (desk, seq, request, from_place, to_place, cause, person, moment)
        SELECT of_desk, seq, request, from_place, to_place, cause, person, to_timestamp(moment) FROM pg_temp.staged ORDER BY seq
        ON CONFLICT (desk, seq) DO NOTHING;
    GET DIAGNOSTICS came = ROW_COUNT;
    SELECT min(staged.seq) INTO other FROM pg_temp.staged JOIN tcdesk.move AS kept ON kept.desk = of_desk AND kept.seq = staged.seq
        WHERE (kept.request, kept.from_place, kept.to_place, kept.cause, kept.person, kept.moment)
            <> (staged.request, staged.from_place, staged.to_place, staged.cause, staged.person, to_timestamp(staged.moment));
    IF other IS NOT NULL THEN
        RAISE EXCEPTION 'refused: move % of the desk % is another one here: the copy is of another desk, or of one whose history was forked', other, of_desk;
    END IF;
    RETURN came;
END $$;
COMMIT;
