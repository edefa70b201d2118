-- Loads moves, which are read from the standard input, as those of the desk :desk, or nothing where one of them is refused: take_moves is one statement. load.sh
-- runs it.
\set ON_ERROR_STOP on
\set VERBOSITY terse
CREATE TEMPORARY TABLE staged (seq bigint PRIMARY KEY, request bigint NOT NULL, from_place bigint NOT NULL, to_place bigint NOT NULL, cause bigint NOT NULL,
    person text NOT NULL, moment bigint NOT NULL);
\copy staged FROM pstdin WITH (FORMAT csv)
SELECT tcdesk.take_moves(:'desk') AS came \gset
SELECT 'desk ' || desk || ': ' || moves || ' moves, ' || :came || ' of them new' FROM tcdesk.desk WHERE desk = :'desk';
