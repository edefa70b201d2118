#!/bin/bash
# Loads the moves of a copy of a desk's file into PostgreSQL: load.sh DESK COPY. They come under the name DESK, 1 to 64 of a-zA-Z0-9 and .:_-
# That may be done again and again, with the same copy, a later one or an older one: what is there already is left, and has to be the same.
#
# tables.sql, beside this file, was run in the database before. Which one it is, the environment says as it does for psql (PGHOST, PGDATABASE, PGUSER
# and others). It is asked for with psql, and the copy is read with sqlite3. Nobody may have the copy open as a desk.
#
# It prints how many moves the desk has there, and how many of them are new. Where a move is another one there, or anything fails, standard error says why,
# the status is 1, and nothing was loaded.
set -u
here=$(dirname "$(readlink -f "$0")")

# fail WHY: says why nothing was loaded, and ends.
fail() {
    echo "load: $1" >&2
    exit 1
}

(($# == 2)) || fail "give two words: the name of the desk, and a copy of its file"
[[ $1 =~ ^[a-zA-Z0-9.:_-]{1,64}$ ]] || fail "no name of a desk: $1"
for need in sqlite3 psql; do
    command -v "$need" >/dev/null || fail "$need is not installed (Debian: sqlite3, postgresql-client)"
done
[[ -f $2 && -r $2 ]] || fail "there is no file $2, or it may not be read"
copy=$(readlink -f "$2")
work=$(mktemp -d) || exit 1
trap 'rm -rf "$work"' EXIT

# all of them are read before the first is loaded
sqlite3 -batch -init /dev/null -noheader -csv -newline $'\n' -readonly "$copy" "SELECT seq, request, from_place, to_place, cause, person, moment FROM move ORDER BY seq" \
    >"$work/moves" 2>"$work/said" || fail "$2 cannot be read as a desk's file: $(<"$work/said")"
PGAPPNAME=tcdesk psql -X -q -A -t -v desk="$1" -f "$here/load.sql" <"$work/moves" >"$work/printed" 2>"$work/said" ||
    fail "$1: $(sed 's/^psql:[^ ]* ERROR:  //' "$work/said")"
cat "$work/printed"
