#!/bin/bash
# Run by hand, where the stock sqlite3 shell is installed: what the shell makes of a desk's file, tools/bench/sqlite_shell.sh [PROGRAM]. The file has the
# two shifts of examples/, a stack and a procedure. The shell finds it sound, shows its schema and rows, and by the views of examples/views.sql
# the names of places and causes; and then the desk goes on in the file, as it was. So it does in a file of each earlier version, which the shell makes. Status 1 where
# one of these fails.
set -eu
top=$(cd "$(dirname "$(readlink -f "$0")")/../.." && pwd)
program=$(readlink -m "${1:-$top/crates/tc_cli/out/tc_cli}")
work=$(mktemp -d)
trap 'rm -rf "$work"' EXIT
cd "$top"
for script in monday tuesday stack procedure; do
    "$program" run --db "$work/desk.db" "examples/$script.tc" >"$work/$script.out" || [[ $? == 1 ]]
done
[[ $(sqlite3 "$work/desk.db" "PRAGMA integrity_check") == ok ]]
sqlite3 -header "$work/desk.db" .schema "SELECT * FROM meta" "SELECT * FROM request" "SELECT * FROM move" "SELECT * FROM tally" "SELECT * FROM reply" "SELECT * FROM cargo"
sqlite3 -header "$work/desk.db" -cmd ".read examples/views.sql" "SELECT * FROM requests" "SELECT * FROM timeline" "SELECT * FROM counts" "SELECT * FROM replies" \
    "SELECT * FROM cargoes" "SELECT * FROM waiting" "SELECT * FROM approvals"
"$program" run --db "$work/desk.db" --at 100000 /dev/null

# A file of each earlier version, as the shell makes it: the views are read there too, and the desk goes on.
for version in tools/cases/schema-*; do
    file=$work/${version##*/}.db
    sqlite3 "$file" <"$version/every-table.sql"
    sqlite3 -header "$file" -cmd ".read examples/views.sql" "SELECT * FROM requests" "SELECT * FROM counts"
    "$program" run --db "$file" --at 500 "$version/every-table.day2" | cmp - "$version/every-table.day2.stdout"
    [[ $(sqlite3 "$file" "PRAGMA integrity_check" "SELECT value FROM meta" "SELECT count(*) FROM cargo") == $'ok\n3\n0' ]]
done
