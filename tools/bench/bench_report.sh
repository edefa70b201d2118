#!/bin/bash
# Measures what a shift report costs: tools/bench/bench_report.sh [PROGRAM]. It makes the file of a desk with 990,000 moves (a desk that the program made, whose rows the
# stock sqlite3 shell adds: no desk could have written them, and a report judges that of none), reports all of them and an hour of them, and has the shell select
# and print the same lines from the same file. The lines have to be the same. Each is timed three times.
set -eu
top=$(cd "$(dirname "${BASH_SOURCE[0]}")/../.." && pwd)
program=$(readlink -m "${1:-$top/crates/tc_cli/out/tc_cli}")
command -v sqlite3 >/dev/null || { echo "bench_report: the stock shell is not installed (Debian's sqlite3)" >&2; exit 1; }
work=$(mktemp -d)
trap 'rm -rf "$work"' EXIT
cd "$work"
"$program" run --db desk.db - </dev/null >/dev/null
rm -f desk.db-wal
sqlite3 desk.db <<'SQL'
WITH RECURSIVE n(seq) AS (SELECT 1 UNION ALL SELECT seq + 1 FROM n WHERE seq < 990000)
INSERT INTO move SELECT seq, seq % 65000 + 1, seq % 16, seq % 15 + 1, seq % 14 + 1, 'person' || seq % 7, 1900000000 + seq * 7 FROM n;
SQL
rm -f desk.db-wal desk.db-shm

# shell FROM TO: the lines of the moves, by the shell
shell() {
    sqlite3 desk.db -cmd ".read $top/examples/views.sql" "SELECT printf('%8d %s %-16s %6d %-9s %-9s %s', seq, timeline.moment, timeline.person, timeline.request,
        timeline.from_place, timeline.to_place, timeline.cause) FROM timeline JOIN move USING (seq) WHERE move.moment >= $1 AND move.moment < $2 ORDER BY seq"
}

for shift in "0 4102444799" "1900003600 1900007200"; do
    for ((time = 0; time < 3; time++)); do
        # shellcheck disable=SC2086
        /usr/bin/time -f "$shift: the report in %U s of a processor, %e s, %M KB" "$program" report desk.db $shift >report
        export -f shell
        export top
        /usr/bin/time -f "$shift: the shell in %U s of a processor, %e s, %M KB" bash -c "shell $shift" >lines
        grep '^ *[0-9]' report | cmp - lines
    done
    wc -l <lines
done
/usr/bin/time -f "the columns alone: the shell in %U s of a processor, %e s" sqlite3 desk.db 'SELECT * FROM move' | wc -l
