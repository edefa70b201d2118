#!/bin/bash
# Measures what opening a desk in a file costs: tools/bench/bench_kept.sh [PROGRAM]. It makes files of 40 to 327 stacks of 200 requests, which are entered, approved
# and withdrawn, and opens each three times; beside that the stock sqlite3 shell, where it is installed, selects and prints the rows.
set -eu
top=$(cd "$(dirname "${BASH_SOURCE[0]}")/../.." && pwd)
program=$(readlink -m "${1:-$top/crates/tc_cli/out/tc_cli}")
work=$(mktemp -d)
trap 'rm -rf "$work"' EXIT
cd "$work"
for ((apid = 0; apid < 40; apid++)); do
    echo 'line,apid,service,subtype,target,time,ack,critical,after,outcome' >"s$apid.csv"
    for ((line = 1; line <= 200; line++)); do
        echo "$line,$apid,8,1,,,a--c,no,,ok"
    done >>"s$apid.csv"
done
for stacks in 40 80 160 327; do
    for ((k = 0; k < stacks; k++)); do
        echo "$k ann stack x$k s$((k % 40)).csv"
        echo "$k bob approvestack x$k"
    done >loads
    seq -f '9 bob withdraw %.0f' $((stacks * 200)) >withdrawals
    split -l 40000 withdrawals w.
    rm -f desk.db desk.db-wal
    for script in loads w.*; do
        "$program" run --db desk.db "$script" >/dev/null
    done
    rm w.*
    for ((time = 0; time < 3; time++)); do
        /usr/bin/time -f "$stacks stacks: opened in %U s of a processor, %e s, %M KB" "$program" run --db desk.db /dev/null >/dev/null
        if command -v sqlite3 >/dev/null; then
            /usr/bin/time -f "$stacks stacks: the shell in %U s of a processor, %e s, %M KB" \
                sqlite3 desk.db 'SELECT * FROM request; SELECT * FROM move; SELECT * FROM stack; SELECT * FROM stack_approval' | wc -l
        fi
    done
done
