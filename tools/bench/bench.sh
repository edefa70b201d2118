#!/bin/bash
# What acts cost: tools/bench/bench.sh [RUNS] prints the table of docs/BENCH.md, of so many runs each (5): the least
# wall time, the user and kernel time of the run with the least of both together, and the most memory.
#
# Scripts of short lines go through the built program. Beside it stands SQLite's own C library, which writes the rows of entries
# by the same texts in memory and in a file (tools/bench/bench_sqlite.c), where its headers are installed (Debian's
# libsqlite3-dev). Each has to tell as many requests where they stand as were entered, or withdrawn. Times are given as
# multiples of the user time of the C library in memory.
#
# Less is measured where these words are set: COUNTS, how many requests are entered; HALF, how many are entered and then
# withdrawn.
set -eu -o pipefail
top=$(cd "$(dirname "$(readlink -f "$0")")/../.." && pwd)
runs=${1:-5}
counts=${COUNTS:-1000 10000 30000 60000}
half=${HALF:-20000}
began="$(date -u +%F), $(nproc) cores, a load of $(cut -d ' ' -f 1 /proc/loadavg) before it began"
work=$(mktemp -d)
trap 'rm -rf "$work"' EXIT

# The program is built where it is missing or older than a source.
program=$top/crates/tc_cli/out/tc_cli
"$top/tcdesk" run - </dev/null >/dev/null

# The texts by which the store makes its tables, writes its rows and reads its tallies.
mapfile -t texts < <(grep -ohE '"(CREATE|INSERT|SELECT) [^"]*"' "$top"/crates/tc_store/src/*.rt | tr -d '"')
library=$work/bench_sqlite
if ! echo '#include <sqlite3.h>' | "${CC:-cc}" -E - >/dev/null 2>&1; then
    echo "bench: sqlite3.h is not installed (Debian's libsqlite3-dev): the C library is not measured" >&2
    library=
elif ! "${CC:-cc}" -O2 -o "$library" "$top/tools/bench/bench_sqlite.c" -lsqlite3; then
    echo "bench: tools/bench/bench_sqlite.c was not built: the C library is not measured" >&2
    library=
fi

# N entries, of ten APIDs in turn. Lines are short: a script has at most 1,048,576 bytes.
enters() {
    awk -v n="$1" 'BEGIN { for (i = 0; i < n; i++) print "0 a enter " (i % 10) " ---- no 8 1 - - ok" }'
}
withdraws() {
    awk -v n="$1" 'BEGIN { for (i = 1; i <= n; i++) print "0 b withdraw " i }'
}

# timed NAME ACTS TOLD COMMAND..: runs the command so often, and writes down each run: its seconds, of the user and of the
# kernel, its memory, and the bytes of the file that it makes, 0 for none. TOLD has to be the last line of its output.
timed() {
    local name=$1 acts=$2 told=$3 run bytes times
    shift 3
    for ((run = 0; run < runs; run++)); do
        rm -f "$work/file" "$work/file"-*
        TIMEFORMAT=$'%R\t%U\t%S'
        { time /usr/bin/time -o "$work/memory" -f %M "$@" >"$work/out" 2>&3; } 3>&2 2>"$work/time"
        [[ $(tail -n 1 "$work/out") == "$told" ]] || { echo "bench: $name tells something else" >&2; exit 1; }
        bytes=$(stat -c %s "$work/file" 2>/dev/null || echo 0)
        times=$(<"$work/time")
        printf '%s\t%s\t%s\t%s\t%s\n' "$times" "$(<"$work/memory")" "$bytes" "$acts" "$name" >>"$work/runs"
    done
}

# Prints what was written down as rows of the table, and forgets it.
rows() {
    awk -F '\t' 'function commas(n) { return n < 1000 ? n : commas(int(n / 1000)) sprintf(",%03d", n % 1000) }
        function times(of, to) { return to == "" ? "" : sprintf("%.1f", of / (to > 0 ? to : 0.001)) }
        {
            acts = $6
            name = $7
            if (!(name in user)) names[++count] = name
            if (!(name in user) || $1 < wall[name]) wall[name] = $1
            if (!(name in user) || $2 + $3 < user[name] + kernel[name]) {
                user[name] = $2
                kernel[name] = $3
            }
            if ($4 > memory[name]) memory[name] = $4
            bytes[name] = $5
        }
        END {
            for (at = 1; at <= count; at++) {
                name = names[at]
                printf "| %s %s | %.2f | %.3f | %.2f | %s | %s | %.1f | %s |\n", commas(acts), name,
                    wall[name], user[name], kernel[name], commas(int(acts / (user[name] > 0 ? user[name] : 0.001))),
                    times(user[name], user["entries, the C library"]),
                    memory[name] / 1024, bytes[name] ? sprintf("%.2f", bytes[name] / 1048576) : ""
            }
        }' "$work/runs"
    rm "$work/runs"
}

echo "$began; of $runs runs each${library:+; SQLite $("$library" version), its file on $(findmnt -no FSTYPE -T "$work" || stat -f -c %T "$work")}"
echo
echo "| What | Wall s | User s | Kernel s | Acts a user second | Times C | MB | File MB |"
echo "|---|---|---|---|---|---|---|---|"
zeros="0 0 0 0 0 0 0 0 0 0 0 0 0 0"
for count in $counts; do
    enters "$count" >"$work/script"
    if (($(stat -c %s "$work/script") <= 1048576)); then
        timed '`enter`, a script' "$count" "places $count: $count $zeros" "$program" run "$work/script"
    fi
    if [[ -n $library ]]; then
        timed "entries, the C library" "$count" "$count" "$library" :memory: "$count" "${texts[@]}"
        timed "entries, the C library in a file" "$count" "$count" "$library" "$work/file" "$count" "${texts[@]}"
    fi
    [[ ! -e $work/runs ]] || rows
done
{ enters "$half"; withdraws "$half"; } >"$work/script"
if (($(stat -c %s "$work/script") <= 1048576)); then
    timed "acts, half entries, then half withdrawals, a script" $((half * 2)) "places $half: 0 0 0 0 0 0 0 0 0 0 0 0 $half 0 0" "$program" run "$work/script"
    rows
fi
