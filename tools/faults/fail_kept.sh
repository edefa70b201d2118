#!/bin/bash
# tools/faults/fail_kept.sh [PROGRAM [STEP]] refuses the built program its requests for memory, every STEPth of them (the 11th where none is given),
# one a run, on a desk that is kept in a file: the opening of what examples/monday.tc left, and the lines of examples/tuesday.tc. Each run may end as
# a run in memory does, or with `cannot use` the file or memory; and then the file is opened again, where all that was left and all that was printed
# stands. So it is of a desk that is made: the next run finds none and makes it, or an empty one, and that where it was told as new. And so of a
# report of the file, and of one of each earlier version of the schema, of which a front is printed, or all where memory was not wanted after all; the file stays
# as it is, and no log comes beside it. Status 1 where that is not so.
set -u

top=$(cd "$(dirname "${BASH_SOURCE[0]}")/../.." && pwd) || exit 1
program=$(readlink -m "${1:-$top/crates/tc_cli/out/tc_cli}")
step=${2:-11}
[[ -x $program ]] || { echo "fail_kept: $program is not built" >&2; exit 1; }

work=$(mktemp -d) || exit 1
trap 'rm -rf "$work"' EXIT
cd "$work" || exit 1
"$top/tools/faults/make_shim.sh" fail_malloc . || exit 1
"$program" run --db left.db "$top/examples/monday.tc" >left.out 2>err || { cat err >&2; exit 1; }
for request in 1 2 3 4; do
    echo "99999 zed history $request 0"
done >histories

runs=0
unharmed=0
bad=0

# Runs the next shift with request $1 refused, and then looks at the file. False where that request was not made.
try() {
    cp left.db kept.db
    rm -f kept.db-wal
    : >mark
    FAIL_AT=$1 LD_PRELOAD=$work/fail_malloc.so \
        "$program" run --db kept.db --at 86400 "$top/examples/tuesday.tc" >out 2>err 9>mark </dev/null
    local status=$?
    [[ -s mark ]] || return 1
    runs=$((runs + 1))
    [[ $status != 0 ]] || unharmed=$((unharmed + 1))
    local how=bad
    case $status in
    0 | 1) [[ -s err ]] || how=told ;;
    2) grep -qxE 'tcdesk: cannot use (memory|kept\.db)' err && how=told ;;
    esac
    "$program" run --db kept.db --at 99998 histories >seen 2>>err
    [[ $? -le 1 ]] && ! grep -h '^move ' left.out out | sort -u | grep -qvxFf seen || how=bad
    if [[ $how == bad ]]; then
        bad=$((bad + 1))
        echo "fail_kept: request $1: status $status" >&2
        cat out err seen >&2
    fi
    return 0
}

# Makes a desk with request $1 refused, and opens it again. False where that request was not made.
try_made() {
    rm -f made.db made.db-wal
    : >mark
    FAIL_AT=$1 LD_PRELOAD=$work/fail_malloc.so "$program" run --db made.db /dev/null >out 2>err 9>mark </dev/null
    local status=$?
    [[ -s mark ]] || return 1
    sed -i '/^tcdesk: because /d' err
    makings=$((makings + 1))
    local how=bad told=
    [[ $(head -n 1 err) != "$new" ]] || told=$new$'\n'
    case $status in
    0) [[ $(<err) == "$new" && $(<out) == "$none" ]] && how=told ;;
    1) [[ $(<err) == "$new" && $(<out) == @(refused 30 Memory|refused 31 Store) ]] && how=told ;;
    2) [[ $(<err) == "${told}tcdesk: cannot use "@(memory|made.db) && $(<out) == @(|"$none"|refused 31 Store) ]] && how=told ;;
    esac
    "$program" run --db made.db /dev/null >seen 2>again
    [[ $? == 0 && $(<seen) == "$none" && ( ! -s again || ( -z $told && $(<again) == "$new" ) ) ]] || how=bad
    [[ -z $told ]] || founds=$((founds + 1))
    if [[ $how == bad ]]; then
        bad=$((bad + 1))
        echo "fail_kept: a desk that is made, request $1: status $status" >&2
        cat out err seen again >&2
    fi
    return 0
}

# Reports the file $1 with request $2 refused, and then looks at the file. False where that request was not made.
try_report() {
    cp "$1" kept.db
    rm -f kept.db-wal
    : >mark
    FAIL_AT=$2 LD_PRELOAD=$work/fail_malloc.so "$program" report kept.db 0 4102444799 >out 2>err 9>mark </dev/null
    local status=$?
    [[ -s mark ]] || return 1
    reports=$((reports + 1))
    local how=bad
    case $status in
    0) cmp -s report out && [[ ! -s err ]] && how=told ;;
    2) cmp -s <(head -c "$(wc -c <out)" report) out && grep -qxE 'tcdesk: cannot use (memory|kept\.db)' err && how=told ;;
    esac
    cmp -s "$1" kept.db && [[ ! -e kept.db-wal ]] || how=bad
    if [[ $how == bad ]]; then
        bad=$((bad + 1))
        echo "fail_kept: a report of $1, request $2: status $status" >&2
        cat out err >&2
    fi
    return 0
}

at=1
while try "$at"; do
    at=$((at + step))
done
((runs * step > 5000)) || { bad=$((bad + 1)); echo "fail_kept: few runs" >&2; }

new="tcdesk: made.db is a new desk"
none="places 0: 0 0 0 0 0 0 0 0 0 0 0 0 0 0 0"
makings=0
founds=0
at=1
while try_made "$at"; do
    at=$((at + 7 * step)) # a making waits for the disk too
done
((makings * step > 200)) || { bad=$((bad + 1)); echo "fail_kept: few desks that are made" >&2; }

files=(left.db)
for version in "$top"/tools/cases/schema-*; do
    file=${version##*/}.db
    python3 -c 'import sqlite3, sys; sqlite3.connect(sys.argv[1]).executescript(open(sys.argv[2]).read())' "$file" "$version/every-table.sql" || exit 1
    files+=("$file")
done
reports=0
for file in "${files[@]}"; do
    [[ $file != "${files[1]}" ]] || step=$((3 * step))
    "$program" report $file 0 4102444799 >report || exit 1
    before=$reports
    at=1
    while try_report $file "$at"; do
        at=$((at + step))
    done
    (((reports - before) * step > 200)) || { bad=$((bad + 1)); echo "fail_kept: few reports of $file" >&2; }
done

echo "fail_kept: $runs runs, $unharmed unharmed, $makings of a desk that is made, $founds of them told, and $reports reports, $bad bad"
((bad == 0 && founds > 0))
