#!/bin/bash
# Runs the built program on the first run's script, where the script comes and the output goes in small pieces, and
# where a read or a write fails, one after the other. Each run has to end in one of these ways:
#   - a read failed, or the script never ends: nothing is written, and the script cannot be used;
#   - a write failed or took nothing: what is written is the front of the right output up to there, to the byte, and the
#     output cannot be used. Each reply is one write, so whole writes end at a reply's end;
#   - nothing failed: all is right. The last run of each series is such a run.
# How often the program reads and writes is checked too, so that it asks for nothing more after a failure. Ends with how
# many passed; status 1 where one failed.
set -u
LC_ALL=C
top=$(cd "$(dirname "${BASH_SOURCE[0]}")/../.." && pwd) || exit 1
program=${1:-$top/crates/tc_cli/out/tc_cli}
script=$top/examples/first-run.tc
[[ -x $program ]] || { echo "stream_cases: $program is not built" >&2; exit 1; }
work=$(mktemp -d) || exit 1
trap 'rm -rf "$work"' EXIT
cd "$work" || exit 1
"$top/tools/faults/make_shim.sh" fail_io . || exit 1
passed=0
failed=0

# What the six lines and the last question are answered, each reply by itself.
replies=(
    $'ok request 1 5/0\nmove 1 100 ann 1 - Entered enter\n'
    $'ok request 2 5/1\nmove 2 110 bob 2 - Entered enter\n'
    $'ok\nmove 3 120 ann 1 Entered Withdrawn withdraw\n'
    $'places 2: 1 0 0 0 0 0 0 0 0 0 0 0 1 0 0\n'
    $'history 1: 2\nmove 1 100 ann 1 - Entered enter\nmove 3 120 ann 1 Entered Withdrawn withdraw\n'
    $'places 2: 1 0 0 0 0 0 0 0 0 0 0 0 1 0 0\n'
)
right=$(printf '%s' "${replies[@]}"; echo .)
right=${right%.}
# The script has so many bytes.
size=$(wc -c <"$script")

# check SETTINGS SCRIPT READS WRITES STATUS STDOUT UNUSABLE: runs the program on the script, with these settings of
# fail_io.c. READS is a pattern. Standard error has to say that UNUSABLE cannot be used, or nothing where it is empty.
# Descriptor 3 is closed, so that it becomes the script's where that is a file.
check() {
    local settings=$1 name=$2 reads=$3 writes=$4 status=$5 out=$6 err=${7:+"tcdesk: cannot use $7"$'\n'}
    local got counts got_out got_err
    # The settings are words of their own.
    # shellcheck disable=SC2086
    timeout 300 env $settings LD_PRELOAD="$work/fail_io.so" "$program" run "$name" >out 2>err 9>counts 3<&-
    got=$?
    counts=$(<counts)
    IFS= read -r -d '' got_out <out
    # why it cannot be used is looked for elsewhere
    sed -i '/^tcdesk: because /d' err
    IFS= read -r -d '' got_err <err
    # shellcheck disable=SC2053
    if [[ $got == "$status" && $got_out == "$out" && $got_err == "$err" && $counts == $reads\ $writes ]]; then
        passed=$((passed + 1))
    else
        failed=$((failed + 1))
        echo "stream_cases: run $name, $settings: status $got, reads and writes $counts, output and error:" >&2
        cat out err >&2
    fi
}

# ---- reads

# One byte a read, from the standard input and from a file. The read after the last byte finds the end.
for from in "0 -" "3 $script"; do
    name=${from#* }
    settings="READ_FROM=${from%% *} READ_MOST=1"
    for ((at = 1; at <= size + 1; at++)); do
        check "$settings READ_FAIL_AT=$at" "$name" "$at" 0 2 "" "$name" <"$script"
    done
    check "$settings READ_FAIL_AT=$((size + 2))" "$name" $((size + 1)) 6 0 "$right" "" <"$script"
done

# A script that never ends: the program stops after 100,000 reads, or at the read that gives byte 1,048,577.
while read -r most reads; do
    check "READ_LINE_ENDS=1 READ_MOST=$most" - "$reads" 0 2 "" - </dev/null
done <<'TEXT'
1 100000
10 100000
11 95326
4096 257
TEXT
for most in 1 10 11 4096; do
    check "READ_MOST=$most" - '*' 0 2 "" - < <(yes '')
done

# ---- writes

# Each whole write in turn fails, or takes nothing. The script is read at once, and once more for its end.
for how in WRITE_FAIL_AT WRITE_NOTHING_AT; do
    front=
    for ((at = 1; at <= ${#replies[@]}; at++)); do
        check "$how=$at" - 2 "$at" 2 "$front" output <"$script"
        front+=${replies[at - 1]}
    done
    check "$how=$at" - 2 6 0 "$right" "" <"$script"
done

# One byte a write, until one fails, or takes nothing.
for how in WRITE_FAIL_AT WRITE_NOTHING_AT; do
    for ((at = 1; at <= ${#right}; at++)); do
        check "WRITE_MOST=1 $how=$at" - 2 "$at" 2 "${right:0:at - 1}" output <"$script"
    done
    check "WRITE_MOST=1 $how=$at" - 2 ${#right} 0 "$right" "" <"$script"
done

echo "stream cases: $passed passed, $failed failed"
[[ $failed == 0 ]]
