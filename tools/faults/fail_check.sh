#!/bin/bash
# Refuses the built program its requests for memory, one after the other, as it checks texts: tools/faults/fail_check.sh [PROGRAM], at any place.
#
# The texts are a stack and a procedure, and one of each with a fault, by their files and by the standard input. A run has to print the line that
# it prints where no request is refused, with the same status and nothing on standard error; or nothing at all, where standard error has
# `tcdesk: cannot use memory` and the status is 2. The number of the refused request goes up until a run asks for less memory than that. Status 1
# where a run ended in another way, or where a check never ended for memory.
set -u

top=$(cd "$(dirname "${BASH_SOURCE[0]}")/../.." && pwd) || exit 1
program=$(readlink -m "${1:-$top/crates/tc_cli/out/tc_cli}")
[[ -x $program ]] || { echo "fail_check: $program is not built" >&2; exit 1; }

work=$(mktemp -d) || exit 1
trap 'rm -rf "$work"' EXIT
cd "$work" || exit 1
"$top/tools/faults/make_shim.sh" fail_malloc . || exit 1
runs=0
ended=0
bad=0

# refuse AT KIND FILE: has FILE, or the standard input where it is -, checked with request AT refused. False where that was not asked for.
refuse() {
    local status
    FAIL_AT=$1 LD_PRELOAD=$work/fail_malloc.so "$program" check "$2" "$3" >out 2>err 9>mark <input
    status=$?
    [[ -s mark ]] || return 1
    runs=$((runs + 1))
    if [[ $status == 2 && ! -s out && $(<err) == "tcdesk: cannot use memory" ]]; then
        ended=$((ended + 1))
    elif [[ $status != "$wanted" || -s err ]] || ! cmp -s line out; then
        bad=$((bad + 1))
        echo "fail_check: check $2 $3, request $1: status $status, output and error:" >&2
        cat out err >&2
    fi
}

# check KIND FILE STATUS: tries all requests of a check, which ends so where none is refused.
check() {
    local at=1 before=$ended
    wanted=$3
    "$program" check "$1" "$2" >line 2>err <input
    [[ $? == "$wanted" && ! -s err ]] || { bad=$((bad + 1)); echo "fail_check: check $1 $2 ends otherwise than with $wanted" >&2; }
    while refuse "$at" "$1" "$2"; do
        at=$((at + 1))
    done
    ((ended > before)) || { bad=$((bad + 1)); echo "fail_check: check $1 $2 never ended for memory" >&2; }
}

# Two activities and their insert, as a spreadsheet writes them; and two steps.
printf '\xef\xbb\xbf%s\r\n' 'line,apid,service,subtype,target,time,ack,critical,after,outcome' >stack.csv
printf '%s\r\n' '1,5,8,1,,,a--c,no,,ok' '2,5,8,2,,,a--c,no,,ok' '3,5,11,4,2;1,2031-05-04T10:00:00Z;2031-05-04T11:00:00Z,---c,yes,1,ok' >>stack.csv
printf '%s\n' 'step,text,second,request' '1,check power,no,' '2,switch on,yes,1' >procedure.csv
sed 's/a--c/---c/' stack.csv >barred.csv
sed 's/yes/maybe/' procedure.csv >faulty.csv

: >input
check stack stack.csv 0
check stack barred.csv 1
check procedure procedure.csv 0
check procedure faulty.csv 1
cp stack.csv input
check stack - 0
cp faulty.csv input
check procedure - 1
echo "fail_check: $runs runs: $ended ended for memory, $((runs - ended - bad)) unharmed, $bad bad"
((bad == 0))
