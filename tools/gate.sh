#!/bin/bash
# The gate. `rt ci` checks every proof, runs the tests of the crates, builds the program by two compilers, and tries the few edits of must-fail/. Then come
# the program that is kept in dist/, and all tests of tools/run.py, as many beside each other as there are processors. docs/GATE.md has a line for each.
# It takes no file that an earlier run left in the clone. But `rt ci` takes proofs of the same texts, over the same crates, from the toolchain's store on
# this machine; --anew proves all, too.
# It stops at the first of its own parts that fails, and runs all tests. At its end it prints what each part took. A test that does without something
# prints a line `not tried: ..`; these come again at the end, and are counted. The last line is `N passed, N failed`, of its own parts and of the tests.
#
# tools/gate.sh [--anew] [--all] [--record] [--keep]: --anew proves all and tries all edits of must-fail/, whatever the store holds. --all tries every edit
# of wrong/, also those on record in tools/edits.tried; --record writes down there what was refused. --keep puts the program that rt ci built into dist/,
# for the landing's commit.
set -uo pipefail
# the parts' output is piped, and is to come all the same while they run
export PYTHONUNBUFFERED=1
cd "$(dirname "$(readlink -f "$0")")/.." || exit 1

anew=()
asked=()
keep=()
for word in "$@"; do
    case $word in
    --anew) anew=("$word") ;;
    --all | --record) asked+=("$word") ;;
    --keep) keep=("$word") ;;
    *) echo "gate: no word $word: --anew, --all, --record, --keep" >&2; exit 2 ;;
    esac
done
parts=()
untried=()
passed=0
failed=0
began=$(date +%s)

# part NAME COMMAND..: runs the command, and notes what it took, minutes by the clock and of processors, and what it counts as: by its last line, if
# that is `N passed, N failed`, else as one.
part() {
    local name=$1 status
    shift
    echo "== $name"
    TIMEFORMAT='%R %U %S'
    { time "$@" 2>&3 | tee "$said"; } 3>&2 2>"$times"
    status=$?
    mapfile -t -O ${#untried[@]} untried < <(grep '^not tried: ' "$said")
    parts+=("$(awk -v name="$name" '{ printf "%-44s %6.1f %10.1f", name, $1 / 60, ($2 + $3) / 60 }' "$times")")
    if [[ $(tail -n 1 "$said") =~ ^([0-9]+)\ passed,\ ([0-9]+)\ failed$ ]]; then
        passed=$((passed + BASH_REMATCH[1])) failed=$((failed + BASH_REMATCH[2]))
    elif ((status == 0)); then
        passed=$((passed + 1))
    else
        failed=$((failed + 1))
    fi
    ((status == 0)) || end "$name failed" 1
}

# end TEXT STATUS: tells what was seen, and ends with this status.
end() {
    table
    ((${#untried[@]} == 0)) || printf '%s\n' "${untried[@]}"
    echo "gate: $1; not tried: ${#untried[@]}"
    echo "$passed passed, $failed failed"
    exit "$2"
}

# What each part took.
table() {
    local minutes
    minutes=$(awk -v s=$(($(date +%s) - began)) 'BEGIN { printf "%.1f", s / 60 }')
    echo
    printf '%-44s %6s %10s\n' "part, on $(nproc) cores" minutes "processor"
    printf '%s\n' "${parts[@]}"
    printf '%s\n' "${parts[@]}" | awk -v m="$minutes" '{ p += $NF } END { printf "%-44s %6.1f %10.1f\n", "all", m, p }'
}

# Whether each file is as rt fmt lays it out. rt ci asks that too, but says it at its end.
layout() {
    local rattle
    rattle=$(dirname "$(readlink -f "$(command -v rt)")")/rattle
    find crates \( -name '*.rt' -o -name '*.antt' \) -print0 | xargs -0 "$rattle" fmt --check
}

# The proofs: first crate by crate, if rt ci takes names here, so that rt ci finds them kept. rt ci by itself proves one crate by each processor at most.
prove() {
    if [[ ${CI:-} != true ]] && ((${#anew[@]} == 0)); then
        tools/prove.py || return
    fi
    RT_JOBS="${RT_JOBS:-$(nproc)}" rt ci "${anew[@]}"
}

times=$(mktemp) && said=$(mktemp) || exit 1
trap 'rm -f "$times" "$said"' EXIT
rm -rf crates/*/out

part "the layout of files" layout
part "rt ci" prove
part "the program that is kept" tools/kept_program.sh "${keep[@]}"
part "the tests, by tools/run.py" tools/run.py --beside "$(nproc)" --program crates/tc_cli/out/tc_cli "${asked[@]}"
end "all parts passed" 0
