#!/bin/bash
# Checks that the program in dist/ is the one that these sources make. The digest beside it has to be that of the sources and of this toolchain, and
# the program that rt ci has just built has to be, stripped, the same byte for byte. The commit that tcdesk.built names has to have these sources.
# tools/kept_program.sh [--keep]: --keep first puts the program that rt ci built into dist/. At the end it times ./tcdesk, from its start to the
# program's. The status is 1 if something differs.
set -u
top=$(cd "$(dirname "$(readlink -f "$0")")/.." && pwd) || exit 1
. "$top/tools/program.sh" || exit 1
built=$top/crates/tc_cli/out/tc_cli
mend="tools/build.sh --keep proves and builds the program and puts it there; tools/gate.sh --keep takes the one that rt ci has built"

fail() {
    echo "kept_program: $1" >&2
    echo "kept_program: $mend" >&2
    exit 1
}

# How many milliseconds a command takes: the middle one of 21 runs of it.
milliseconds() {
    local turn from
    for ((turn = 0; turn < 21; turn++)); do
        from=${EPOCHREALTIME//[,.]/}
        "$@" >/dev/null
        echo $((${EPOCHREALTIME//[,.]/} - from))
    done | sort -n | awk 'NR == 11 { printf "%.1f", $1 / 1000 }'
}

# same_commit: whether tcdesk.built names a commit, and that has the sources that stand here. It prints the paths that differ. If this clone lacks
# the commit, it says that this was not tried.
same_commit() {
    local commit differ
    commit=$(sed -nE 's/^commit ([0-9a-f]{12})$/\1/p' "$kept/tcdesk.built")
    [ -n "$commit" ] || return
    if ! git -C "$top" cat-file -e "$commit^{commit}" 2>/dev/null; then
        echo "not tried: this clone has no commit $commit, which tcdesk.built names"
        return 0
    fi
    differ=$(differ_from "$commit")
    [ -z "$differ" ] || { echo "$differ" >&2; false; }
}

[ -x "$built" ] || { echo "kept_program: rt ci has built no program" >&2; exit 1; }
toolchain=$(rt version) || exit 1
sources=$(sources_digest "$toolchain") || exit 1
if [ "${1:-}" = --keep ]; then
    put_program "$built" "$kept" "$toolchain" "$sources" || exit 1
fi
is_program "$kept" || fail "$why"
grep -qxF "toolchain $toolchain" "$kept/tcdesk.built" || fail "the program in dist/ was made by another toolchain than $toolchain"
work=$(mktemp -d) || exit 1
trap 'rm -rf "$work"' EXIT
strip -o "$work/tcdesk" "$built" || exit 1
cmp "$work/tcdesk" "$kept/tcdesk" >&2 || fail "what rt ci built is not, byte for byte, the program in dist/"
same_commit || fail "tcdesk.built does not name the commit of these sources: commit them, and put the program into dist/ again"
echo "kept program: $(stat -c %s "$kept/tcdesk") bytes, SHA-256 $(sum_of "$kept/tcdesk"), of the sources $sources"
echo "kept program: ./tcdesk --version in $(milliseconds "$top/tcdesk" --version) ms, the program alone in $(milliseconds "$kept/tcdesk" --version) ms"
