#!/bin/bash
# Proves every crate of the desk that is not proved yet, as its text stands, and builds the program, for ./tcdesk to run.
# tools/build.sh [--keep | --run WORD..]: --keep also puts it into dist/, for the commit of a change of the sources; --run runs it then, with
# these words.
# How far the proof is, is told to a terminal alone; what rt says is told where the desk cannot be built. The status is 0; 1 where what was built
# is another program than dist/ keeps of the same sources; 2 where there is none.
set -u

top=$(cd "$(dirname "$(readlink -f "$0")")/.." && pwd) || exit 2
. "$top/tools/program.sh" || exit 2
crate=$top/crates/tc_cli

# How long this script has run.
took() {
    if ((SECONDS < 120)); then echo "$SECONDS s"; else echo "$(((SECONDS + 30) / 60)) min"; fi
}

# Says a line to a terminal, over the line of progress. Each is longer than that.
say() {
    [ ! -t 2 ] || printf '\r%s\n' "$1" >&2
}

# Says a line of progress to a terminal, over the one before it. It is cut to the width, since a part on a second row would stay there.
progress() {
    local size wide
    [ -t 2 ] || return
    size=$(stty size <&2 2>/dev/null)
    wide=$((${size#* } - 1))
    ((wide > 0 && wide < 60)) || wide=60
    printf '\r%-*.*s' "$wide" "$wide" "$1" >&2
}

# Ends the line of progress, which stays.
end_line() {
    [ ! -t 2 ] || echo >&2
}

# Says why there is no program, and ends.
refuse() {
    echo "tcdesk: $1" >&2
    exit 2
}

# Tells what a line of rt's means: it names a crate as it begins to prove it, what it waits for, and how much it proved of a crate.
tell() {
    local name=${1##* }
    case $1 in
    "rt: chose --jobs "*) progress "tcdesk: proving $name${place[$name]:+, ${place[$name]} of ${#place[@]}}" ;;
    "rt: waiting for another rt "*) progress "tcdesk: waiting for another run that proves this desk" ;;
    *": another copy of the repository is building "*) progress "tcdesk: waiting for a run in another copy" ;;
    "crate "*" checked="[1-9]*) proved=$((proved + 1)) ;;
    esac
}

# Ends the proof that goes on, and then this script, by the signal that it was sent.
stop() {
    trap - HUP INT TERM
    kill "$child" 2>/dev/null
    wait "$child" 2>/dev/null
    end_line
    kill -s "$1" $$
}

# Has rt prove every crate of the program, build it and run it once, on an empty script. All that rt says is in $said then.
prove() {
    local line says child='' status
    trap 'stop HUP' HUP
    trap 'stop INT' INT
    trap 'stop TERM' TERM
    exec {says}< <(cd "$crate" && exec rt run -- run - </dev/null 2>&1 >/dev/null)
    child=$!
    while IFS= read -r line || [ -n "$line" ]; do
        said+=$line$'\n'
        tell "$line"
    done <&"$says"
    exec {says}<&-
    wait "$child"
    status=$?
    trap - HUP INT TERM
    return "$status"
}

case ${1:-} in
--run) ;;
--keep | '') [ $# -le 1 ] || refuse "tools/build.sh takes no word behind ${1:-the first}" ;;
*) refuse "tools/build.sh takes --keep, or --run and words for the program" ;;
esac
command -v rt >/dev/null 2>&1 || refuse "the toolchain's command rt is not on the path"
command -v strip >/dev/null 2>&1 || refuse "there is no strip, which is of binutils"
said=''
proved=0
declare -A place=()
while IFS= read -r name; do place[$name]=$((${#place[@]} + 1)); done < <(program_crates)
say "tcdesk: proving the desk and building it from its sources (an hour or so; later runs start at once)"
progress "tcdesk: reading its ${#place[@]} crates"
toolchain=$(rt version) || refuse "rt does not tell its version"
sources=$(sources_digest "$toolchain") || refuse "the sources cannot be read"
if ! prove; then
    end_line
    printf '%s' "$said" >&2
    refuse "the desk could not be built"
fi
if [ "$sources" != "$(sources_digest "$toolchain")" ]; then
    end_line
    refuse "the sources were edited while they were proved: run it again"
fi
put_program "$crate/out/tc_cli" "$own" "$toolchain" "$sources" || refuse "the program cannot be put into $own"
if [ "${1:-}" = --keep ]; then
    put_program "$crate/out/tc_cli" "$kept" "$toolchain" "$sources" || refuse "the program cannot be put into $kept"
fi
status=0
if is_other "$own" "$kept"; then
    end_line
    echo "tcdesk: what was built is not, byte for byte, the program that dist/ keeps of these sources" >&2
    status=1
fi
say "tcdesk: the desk is proved and built, in $(took) ($proved of its ${#place[@]} crates proved in this run)"
if [ "${1:-}" = --run ]; then
    shift
    start "$own" "$@"
fi
exit $status
