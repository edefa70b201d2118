#!/bin/bash
# Runs a copy of ./tcdesk and of tools/build.sh in a folder of its own, over four crates of a line each, with a stand-in for rt that prints what
# rt prints, and with a shell in the place of the program. Looked for is which program is run: the kept one only where it is that of the sources
# that stand there, byte for byte; what is said while it is proved, on a terminal (which `script` gives) and off it; what becomes of a proof
# that fails or is interrupted, and of two first runs at a time; that words, input and status are the program's; and which commit a program names.
# tools/tests/first_run_cases.sh: ends with how many passed; status 1 where one failed.
set -u
export LC_ALL=C SHELL=/bin/bash
top=$(cd "$(dirname "${BASH_SOURCE[0]}")/../.." && pwd) || exit 1
command -v script >/dev/null || { echo "first_run_cases: script is not installed (Debian: bsdutils)" >&2; exit 1; }
work=$(mktemp -d) || exit 1
work=$(readlink -f "$work")
# what still runs at the end, of what was started here
trap 'touch "$work/go"; kill $(jobs -p) 2>/dev/null; rm -rf "$work"' EXIT
mkdir "$work/bin" "$work/none" "$work/tmp" "$work/else where" "$work/desk" "$work/desk/tools" || exit 1
desk=$work/desk
export TMPDIR=$work/tmp FIRST_RUN=$work
export PATH=$work/bin:$PATH
path=$PATH
me=first_run_cases
. "$top/tools/lib.sh"

# ---- the folder, the stand-in and what is looked at

cat >"$work/bin/rt" <<'RT'
#!/bin/bash
# What rt run prints, where it is asked in the folder of tc_cli: a crate is proved again where its text changed or a crate below was proved.
# At a crate that the file stop names it waits for the file go, at most some minutes, and at one that the file fail names it fails.
[[ $* != version ]] || { echo "toy kit 1"; exit; }
IFS= read -r -d '' -t 1 input
echo "$$ $PWD $*, input <$input>" >>"$FIRST_RUN/asked"
crates=$(dirname "$PWD")
exec 8<"$PWD"
flock -n 8 || { echo "rt: waiting for another rt to finish in $crates/low" >&2; flock 8; }
proved=" "
[[ -e out/tc_cli ]] || echo "only=0 proved=0" >&2
for row in "low" "side low" "mid low" "tc_cli low side mid"; do
    read -r name below <<<"$row"
    sum=$(cksum <"$crates/$name/src/lib.rt")
    again=$([[ -e $crates/$name/out/sum && $sum == "$(<"$crates/$name/out/sum")" ]] || echo yes)
    for it in $below; do [[ $proved != *" $it "* ]] || again=yes; done
    [[ -n $again ]] || continue
    echo "rt: chose --jobs 2 for $name" >&2
    echo "$name" >"$FIRST_RUN/at"
    turn=0
    while [[ -e $FIRST_RUN/stop && $name == "$(<"$FIRST_RUN/stop")" && ! -e $FIRST_RUN/go ]] && ((turn++ < 10000)); do sleep 0.02; done
    if [[ -e $FIRST_RUN/fail && $name == "$(<"$FIRST_RUN/fail")" ]]; then
        printf 'fn %s::echo: not proved\nrt: the library %s did not build, so nothing above it was checked' "$name" "$name" >&2
        exit 1
    fi
    printf 'fn %s::echo: proved\ncrate %s: modules loaded=0 checked=40\nlogic=proved functions=1\n' "$name" "$name" >&2
    mkdir -p "$crates/$name/out"
    echo "$sum" >"$crates/$name/out/sum"
    proved+="$name "
done
if [[ $proved == " " ]]; then
    echo "rt: nothing has changed since the last proved build, by out/tc_cli.stamp, so nothing is checked now" >&2
else
    cp /bin/bash out/tc_cli
    echo "linked target=x86_64-unknown-linux-gnu" >&2
fi
echo "rt: running out/tc_cli; to give it other input, run that file yourself" >&2
echo "what the program prints as rt runs it"
RT
chmod +x "$work/bin/rt"
cp "$top/tcdesk" "$desk/"
mkdir "$desk/dist" && cp "$top/dist/tcdesk" "$desk/dist/"
cp "$top/tools/program.sh" "$top/tools/build.sh" "$desk/tools/"
ln -s ../desk/tcdesk "$work/bin/linked"
# a path on which there is no rt
for name in dirname readlink sha256sum strip stty; do ln -s "$(command -v "$name")" "$work/none/"; done
echo "Handles allowed: none." >"$desk/HANDLES"
cat >"$desk/crates.txt" <<'TEXT'
# NAME: what it stands on
side: low bstr
tc_cli: low, side, mid # the program
tests: low mid tc_cli

mid: low
low
TEXT
for name in low side mid tc_cli tests; do
    mkdir -p "$desk/crates/$name/src"
    echo "// $name" >"$desk/crates/$name/src/lib.rt"
done

# A desk that nobody built or proved yet; with the word built one that is; with the word kept one whose program is kept in dist/ alone.
anew() {
    rm -rf "$desk"/crates/*/out "$desk/out" "$desk"/dist/x86_64-linux-gnu "$work/at" "$work/stop" "$work/go" "$work/fail"
    : >"$work/seen"
    case ${1:-} in
    built) "$desk/tools/build.sh" 2>/dev/null ;;
    kept) "$desk/tools/build.sh" --keep 2>/dev/null && rm -rf "$desk"/crates/*/out "$desk/out" ;;
    esac
    : >"$work/asked"
}

# off WORD..: runs tcdesk off any terminal, in another folder; what it says is in out and err, and its status in status.
off() {
    # the message of a shell whose command was killed is not looked at
    {
        (cd "$work/else where" && exec env --default-signal=HUP,INT PATH="$path" "$desk/tcdesk" "$@" </dev/null >"$work/out" 2>"$work/err")
        status=$?
    } 2>/dev/null
}

# on COLUMNS COMMAND: runs a line of shell on a terminal of that width, in another folder; all that comes to the terminal is in seen.
on() {
    : >"$work/seen"
    (cd "$work/else where" && exec env --default-signal=HUP,INT script -qec "stty cols $1; $2" /dev/null <"$work/keys" >"$work/seen" 2>&1)
    status=$?
}

# What stands on the terminal at the end: what is written after a carriage return stands over what was there. Seconds are N.
screen() {
    awk '{ row = ""; count = split($0, parts, "\r")
        for (at = 1; at <= count; at++) row = parts[at] substr(row, length(parts[at]) + 1)
        sub(/ +$/, "", row); sub(/ in [0-9]+ s /, " in N s ", row); print row }' "$work/seen"
}

# What was written to the terminal in turn, each piece as it stood there.
steps() {
    tr '\r' '\n' <"$work/seen" | sed 's/ *$//; s/ in [0-9]* s / in N s /' | grep .
}

# holds FILE TEXT: whether the file holds the text.
holds() { grep -qF -- "$2" "$work/$1" 2>/dev/null; }

# until_seen FILE TEXT: waits until the file holds the text.
until_seen() {
    ! wait_until holds "$1" "$2" || return 0
    echo "first_run_cases: $1 never held: $2" >&2
    return 1
}

# Whether all that the stand-in was asked is over: no process of it is left, and no file in the folder for temporary ones.
is_gone() {
    local id rest left=0
    while read -r id rest; do
        ! kill -0 "$id" 2>/dev/null || { echo "first_run_cases: rt goes on: $rest" >&2; left=1; }
    done <"$work/asked"
    [[ $left == 0 && -s $work/asked && -z $(ls -A "$work/tmp") ]]
}

# a terminal's keys: nothing, until a case presses one
mkfifo "$work/keys" && exec 9<>"$work/keys"

none='tcdesk: there is no program in dist/x86_64-linux-gnu'
first='tcdesk: proving the desk and building it from its sources (an hour or so; later runs start at once)'
edited='tcdesk: the sources here are not those that the program in dist/x86_64-linux-gnu was made of'
changed='tcdesk: the program in dist/x86_64-linux-gnu is not the one that was made: its SHA-256 is another'
built() { echo "tcdesk: the desk is proved and built, in N s ($1 of its 4 crates proved in this run)"; }

# ---- which program is run

# runs NAME WANTED: runs the desk off a terminal, and counts a case by its status and all that it printed.
runs() {
    : >"$work/asked"
    off -c 'echo worked'
    same "$1" "$2" "$status $(cat "$work/err" "$work/out")"
}

# edit FILE: adds a line to a text of the desk.
edit() {
    mkdir -p "$(dirname "$desk/$1")"
    echo "# edited" >>"$desk/$1"
}

# The sources as they were.
restore() {
    cp -rT "$work/before" "$desk"
    rm -rf "$desk/crates/mid/src/deep" "$desk/crates/mid/src/new.rt"
}

# What changes the program's bytes makes the kept one another's: it is not run, and what is edited is proved.
edited_cases() {
    local file
    anew kept
    runs "a kept program says nothing" "0 worked"
    same "and rt is not asked" "" "$(<"$work/asked")"
    cp -r "$desk" "$work/before"
    for file in crates.txt HANDLES crates/low/src/lib.rt crates/tc_cli/src/lib.rt crates/mid/src/new.rt crates/mid/src/deep/er/new.rt; do
        edit "$file"
        runs "$file was edited" "0 $edited"$'\nworked'
        [[ -s $work/asked ]]
        tell "$file was edited: rt is asked"
        runs "$file was edited, the run after" "0 worked"
        path=$work/none
        rm -rf "$desk/out"
        runs "$file was edited, and there is no rt" "2 $edited"$'\n'"tcdesk: the toolchain's command rt is not on the path"
        path=$PATH
        restore
        runs "$file is as it was" "0 worked"
        rm -rf "$desk/out"
    done
    rm "$desk/crates/side/src/lib.rt"
    path=$work/none
    runs "a source is gone" "2 $edited"$'\n'"tcdesk: the toolchain's command rt is not on the path"
    restore
    for file in crates/mid/specs/new.antt crates/mid/proofs/new.antt crates/tests/src/lib.rt docs/page.md crates/mid/src/.new.swp; do
        edit "$file"
        runs "$file, which decides no byte" "0 worked"
    done
    touch "$desk/crates/low/src/lib.rt" "$desk/crates.txt"
    runs "sources that were only touched" "0 worked"
    path=$PATH
}

# A program whose bytes are not those that were made, or that this machine cannot run, is never run.
changed_cases() {
    local kept=$desk/dist/x86_64-linux-gnu
    path=$work/none
    anew kept
    printf x >>"$kept/tcdesk"
    runs "a kept program with a byte more" "2 $changed"$'\n'"tcdesk: the toolchain's command rt is not on the path"
    anew kept
    printf 'echo planted\n' >"$kept/tcdesk"
    runs "another program in its place" "2 $changed"$'\n'"tcdesk: the toolchain's command rt is not on the path"
    sed -i "s/^sha256 .*/sha256 $(sha256sum <"$kept/tcdesk" | cut -d ' ' -f 1)/" "$kept/tcdesk.built"
    runs "a program that does not run here" "2 tcdesk: the program in dist/x86_64-linux-gnu does not run on this machine"$'\n'"tcdesk: the toolchain's command rt is not on the path"
    anew kept
    sed -i 's/^toolchain .*/toolchain toy kit 2/' "$kept/tcdesk.built"
    runs "a program of another toolchain" "2 $edited"$'\n'"tcdesk: the toolchain's command rt is not on the path"
    anew kept
    rm "$kept/tcdesk.built"
    runs "nothing says what it was made of" "2 $none"$'\n'"tcdesk: the toolchain's command rt is not on the path"
    path=$PATH
    anew kept
    printf x >>"$kept/tcdesk"
    runs "a kept program with a byte more is proved anew" "0 $changed"$'\nworked'
    printf x >>"$desk/out/tcdesk"
    runs "and so is the one that was built here" "0 $changed"$'\nworked'
    [[ -s $work/asked ]]
    tell "rt is asked for it"
    anew kept
    sed -i 's/^sha256 ./sha256 -/' "$kept/tcdesk.built"
    runs "another program was kept of these sources" "0 $changed
tcdesk: what was built is not, byte for byte, the program that dist/ keeps of these sources"$'\nworked'
    same "other words for tools/build.sh" "tcdesk: tools/build.sh takes --keep, or --run and words for the program"$'\n'2 "$("$desk/tools/build.sh" keep 2>&1; echo $?)"
}

# ---- which commit a program names

# commit_of FOLDER: prints the commit that the file beside the program there names.
commit_of() {
    sed -n 's/^commit //p' "$desk/$1/tcdesk.built"
}

# said_commit: prints the commit that `--version` names.
said_commit() {
    "$desk/tcdesk" --version 2>&1 | sed -nE 's/.* \(commit (.*)\)$/\1/p'
}

# commit FILE..: commits these files of the desk, and prints 12 digits of that.
commit() {
    git -C "$desk" add -- "$@" && git -C "$desk" -c user.name=ann -c user.email=ann@desk.example commit -qm "$*" && git -C "$desk" rev-parse --short=12 HEAD
}

# A program names the last commit of the sources that it was built of, and none if they were not committed.
commit_cases() {
    local kept=dist/x86_64-linux-gnu first second
    anew kept
    same "no clone: no commit is named" "" "$(commit_of $kept)$(said_commit)"
    git init -q "$desk"
    first=$(commit crates.txt HANDLES crates/{low,side,mid,tc_cli}/src tcdesk tools)
    anew kept
    same "a clone: the commit of the sources" "$first $first" "$(commit_of $kept) $(said_commit)"
    edit docs/page.md
    commit docs/page.md dist >/dev/null
    anew kept
    same "a later commit of other files" "$first $first" "$(commit_of $kept) $(said_commit)"
    edit docs/page.md
    edit crates/tests/src/lib.rt
    anew built
    same "files that decide no byte were edited" "$first $first" "$(commit_of out) $(said_commit)"
    edit crates/low/src/lib.rt
    anew built
    same "a source was edited: no commit is named" "" "$(commit_of out)$(said_commit)"
    second=$(commit crates/low)
    anew kept
    same "it was committed" "$second $second" "$(commit_of $kept) $(said_commit)"
    edit crates/mid/src/new.rt
    anew built
    same "a source that was never committed: no commit is named" "" "$(commit_of out)$(said_commit)"
    rm -rf "$desk/.git" "$desk/docs"
    restore
}

# ---- on a terminal

terminal_cases() {
    anew
    echo mid >"$work/stop"
    on 80 "$desk/tcdesk -c 'echo worked'" &
    until_seen seen "proving mid" && ! grep -q "worked\|is proved" "$work/seen"
    tell "the crate is told while rt proves it"
    touch "$work/go"
    wait $!
    same "what is told in turn" "$none
$first
tcdesk: reading its 4 crates
tcdesk: proving low, 1 of 4
tcdesk: proving side, 2 of 4
tcdesk: proving mid, 3 of 4
tcdesk: proving tc_cli, 4 of 4
$(built 4)
worked" "$(steps)"
    same "what stands on the terminal after a first run" "$none"$'\n'"$first"$'\n'"$(built 4)"$'\nworked' "$(screen)"
    same "what rt is asked" "$desk/crates/tc_cli run -- run -, input <>" "$(cut -d ' ' -f 2- "$work/asked")"
    : >"$work/asked"
    on 80 "$desk/tcdesk -c 'echo worked'"
    same "a second run says nothing, and asks rt nothing" "0 worked" "$status $(screen; cat "$work/asked")"
    echo "// changed" >>"$desk/crates/mid/src/lib.rt"
    on 80 "$desk/tcdesk -c 'echo worked'"
    same "a file that changed: the crates that are not proved again are passed over" "$none
$first
tcdesk: reading its 4 crates
tcdesk: proving mid, 3 of 4
tcdesk: proving tc_cli, 4 of 4
$(built 2)
worked" "$(steps)"
    anew
    on 20 "$desk/tcdesk -c 'echo worked'"
    same "a narrow terminal" "tcdesk: reading its
tcdesk: proving low
tcdesk: proving sid
tcdesk: proving mid
tcdesk: proving tc_" "$(steps | sed -n 3,7p)"
    anew
    on 80 "$desk/tcdesk -c 'echo worked; echo says >&2; exit 3' 2>'$work/err'"
    same "standard error off the terminal, and standard output on it" "3 worked $none"$'\nsays' "$status $(screen) $(<"$work/err")"
    anew
    on 80 "$desk/tcdesk -c 'echo worked' >'$work/out'"
    same "standard output off the terminal, and standard error on it" "$none"$'\n'"$first"$'\n'"$(built 4)"$'\nworked' "$(screen; cat "$work/out")"
}

# ---- off a terminal

plain_cases() {
    anew
    runs "a first run off a terminal says why it builds, and no more" "0 $none"$'\nworked'
    runs "a second says nothing" "0 worked"
    same "and asks rt nothing" "" "$(<"$work/asked")"
    anew
    echo mid >"$work/stop"
    off -c 'echo worked' &
    until_seen at mid
    echo "// edited" >>"$desk/crates/low/src/lib.rt"
    touch "$work/go"
    wait $!
    same "a file that is edited while it is proved: nothing is run" "$none
tcdesk: the sources were edited while they were proved: run it again" "$(cat "$work/err" "$work/out")"
    runs "and the next run proves it" "0 $none"$'\nworked'
}

# ---- a proof that fails

failing_cases() {
    local log="rt: chose --jobs 2 for low
fn low::echo: proved
crate low: modules loaded=0 checked=40
logic=proved functions=1
rt: chose --jobs 2 for side
fn side::echo: not proved
rt: the library side did not build, so nothing above it was checked
tcdesk: the desk could not be built"
    anew
    echo side >"$work/fail"
    off -c 'echo worked'
    same "a proof that fails, off a terminal" $'2\n'"$none"$'\nonly=0 proved=0\n'"$log" "$status"$'\n'"$(cat "$work/out" "$work/err")"
    anew
    echo side >"$work/fail"
    on 80 "$desk/tcdesk -c 'echo worked'"
    same "a proof that fails, on a terminal" "2
$none
$first
tcdesk: proving side, 2 of 4
only=0 proved=0
$log" "$status"$'\n'"$(screen)"
    anew built
    echo "// changed" >>"$desk/crates/low/src/lib.rt"
    echo side >"$work/fail"
    off -c 'echo worked'
    same "a proof that fails beside a program of before" $'2\n'"$none"$'\n'"$log" "$status"$'\n'"$(cat "$work/out" "$work/err")"
    is_gone
    tell "nothing is left of a proof that failed"
}

# ---- an interrupt

# interrupted NAME STATUS SCREEN: whether the run that was interrupted at mid ended so, ran no program and left nothing.
interrupted() {
    same "$1: the status" "$2" "$status"
    same "$1: what stands there" "$3" "$(screen)"
    is_gone && [[ ! -e $desk/crates/tc_cli/out/tc_cli && $(tail -c 1 "$work/seen" | od -An -c) == *'\n' ]]
    tell "$1: rt is gone, no file is left, the program did not run and the line is ended"
}

interrupt_cases() {
    local at="tcdesk: proving mid, 3 of 4" signal number
    anew
    echo mid >"$work/stop"
    { until_seen seen "$at" && printf '\003' >&9; } &
    on 80 "exec $desk/tcdesk -c 'echo worked'"
    interrupted "Ctrl-C" 130 "$none"$'\n'"$first"$'\n'"$(printf '%-60s^C' "$at")"
    for signal in TERM:143 INT:130 HUP:129; do
        number=${signal#*:}
        signal=${signal%:*}
        anew
        echo mid >"$work/stop"
        { until_seen seen "$at" && kill -s "$signal" "$(<"$work/id")"; } &
        on 80 "echo \$\$ >'$work/id'; exec $desk/tcdesk -c 'echo worked'"
        interrupted "$signal on a terminal" "$number" "$none"$'\n'"$first"$'\n'"$at"
    done
    anew
    echo mid >"$work/stop"
    { until_seen at mid && kill -s TERM "$(<"$work/id")"; } &
    { bash -c 'echo $$ >"$0/id"; exec "$1/tcdesk" -c "echo worked"' "$work" "$desk" </dev/null >"$work/seen" 2>&1; status=$?; } 2>/dev/null
    same "TERM off a terminal: the status, and what is said" "143 $none" "$status $(<"$work/seen")"
    is_gone && [[ ! -e $desk/crates/tc_cli/out/tc_cli ]]
    tell "TERM off a terminal: rt is gone, no file is left and the program did not run"
    touch "$work/go"
    off -c 'echo worked'
    same "a run after an interrupt" "0 worked"$'\n'"$none" "$status $(cat "$work/out" "$work/err")"
}

# ---- two first runs at a time

two_cases() {
    local one
    anew
    echo mid >"$work/stop"
    off -c 'echo worked' &
    one=$!
    until_seen at mid
    on 80 "$desk/tcdesk -c 'echo worked too'" &
    until_seen seen "tcdesk: waiting for another run that proves this desk"
    tell "a second first run tells that it waits"
    touch "$work/go"
    wait "$one" $!
    same "the first of two" "worked$none" "$(cat "$work/out" "$work/err" | tr -d '\n')"
    same "the second of two" "$none"$'\n'"$first"$'\n'"$(built 0)"$'\nworked too' "$(screen)"
}

# ---- the program's own words, input and status

program_cases() {
    local state
    for state in built kept; do
        anew "$state"
        off -c 'printf "<%s>" "$@"; echo says >&2; exit 7' a 'b c' '' '*' -- $'d\ne'
        same "words and status, $state" $'7 <b c><><*><--><d\ne>says' "$status $(cat "$work/out" "$work/err")"
        anew "$state"
        # shellcheck disable=SC2016 # (the program is the shell that reads it)
        off -c 'echo "$0 in $PWD"'
        same "the program's name and folder, $state" "tcdesk in $work/else where" "$(cat "$work/out" "$work/err")"
        anew "$state"
        same "standard input, $state" $'x\ny' "$(printf 'x\ny' | "$desk/tcdesk" -c cat 2>&1)"
        anew "$state"
        on 80 "printf 'x\ny' | $desk/tcdesk -c 'cat >$work/out; exit 5'"
        same "standard input beside a terminal, $state" $'5 x\ny' "$status $(<"$work/out")"
        anew "$state"
        # shellcheck disable=SC2016 # (as above)
        same "through a symbolic link, $state" "tcdesk" "$("$work/bin/linked" -c 'echo $0' 2>&1)"
        anew "$state"
        off -c 'kill -s INT $$; echo goes on'
        same "an interrupt of the program, $state" "130 " "$status $(cat "$work/out" "$work/err")"
    done
    path=$work/none
    anew
    off -c 'echo worked'
    same "no rt on the path" "2 $none
tcdesk: the toolchain's command rt is not on the path" "$status $(cat "$work/out" "$work/err")"
    anew built
    off -c 'echo worked'
    path=$PATH
    same "no rt on the path, and none needed" "0 worked" "$status $(cat "$work/out" "$work/err")"
}

edited_cases
changed_cases
commit_cases
terminal_cases
plain_cases
failing_cases
interrupt_cases
two_cases
program_cases
echo "first run: $passed passed, $failed failed"
[[ $failed == 0 ]]
