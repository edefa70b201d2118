#!/bin/bash
# Runs `tcdesk loop`, which sends a script over HTTP to a desk that it serves itself: for each script of tools/cases and of examples that loads
# nothing it has to print what `tcdesk run` prints on another new file, with the same status, and to leave the same desk. Then what a loop alone meets:
# its words, files and faults, lines that load, that are no lines, and that are too long; replies of more than 200 lines; and the numbers of its lines, by which a second loop on one file
# prints what the first did, and says so. Ends with how many passed; status 1 where one failed. Wants python3.
set -u
export LC_ALL=C
top=$(cd "$(dirname "${BASH_SOURCE[0]}")/../.." && pwd) || exit 1
program=${1:-$top/crates/tc_cli/out/tc_cli}
[[ -x $program ]] || { echo "loop_cases: $program is not built" >&2; exit 1; }
work=$(mktemp -d) || exit 1
trap 'rm -rf "$work"' EXIT
cd "$work" || exit 1
me=loop_cases
. "$top/tools/lib.sh"

# same_as_run NAME SCRIPT WORD..: a loop and a run of the script, each on a new file, with these options.
same_as_run() {
    local name=$1 script=$2 run loop
    shift 2
    rm -f run.db* loop.db*
    "$program" run --db run.db "$script" "$@" >want 2>err
    run=$?
    "$program" loop loop.db "$script" "$@" >out 2>>err
    loop=$?
    [[ $run == "$loop" && $(<err) == $'tcdesk: run.db is a new desk\ntcdesk: loop.db is a new desk' ]] && cmp -s want out
    tell "$name: status $loop in place of $run"
    "$program" report run.db 0 4102444799 >want 2>err
    "$program" report loop.db 0 4102444799 >out 2>>err
    [[ -s want && ! -s err ]] && cmp -s want out
    tell "$name: the desk that is left"
}

: >input

# ---- the scripts that load nothing

# but lines of nobody whose act is too long: a script's line is refused for its act, what is posted for its person
for script in "$top"/tools/cases/*.tc "$top"/examples/*.tc; do
    options=()
    [[ ! -e ${script%.tc}.args ]] || mapfile -t options <"${script%.tc}.args"
    awk '{
        match($0, /^[^ ]* [^ ]* /); act = RSTART ? substr($0, RLENGTH + 1) : ""
        if (length(act) <= 200 || ($2 ~ /^[a-z0-9]+$/ && length($2) <= 16 && $2 != "desk")) print
    }' "$script" >lines
    grep -qE '^[^ ]* [^ ]* (stack|procedure) ' lines || same_as_run "${script##*/}" lines "${options[@]}"
done
same_as_run "another window and channel" "$top/examples/first-pass.tc" --w 254 --vc 63
same_as_run "a ring of 2" "$top/examples/lossy-pass.tc" --ring 2
printf '# a comment\r\n\r\n\n7 ann enter 5 a--c no 8 1 - - ok\r\n7 ann places' >lines
same_as_run "CR LF, a comment, empty lines and no last LF" lines
printf '7 ann places\r' >lines
same_as_run "a CR at the end of a last line without LF" lines
printf '\377\376\n0 ann \303\244\n\377 ann places\n0 \377 places\n0 ann "places"\\\t\001\n' >lines
same_as_run "bytes that are no ASCII, quotes and control characters" lines
printf 'x\n\n0\n0 ann\n0 ann \n0  places\n 0 ann places\n0 desk places\n-1 ann places\n01 ann places\n4102444800 ann places\n' >lines
same_as_run "lines that are none" lines
printf '99999999999999999999999999 ann places\n1e3 ann places\n1.0 ann places\n0 anntoolonganame12 places\n' >lines
same_as_run "moments and names that are none" lines
act=$(printf '%200s' "" | tr ' ' x)
printf '0 ann %s\n0 ann %sx\nx ann %sx\n0 ann %s%s%s\n' "$act" "$act" "$act" "$act" "$act" "$act" >lines
same_as_run "acts of 200 and more bytes" lines
{ printf '0 ann '; head -c 900000 /dev/zero | tr '\0' x; printf '\n'; head -c 100000 /dev/zero | tr '\0' y; printf '\n0 ann places\n'; } >lines
same_as_run "a line of 900,000 bytes, and one of 100,000 without a space" lines
for ((i = 0; i < 300; i++)); do
    echo "$i ann enter $((i % 7)) a--c no 8 1 - - ok"
done >lines
echo '300 ann history 1 0' >>lines
same_as_run "300 entries" lines

# ---- replies of more than 200 lines

# left_out NAME LINE MORE: a loop of one more line on the desk that the case before left: of its reply 200 lines are printed, and it is said how many more there are.
left_out() {
    echo "$2" >other
    "$program" run --db run.db --at 300 other >want 2>err
    "$program" loop loop.db other --at 300 --first 1000 >out 2>err
    [[ $? == 0 && $(<err) == "other:1: $3 left out" ]] && { head -n 200 want; tail -n 1 want; } | cmp -s - out
    tell "$1"
}
left_out "what waits, of 300 requests" '301 ann waiting' '101 more lines are'
left_out "a report of 300 moves" '301 ann report 0 4102444799' '107 more lines are'
head -n 194 lines >fewer
rm -f run.db* loop.db*
"$program" run --db run.db fewer >want 2>err
"$program" loop loop.db fewer >out 2>err
left_out "a report of 194 moves" '301 ann report 0 4102444799' '1 more line is'

# ---- a desk that is continued

rm -f ./*.db*
"$program" run --db run.db "$top/examples/monday.tc" >want 2>err
"$program" loop loop.db "$top/examples/monday.tc" >out 2>err
[[ $(<err) == "tcdesk: loop.db is a new desk" ]] && cmp -s want out
tell "a shift"
"$program" run --db run.db --at 86400 "$top/examples/tuesday.tc" >want
"$program" loop loop.db "$top/examples/tuesday.tc" --at 86400 --first 1001 >out 2>err
[[ $(head -n 1 out) == "move 10 86400 desk 1 Sent Doubtful open" && ! -s err ]] && cmp -s want out
tell "the next shift, with the moves of its opening"

# ---- lines that come again

# kept FILE: the kept replies of a desk: whose, under which number, and the lines.
kept() {
    python3 -c 'import sqlite3, sys
for row in sqlite3.connect(sys.argv[1]).execute("SELECT person, number, body FROM reply ORDER BY rowid"): print(*row)' "$1"
}

cat >lines <<'SCRIPT'
# comments and empty lines have no number
100 ann enter 5 a--c no 8 1 - - ok

110 bob enter 5 a--c no 8 2 - - ok
# the next is line 3
120 ann withdraw 1
130 bob approve 3
140 ann places
150 ann tick
SCRIPT
entries=$'ok request 1 5/0\nmove 1 100 ann 1 - Entered enter\nok request 2 5/1\nmove 2 110 bob 2 - Entered enter\n'
withdrawn=$'ok\nmove 3 120 ann 1 Entered Withdrawn withdraw\n'
two=$'places 2: 1 0 0 0 0 0 0 0 0 0 0 0 1 0 0\n'
first=$entries$withdrawn$'refused 2 UnknownRequest\n'$two$'ok\n'$two
kept_first=$'ann 1 ok request 1 5/0\nmove 1 100 ann 1 - Entered enter\n\nbob 2 ok request 2 5/1\nmove 2 110 bob 2 - Entered enter\n
ann 3 ok\nmove 3 120 ann 1 Entered Withdrawn withdraw\n\nann 6 ok'
check "a loop" 1 "$first" "" loop twice.db lines
same "what a loop keeps: of what was accepted, and no question" "$kept_first" "$(kept twice.db)"
"$program" report twice.db 0 4102444799 >want 2>err
used='tcdesk: 4 of the numbers 1 to 6 are used: their replies are those of the first run'
for again in "" "--first 1" "--first=1"; do
    # shellcheck disable=SC2086
    check "a second loop with the same numbers ($again)" 1 "$first" "$used" loop twice.db lines $again
done
check "a second loop with the same numbers, which have to be new" 1 "" "$used" loop twice.db lines --new
"$program" report twice.db 0 4102444799 >out 2>err
[[ -s want && ! -s err ]] && cmp -s want out
tell "a second loop with the same numbers does nothing"
same "a second loop with the same numbers keeps nothing" "$kept_first" "$(kept twice.db)"

# what was refused and what is a question is asked anew: now there is a request 3
echo '160 cid enter 5 a--c no 8 3 - - ok' >other
check "a script between two loops" 0 $'ok request 3 5/2\nmove 4 160 cid 3 - Entered enter\nplaces 3: 2 0 0 0 0 0 0 0 0 0 0 0 1 0 0\n' "" run --db twice.db other
same "a script keeps nothing" "$kept_first" "$(kept twice.db)"
three=$'places 3: 1 1 0 0 0 0 0 0 0 0 0 0 1 0 0\n'
check "a loop whose numbers have to be new, and are" 0 $'places 3: 2 0 0 0 0 0 0 0 0 0 0 0 1 0 0\n' "" loop twice.db input --new
approved=$entries$withdrawn$'ok approvals 1 of 1\nmove 5 130 bob 3 Entered Approved approve\n'$three$'ok\n'$three
check "a loop whose refused line is done now" 0 "$approved" "$used" loop twice.db lines
check "the same loop again" 0 "$approved" "${used/4 of/5 of}" loop twice.db lines
same "the reply to the line that was refused first" "$kept_first"$'\n\nbob 4 ok approvals 1 of 1\nmove 5 130 bob 3 Entered Approved approve' "$(kept twice.db)"

five=$'places 5: 3 1 0 0 0 0 0 0 0 0 0 0 1 0 0\n'
wrong=$'refused 3 WrongPlace\n'
more=$'ok request 4 5/3\nmove 6 100 ann 4 - Entered enter\nok request 5 5/4\nmove 7 110 bob 5 - Entered enter\n'$wrong$wrong$five$'ok\n'$five
check "a loop that goes on behind the numbers of the first" 1 "$more" "" loop twice.db lines --first 7
check "a second loop of these numbers" 1 "$more" "${used/4 of the numbers 1 to 6/3 of the numbers 7 to 12}" loop twice.db lines --first=7
printf '0 ann withdraw 2\n0 bob withdraw 2\n' >other
two_used='tcdesk: numbers 1 to 2 are used: their replies are those of the first run'
check "other lines under numbers that were used" 0 "$entries$five" "$two_used" loop twice.db other

# a script that was cut, and is given again
head -n 4 lines >other
check "the front of a script" 0 "$entries"$'places 2: 2 0 0 0 0 0 0 0 0 0 0 0 0 0 0\n' "" loop cut.db other
check "the whole of it, all new" 1 "" "$two_used" loop cut.db lines --new
check "the whole of it" 1 "$first" "$two_used" loop cut.db lines
same "what is kept of both" "$kept_first" "$(kept cut.db)"
check "a loop with numbers of its own, on a new file" 1 "$first" "" loop own.db lines --first 4294967290
same "the greatest of them" "ann 4294967295 ok" "$(kept own.db | tail -n 2 | head -n 1)"

refused=$'refused 1 BadText\n'
printf '7 ann enter 5 a--c no 8 1 - - ok\n7 ann places\n7 bob withdraw 1\n' >other
entry=$'ok request 1 5/0\nmove 1 7 ann 1 - Entered enter\n'
one=$'places 1: 1 0 0 0 0 0 0 0 0 0 0 0 0 0 0\n'
check "numbers past the last" 1 "$entry$refused$refused$one" "" loop last.db other --first 4294967295 --new
check "numbers past the last, again" 1 "$entry$refused$refused$one" "tcdesk: number 4294967295 is used: its reply is that of the first run" loop last.db other --first 4294967295
for number in 0 4294967296 -1 1.0 x ''; do
    check "a first number of '$number'" 2 "" "invalid value '$number' for '--first <N>'" loop none.db lines --first="$number"
done
check "a first number past the last, and the limits" 2 "" "for '--first <N>': 4294967296 is not in 1..=4294967295" loop none.db lines --first 4294967296
check "a first number of nothing" 2 "" "a value is required for '--first <N>' but none was supplied" loop none.db lines --first
check "a first number twice" 2 "" "'--first <N>' cannot be used multiple times" loop none.db lines --first 1 --first 2
check "new numbers of a server" 2 "" "unexpected argument '--new'" serve --new none.db 8080 1
check "new numbers of a run" 2 "" "unexpected argument '--new'" run --new --db none.db lines
check "a first number of a server" 2 "" "unexpected argument '--first'" serve --first 1 none.db 8080 1
check "a first number of a run" 2 "" "unexpected argument '--first'" run --first 1 --db none.db lines
[[ ! -e none.db ]]
tell "words that are refused make no file"

# ---- what a loop refuses

none=$'places 0: 0 0 0 0 0 0 0 0 0 0 0 0 0 0 0\n'
printf '0 ann stack s1 two.csv\n0 ann procedure p1 steps.csv\n' >lines
check "lines that load" 1 "$refused$refused$none" "" loop new.db lines
printf '0 desk %sx\n' "$act" >lines
check "an act of nobody that is too long" 1 "$refused$none" "" loop new.db lines
printf '0 ann places\n' >input
check "standard input by its name" 0 "$none$none" "" loop new.db -
: >input
check "no script" 2 "" "SCRIPT" loop new.db
check "an odd window" 2 "" "tcdesk: --w must be even" loop none/new.db missing --w 3
check "a script that is not there" 2 "" "tcdesk: cannot use missing" loop none/new.db missing
check "a folder that is not there" 2 "" "tcdesk: cannot use none/new.db" loop none/new.db input
head -c 8192 /dev/urandom >noise.db
cp noise.db before
check "a file that is no desk's" 2 "" "tcdesk: cannot use noise.db" loop noise.db input
cmp -s noise.db before
tell "a file that is no desk's stays as it is"
"$program" loop full.db "$top/examples/first-run.tc" >/dev/full 2>err
[[ $? == 2 ]] && grep -qF "tcdesk: cannot use output" err
tell "an output that takes nothing"

echo "loop cases: $passed passed, $failed failed"
[[ $failed == 0 ]]
