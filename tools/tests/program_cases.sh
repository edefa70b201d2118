#!/bin/bash
# Runs the built program on cases that only a built program meets: its words, its files, its statuses, and what it says
# on standard error. Ends with how many passed; status 1 where one failed.
set -u
top=$(cd "$(dirname "${BASH_SOURCE[0]}")/../.." && pwd) || exit 1
program=${1:-$top/crates/tc_cli/out/tc_cli}
[[ -x $program ]] || { echo "program_cases: $program is not built" >&2; exit 1; }
work=$(mktemp -d) || exit 1
trap 'rm -rf "$work"' EXIT
cd "$work" || exit 1
me=program_cases
. "$top/tools/lib.sh"

none=$'places 0: 0 0 0 0 0 0 0 0 0 0 0 0 0 0 0\n'
one=$'ok request 1 5/0\nmove 1 7 ann 1 - Entered enter\nplaces 1: 1 0 0 0 0 0 0 0 0 0 0 0 0 0 0\n'
first=$(cat <<'TEXT'
ok request 1 5/0
move 1 100 ann 1 - Entered enter
ok request 2 5/1
move 2 110 bob 2 - Entered enter
ok
move 3 120 ann 1 Entered Withdrawn withdraw
places 2: 1 0 0 0 0 0 0 0 0 0 0 0 1 0 0
history 1: 2
move 1 100 ann 1 - Entered enter
move 3 120 ann 1 Entered Withdrawn withdraw
places 2: 1 0 0 0 0 0 0 0 0 0 0 0 1 0 0
TEXT
)$'\n'
approval=$(cat <<'TEXT'
ok request 1 5/0
move 1 100 ann 1 - Entered enter
ok request 2 5/1
move 2 110 ann 2 - Entered enter
ok approvals 1 of 1
move 3 120 bob 1 Entered Approved approve
ok approvals 1 of 2
ok approvals 2 of 2
move 4 140 eve 2 Entered Approved approve
request 2 5/1 8/2 a--c yes - - ok ann Approved
history 2: 2
move 2 110 ann 2 - Entered enter
move 4 140 eve 2 Entered Approved approve
ok
move 5 170 bob 1 Approved Withdrawn withdraw
places 2: 0 1 0 0 0 0 0 0 0 0 0 0 1 0 0
TEXT
)$'\n'
pass=$(cat <<'TEXT'
ok request 1 5/0
move 1 100 ann 1 - Entered enter
ok approvals 1 of 1
move 2 110 bob 1 Entered Approved approve
ok
started
ok
move 3 130 ann 1 Approved Queued release
move 4 130 ann 1 Queued Sent transmit
ok accepted 1
ok
ok clcw 010c0001
move 5 160 ann 1 Sent Confirmed confirm
fop S1 vs 1 nn 1 sent 0 wait 0 count 1 timer 0 k 10 t1 10 limit 3
farm Open vr 1 b 0 flags --- w 20
link up 0 down 0 premise kept
request 1 5/0 8/1 ---c no - - ok ann Confirmed
places 1: 0 0 0 0 1 0 0 0 0 0 0 0 0 0 0
TEXT
)$'\n'
night=$(cat <<'TEXT'
ok request 1 5/0
move 1 100 ann 1 - Entered enter
ok request 2 5/1
move 2 100 ann 2 - Entered enter
ok request 3 5/2
move 3 100 ann 3 - Entered enter
ok approvals 1 of 1
move 4 110 bob 1 Entered Approved approve
ok approvals 1 of 1
move 5 120 bob 2 Entered Approved approve
ok approvals 1 of 1
move 6 130 bob 3 Entered Approved approve
ok
started
ok
move 7 150 ann 2 Approved Queued release
move 8 150 ann 1 Approved Riding release
move 9 150 ann 2 Queued Sent transmit
ok accepted 2
ok work 5/1
ok tm 1,7 5/1 step 0 code 0
move 10 180 ann 2 Sent Completed report
move 11 180 ann 1 Riding Scheduled insert
ok
move 12 190 ann 3 Approved Queued release
move 13 190 ann 3 Queued Sent transmit
ok accepted 3
ok work 5/2
ok tm 1,7 5/2 step 0 code 0
move 14 220 ann 3 Sent Completed report
mirror enabled 1
activity 5/0 600
ok now 600
ok tm 1,1 5/0 step 0 code 0
move 15 250 ann 1 Scheduled Accepted report
ok tm 1,7 5/0 step 0 code 0
move 16 260 ann 1 Accepted Completed report
mirror enabled 0
history 1: 6
move 1 100 ann 1 - Entered enter
move 4 110 bob 1 Entered Approved approve
move 8 150 ann 1 Approved Riding release
move 11 180 ann 1 Riding Scheduled insert
move 15 250 ann 1 Scheduled Accepted report
move 16 260 ann 1 Accepted Completed report
places 3: 0 0 0 0 0 0 0 0 0 3 0 0 0 0 0
TEXT
)$'\n'
loss=$(cat <<'TEXT'
ok request 1 5/0
move 1 100 ann 1 - Entered enter
ok request 2 5/1
move 2 100 ann 2 - Entered enter
ok approvals 1 of 1
move 3 110 bob 1 Entered Approved approve
ok approvals 1 of 1
move 4 110 bob 2 Entered Approved approve
ok
ok
ok
ok
ok
ok clcw 010c0000
started
ok
move 5 160 ann 1 Approved Queued release
move 6 160 ann 1 Queued Sent transmit
ok
move 7 170 ann 2 Approved Queued release
ok lost
ok
ok
ok accepted 1
ok
ok lost
ok
ok clcw 010c0001
move 8 250 ann 1 Sent Confirmed confirm
move 9 250 ann 2 Queued Sent transmit
ok
alert TERM
move 10 260 ann 2 Sent Doubtful doubt
fop S6 vs 2 nn 1 sent 0 wait 0 count 1 timer 0 k 1 t1 2 limit 3
farm Open vr 1 b 0 flags --- w 20
link up 1 down 0 premise kept
ok
move 11 280 bob 2 Doubtful Closed close
ok
ok lost
ok
ok control
ok
ok clcw 010c0201
started
ok
alert TERM
ok
ok control
ok
ok clcw 010c0407
started
places 2: 0 0 0 0 1 0 0 0 0 0 0 0 0 0 1
TEXT
)$'\n'
stack=$(cat <<'TEXT'
ok stack heater 3 1
move 1 100 ann 1 - Entered enter
move 2 100 ann 2 - Entered enter
move 3 100 ann 3 - Entered enter
ok approvals 1 of 2
ok approvals 2 of 2
move 4 120 eve 1 Entered Approved approve
move 5 120 eve 2 Entered Approved approve
move 6 120 eve 3 Entered Approved approve
ok
started
refused 7 Interlock
ok
move 7 150 ann 1 Approved Queued release
move 8 150 ann 1 Queued Sent transmit
ok accepted 1
ok work 5/0
refused 7 Interlock
ok tm 1,7 5/0 step 0 code 0
move 9 190 ann 1 Sent Completed report
ok
move 10 200 ann 2 Approved Queued release
move 11 200 ann 2 Queued Sent transmit
ok accepted 2
ok work 5/1
ok tm 1,7 5/1 step 0 code 0
move 12 230 ann 2 Sent Completed report
request 2 5/1 8/2 ---c yes - - ok ann Completed
history 2: 5
move 2 100 ann 2 - Entered enter
move 5 120 eve 2 Entered Approved approve
move 10 200 ann 2 Approved Queued release
move 11 200 ann 2 Queued Sent transmit
move 12 230 ann 2 Sent Completed report
places 3: 0 1 0 0 0 0 0 0 0 2 0 0 0 0 0
TEXT
)$'\n'
procedure=$(cat <<'TEXT'
ok request 1 5/0
move 1 100 ann 1 - Entered enter
ok approvals 1 of 1
move 2 110 bob 1 Entered Approved approve
ok
started
ok procedure warm 3
ok execution 1
ok
refused 15 Countersign
ok
move 3 170 ann 1 Approved Queued release
move 4 170 ann 1 Queued Sent transmit
ok accepted 1
ok work 5/0
ok tm 1,7 5/0 step 0 code 0
move 5 200 ann 1 Sent Completed report
ok
execution 1 warm next 0
step 1 150 ann done -
step 2 170 ann done bob
step 3 210 ann done -
places 1: 0 0 0 0 0 0 0 0 0 1 0 0 0 0 0
TEXT
)$'\n'
refused=$'refused 1 BadText\n'

: >input
: >empty
check "an empty script" 0 "$none" "" run empty
check "the first run" 0 "$first" "" run "$top/examples/first-run.tc"
check "an approval" 0 "$approval" "" run "$top/examples/approval.tc"
check "a first pass" 0 "$pass" "" run "$top/examples/first-pass.tc"
check "a lost frame" 0 "$loss" "" run "$top/examples/lost-frame.tc"
check "a night of the schedule" 0 "$night" "" run "$top/examples/night.tc"
# The files that scripts load are named from the folder that the program is run in.
mkdir examples
cp "$top"/examples/*.csv examples
cp "$top"/tools/cases/data/*.csv .
check "a stack with an interlock" 1 "$stack" "" run "$top/examples/stack.tc"
check "a procedure with a second person" 1 "$procedure" "" run "$top/examples/procedure.tc"
fop='fop S6 vs 0 nn 0 sent 0 wait 0 count 1 timer 0 k 10 t1 10 limit 3'
link='link up 0 down 0 premise kept'
word=$'ok\nok clcw 01'
echo '0 ann link' >link
printf '0 ann clcw\n0 ann down\n' >word
check "a window" 0 "$fop"$'\nfarm Open vr 0 b 0 flags --- w 254\n'"$link"$'\n'"$none" "" run --w 254 link
check "the smallest window, behind the script" 0 "${fop/k 10/k 1}"$'\nfarm Open vr 0 b 0 flags --- w 2\n'"$link"$'\n'"$none" "" run link --w=2
check "the last window whose half is less than 10" 0 "${fop/k 10/k 9}"$'\nfarm Open vr 0 b 0 flags --- w 18\n'"$link"$'\n'"$none" "" run --w 18 link
check "the smallest ring" 0 "$fop"$'\nfarm Open vr 0 b 0 flags --- w 20\n'"$link"$'\n'"$none" "" run --ring 1 link
check "the largest ring, behind the script" 0 "$fop"$'\nfarm Open vr 0 b 0 flags --- w 20\n'"$link"$'\n'"$none" "" run link --ring=4096
check "a channel" 0 "$word"$'fc0000\n'"$none" "" run --vc 63 word
check "the first channel" 0 "$word"$'000000\n'"$none" "" run --vc 0 word
check "the channel that nobody chose" 0 "$word"$'0c0000\n'"$none" "" run word
# A word that is wrong is named.
check "an odd window" 2 "" "tcdesk: --w must be even" run --w 21 link
check "a window past its limit" 2 "" "invalid value '256' for '--w <N>': 256 is not in 2..=254" run --w 256 link
for ring in 0 4097 4294967296 -1 x ''; do
    check "a ring of '$ring'" 2 "" "invalid value '$ring' for '--ring <N>'" run --ring="$ring" link
done
check "a ring past its limit, and the limits" 2 "" "invalid value '4097' for '--ring <N>': 4097 is not in 1..=4096" run --ring 4097 link
check "a ring of no number" 2 "" "a value is required for '--ring <N>' but none was supplied" run link --ring
check "a ring twice" 2 "" "'--ring <N>' cannot be used multiple times" run --ring 2 --ring 2 link
check "a ring of 0 to serve" 2 "" "invalid value '0' for '--ring <N>'" serve --ring 0 none.db 8080 1
check "a ring of 4,097 in a loop" 2 "" "invalid value '4097' for '--ring <N>'" loop --ring 4097 none.db link
check "a ring for a report" 2 "" "unexpected argument '--ring'" report --ring 2 none.db 0 1
check "a ring for a check" 2 "" "unexpected argument '--ring'" check --ring 2 stack two.csv
check "a channel past its limit" 2 "" "invalid value '64' for '--vc <N>': 64 is not in 0..=63" run --vc 64 link
check "a moment past its limit" 2 "" "tcdesk: --at is Unix seconds, 0 to 4102444799 (for now: \$(date +%s)), or an instant such as 2031-05-04T10:00:00Z: 4102444800" run --db none.db --at 4102444800 link
check "a port past its limit" 2 "" "invalid value '65536' for '<PORT>'" serve none.db 65536 1
check "no connections" 2 "" "invalid value '0' for '[COUNT]'" serve none.db 8080 0
check "a connection past the limit" 2 "" "invalid value '1000001' for '[COUNT]': 1000001 is not in 1..=1000000" serve none.db 8080 1000001
check "a FROM that spells no moment" 2 "" "such as 2031-05-04T10:00:00Z: noon" report none.db noon 86400
check "a TO that spells no moment" 2 "" "such as 2031-05-04T10:00:00Z: 2031-02-30T10:00:00Z" report none.db 0 2031-02-30T10:00:00Z
check "a KIND that is none" 2 "" "tcdesk: KIND is script, stack or procedure: shift" check shift empty
check "no KIND" 2 "" "KIND" check
check "no FILE" 2 "" "FILE" check stack
check "a word too many" 2 "" "unexpected argument 'more'" run link more
check "an option twice" 2 "" "'--w <N>' cannot be used multiple times" run --w 20 --w 20 link
check "an option without its value" 2 "" "a value is required for '--w <N>' but none was supplied" run link --w
[[ ! -e none.db ]] || { failed=$((failed + 1)); echo "program_cases: words that are refused made a file" >&2; }
for word in --version -V; do
    check "the version, $word" 0 $'tcdesk 0.1.0\n' "" "$word"
done
cp "$top/examples/first-run.tc" input
check "no words" 0 "$first" ""
check "standard input by its name" 0 "$first" "" run -
: >input
printf '# a comment\r\n\r\n\n7 ann enter 5 a--c no 8 1 - - ok\r\n' >crlf
check "CR LF, comments and empty lines" 0 "$one" "" run crlf
printf '7 ann enter 5 a--c no 8 1 - - ok' >open
check "a missing last LF" 0 "$one" "" run open
printf '7 ann enter 5 a--c no 8 1 - - ok\r' >cut
check "a CR at the end of a last line without LF" 1 "$refused$none" "" run cut
printf '\377\376\n' >bytes
check "bytes that are not UTF-8" 1 "$refused$none" "" run bytes
printf '# places\r\n\r\n\n1 ann places\r\n2 ann places' >mixed
check "CR LF, LF, a comment, empty lines and no last LF" 0 "$none$none$none" "" run mixed
printf '1 ann places\r' >last
check "a question with a last CR and no LF" 1 "$refused$none" "" run last
printf '\377\n1 desk places\n1  ann places\n' >spelled
check "a byte that is not UTF-8, the desk as a person, and two spaces" 1 "$refused$refused$refused$none" "" run spelled
# 200 bytes are no act, and 201 too many, also where what stands before them is no moment and no person.
act=$(printf '%200s' "" | tr ' ' x)
printf "nobody's moment %s" "$act" >longest
check "an act of 200 bytes" 1 "$refused$none" "" run longest
printf "nobody's moment %sx" "$act" >longer
check "an act of 201 bytes" 1 $'refused 17 TooLong\n'"$none" "" run longer
check "a missing file" 2 "" "tcdesk: cannot use missing" run missing
mkdir folder
check "a directory" 2 "" "tcdesk: cannot use folder" run folder
check "an unknown option" 2 "" "unexpected argument '--colour'" run --colour empty
check "an unknown command" 2 "" "unrecognized subcommand 'fly'" fly
check "no script" 2 "" "SCRIPT" run
head -c 1048577 /dev/zero | tr '\0' '\n' >large
check "1,048,577 bytes" 2 "" "tcdesk: cannot use large" run large
head -c 1048576 /dev/zero | tr '\0' '\n' >largest
check "1,048,576 bytes" 0 "$none" "" run largest
# A path that gives no text ends the run: what was printed stands, and the places are not asked for.
entry='7 ann enter 5 a--c no 8 1 - - ok'
moved=$'ok request 1 5/0\nmove 1 7 ann 1 - Entered enter\n'
printf '%s\n0 ann stack s1 missing.csv\n0 ann places\n' "$entry" >unread
check "a path of no file" 2 "$moved" "tcdesk: cannot use missing.csv" run unread
printf '%s\n0 ann stack s1 folder\n0 ann places\n' "$entry" >unread
check "a path of a directory" 2 "$moved" "tcdesk: cannot use folder" run unread
printf '0 ann stack s1 two.csv\n0 ann stack s1 missing.csv\n' >unread
loaded=$'ok stack s1 2 1\nmove 1 0 ann 1 - Entered enter\nmove 2 0 ann 2 - Entered enter\n'
check "a path of no file under a name that is used" 2 "$loaded" "tcdesk: cannot use missing.csv" run unread
printf '%s\n0 ann procedure p1 missing.csv\n0 ann places\n' "$entry" >unread
check "a path of no file of a procedure" 2 "$moved" "tcdesk: cannot use missing.csv" run unread
printf '0 ann stack s1 \377\n' >unread
check "a path that is not UTF-8" 1 "$refused$none" "" run unread
# A stack has 65,536 bytes at most, and so has a procedure.
one_row=$'ok stack s1 1 1\nmove 1 0 ann 1 - Entered enter\nplaces 1: 1 0 0 0 0 0 0 0 0 0 0 0 0 0 0\n'
echo '0 ann stack s1 filled.csv' >fills
fill() { { cat "$1"; head -c $(($2 - $(stat -c %s "$1"))) /dev/zero | tr '\0' '\n'; } >filled.csv; }
fill critical.csv 65536
check "a stack of 65,536 bytes" 0 "$one_row" "" run fills
fill critical.csv 65537
check "a stack of 65,537 bytes" 1 $'refused 17 TooLong\n'"$none" "" run fills
echo '0 ann procedure p1 filled.csv' >fills
fill longest-steps.csv 65536
check "a procedure of 65,536 bytes" 0 $'ok procedure p1 100\n'"$none" "" run fills
fill longest-steps.csv 65537
check "a procedure of 65,537 bytes" 1 $'refused 17 TooLong\n'"$none" "" run fills
"$program" run "$top/examples/first-run.tc" >/dev/full 2>err
if [[ $? == 2 ]] && grep -qF "tcdesk: cannot use output" err; then
    passed=$((passed + 1))
else
    failed=$((failed + 1))
    echo "program_cases: an output that takes nothing" >&2
fi
"$program" --help >/dev/full 2>err
if [[ $? == 2 ]] && grep -qF "tcdesk: cannot use output" err; then
    passed=$((passed + 1))
else
    failed=$((failed + 1))
    echo "program_cases: help that cannot be printed" >&2
fi

# Each script of tools/cases, with the options of its .args where it has some, beside what it prints and, where that is not 0, its status; those that
# have none, over rings that never fill too, which print the same. What it loads lies in tools/cases/data.
for script in "$top"/tools/cases/*.tc; do
    case=${script%.tc}
    status=0
    options=()
    [[ ! -e $case.status ]] || status=$(<"$case.status")
    [[ ! -e $case.args ]] || mapfile -t options <"$case.args"
    lines=$(cat "$case.stdout"; echo .)
    check "${case##*/}" "$status" "${lines%.}" "" run "${options[@]}" "$script"
    [[ -e $case.args ]] || check "${case##*/}, over rings" "$status" "${lines%.}" "" run --ring 4096 "$script"
done

echo "program cases: $passed passed, $failed failed"
[[ $failed == 0 ]]
