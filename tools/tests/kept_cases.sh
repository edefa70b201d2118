#!/bin/bash
# Runs the built program on desks that are kept in a file: what is said of one that is made, a shift that is continued, what opening makes of what was left,
# a copy of the file alone, also while it is open, files that are no desk's, two programs at once, a program that is killed, and acts that come again. Ends
# with how many passed; status 1 where one failed.
set -u
top=$(cd "$(dirname "${BASH_SOURCE[0]}")/../.." && pwd) || exit 1
program=${1:-$top/crates/tc_cli/out/tc_cli}
[[ -x $program ]] || { echo "kept_cases: $program is not built" >&2; exit 1; }
work=$(mktemp -d) || exit 1
cd "$work" || exit 1
me=kept_cases
. "$top/tools/lib.sh"
trap end_cases EXIT

# refused NAME FILE: the program cannot use this file, and leaves it as it is.
refused() {
    cp "$2" before
    check "$1" 2 "" "tcdesk: cannot use $2" run --db "$2" input
    cmp -s before "$2"
    tell "$1: the file"
}

# without_table KIND FILE: makes a file that holds no table: none at all, one of no bytes, or a database as SQLite makes one.
without_table() {
    rm -f "$2" "$2-wal"
    case $1 in
    empty) : >"$2" ;;
    bare) python3 -c 'import sqlite3, sys; sqlite3.connect(sys.argv[1]).execute("PRAGMA user_version = 0")' "$2" ;;
    esac
}

# serve FILE COUNT: serves a desk, and waits until it listens.
serve() {
    take_port port
    : >said
    "$program" serve "$1" "$port" "$2" >served 2>said &
    server=$!
    wait_until listens said $server
}

# ask REQUEST: sends the server a request of HTTP, and prints what it answers.
ask() {
    exec 8<>"/dev/tcp/127.0.0.1/$port"
    printf '%s' "$1" >&8
    cat <&8
    exec 8>&-
}
places=$'GET /places HTTP/1.1\r\n\r\n'

# ended: waits for the server, whose status it has. What that said is then in err, but that it listened and ended.
ended() {
    local status
    wait "$server"
    status=$?
    server=
    sed '/^tcdesk: listening on /d; /^tcdesk: ended after /d' said >err
    return $status
}

# opens COMMAND FILE: opens the file by a command, which does nothing more.
opens() {
    case $1 in
    run) "$program" run --db "$2" input >out 2>err ;;
    loop) "$program" loop "$2" input >out 2>err ;;
    serve) serve "$2" 1 && ask "$places" >out && ended ;;
    esac
}

# alone NAME FILE MOST: a copy of the file alone, without the log beside it, is that of a desk with its tables, of so many requests at most. It is no new one.
alone() {
    cp "$2" alone.db
    rm -f alone.db-wal
    "$program" report alone.db 0 0 >out 2>err
    [[ $? == 0 && ! -s err && $(head -n 4 out) == $'SHIFT REPORT\nfrom 1970-01-01 00:00:00\nto   1970-01-01 00:00:00\npremise closed' ]]
    tell "$1: a report"
    "$program" run --db alone.db input >out 2>err
    [[ $? == 0 && ! -s err && $(<out) =~ ^places\ ([0-9]+):\  && ${BASH_REMATCH[1]} -le $3 ]]
    tell "$1"
}

# ---- a desk that is made

: >input
for kind in none empty bare; do
    for way in "run made.db" "loop ./made.db" "serve $work/a made.db"; do
        command=${way%% *}
        file=${way#* }
        without_table $kind "$file"
        opens "$command" "$file"
        same "$command of a file with no table ($kind)" "0 tcdesk: $file is a new desk" "$? $(<err)"
        for again in run loop serve; do
            opens $again "$file"
            same "$command of a file with no table ($kind), then $again" "0 " "$? $(<err)"
        done
    done
done

# ---- a shift, and the next

monday=$(cat <<'TEXT'
ok request 1 5/0
move 1 0 ann 1 - Entered enter
ok request 2 5/1
move 2 0 ann 2 - Entered enter
ok request 3 5/2
move 3 0 ann 3 - Entered enter
ok approvals 1 of 1
move 4 0 bob 1 Entered Approved approve
ok approvals 1 of 1
move 5 0 bob 2 Entered Approved approve
ok approvals 1 of 1
move 6 0 bob 3 Entered Approved approve
ok
started
ok
ok
move 7 0 ann 1 Approved Queued release
move 8 0 ann 1 Queued Sent transmit
ok
move 9 0 ann 2 Approved Queued release
ok accepted 1
places 3: 0 1 1 1 0 0 0 0 0 0 0 0 0 0 0
TEXT
)$'\n'
tuesday=$(cat <<'TEXT'
move 10 86400 desk 1 Sent Doubtful open
move 11 86400 desk 2 Queued Approved open
ok request 4 5/3
move 12 90000 cid 4 - Entered enter
history 1: 5
move 1 0 ann 1 - Entered enter
move 4 0 bob 1 Entered Approved approve
move 7 0 ann 1 Approved Queued release
move 8 0 ann 1 Queued Sent transmit
move 10 86400 desk 1 Sent Doubtful open
ok
move 13 90020 cid 1 Doubtful Closed close
ok
started
ok
move 14 90040 cid 2 Approved Queued release
move 15 90040 cid 2 Queued Sent transmit
fop S1 vs 1 nn 0 sent 1 wait 0 count 1 timer 10 k 10 t1 10 limit 3
farm Open vr 0 b 0 flags --- w 20
link up 1 down 0 premise kept
places 4: 1 1 0 1 0 0 0 0 0 0 0 0 0 0 1
TEXT
)$'\n'
doubtful='places 4: 1 1 0 0 0 0 0 0 0 0 0 1 0 0 1'
: >input
check "a file that is made" 0 "$monday" "" run --db desk.db "$top/examples/monday.tc"
[[ $(stat -c %s desk.db-wal 2>/dev/null || echo 0) -lt 100 && ! -s desk.db-journal ]]
tell "the log beside the file holds no row"
cp desk.db copy.db
check "the next shift" 0 "$tuesday" "" run --db desk.db --at 86400 "$top/examples/tuesday.tc"
check "the next shift, on a copy of the file alone" 0 "$tuesday" "" run "$top/examples/tuesday.tc" --at 86400 --db copy.db
check "what was on its way" 0 $'move 16 172800 desk 2 Sent Doubtful open\n'"$doubtful"$'\n' "" run --db desk.db --at 172800 input
for ((day = 3; day < 6; day++)); do
    check "nothing was on its way on day $day" 0 "$doubtful"$'\n' "" run --db desk.db --at $((day * 86400)) input
done

# ---- a window of an opening

# W and K are an opening's: each begins with the lesser of 10 and W / 2, whatever was set before.
none=$'places 0: 0 0 0 0 0 0 0 0 0 0 0 0 0 0 0\n'
# stands K W: how a desk begins.
stands() {
    printf 'fop S6 vs 0 nn 0 sent 0 wait 0 count 1 timer 0 k %s t1 10 limit 3\nfarm Open vr 0 b 0 flags --- w %s\nlink up 0 down 0 premise kept\n' "$1" "$2"
}
printf '0 ann link\n0 ann set k 1\n' >input
for window in 8 8 254 20 18 2 8; do
    k=$((window / 2 < 10 ? window / 2 : 10))
    check "a file opened with --w $window" 0 "$(stands $k $window)"$'\nok\n'"$none" "" run --db window.db --w $window input
done
# So is the ring: three words go down, and as many come as it holds.
printf '0 ann clcw\n0 ann clcw\n0 ann clcw\n0 ann link\n' >input
for ring in 2 3 1; do
    lines=$(stands 10 20)
    check "a file opened with --ring $ring" 0 $'ok\nok\nok\n'"${lines/down 0/down $ring}"$'\n'"$none" "" run --db window.db --ring $ring input
done
: >input

# ---- faults, in their order: usage, script, file

check "an odd window" 2 "" "tcdesk: --w must be even" run --db new.db --w 3 missing
check "a moment past the last" 2 "" "4102444800" run --db new.db --at 4102444800 missing
check "a script that is not there" 2 "" "tcdesk: cannot use missing" run --db new.db missing
[[ ! -e new.db ]]
tell "a fault before it leaves no file"
check "a folder that is not there" 2 "" "tcdesk: cannot use none/new.db" run --db none/new.db input
mkdir folder
check "a folder" 2 "" "tcdesk: cannot use folder" run --db folder input
check "memory is no file" 2 "" "tcdesk: cannot use :memory:" run --db :memory: input

# ---- files that are no desk's

head -c 8192 /dev/urandom >noise.db
refused "noise" noise.db
yes "not a database" | head -c 100 >short.db
refused "a text" short.db
head -c 5000 copy.db >cut.db
refused "a database that is cut short" cut.db
: >empty.db
check "a file of no bytes becomes a desk" 0 $'places 0: 0 0 0 0 0 0 0 0 0 0 0 0 0 0 0\n' "" run --db empty.db input
check "and stays one" 0 $'places 0: 0 0 0 0 0 0 0 0 0 0 0 0 0 0 0\n' "" run --db empty.db input

# ---- two programs at once, and one that is killed

# lines COUNT: a script whose replies fill a pipe, so that the program waits for its reader while it has the file.
lines() {
    for ((i = 0; i < $1; i++)); do
        echo "$i ann enter 7 ---- no 8 1 - - ok"
        echo "$i ann places"
    done
}
lines 3000 >long
mkfifo pipe
"$program" run --db busy.db long >pipe 2>first.err &
first=$!
exec 7<pipe
head -c 20000 <&7 >first.out
alone "a copy of the file alone of a new desk that is open" busy.db 3000
check "a file that another program has" 2 "" "tcdesk: cannot use busy.db" run --db busy.db input
cat <&7 >>first.out
wait $first
[[ $? == 0 && $(tail -n 1 first.out) == "places 3000: 3000 0 0 0 0 0 0 0 0 0 0 0 0 0 0" && $(<first.err) == "tcdesk: busy.db is a new desk" ]]
tell "the program that had it"
exec 7<&-
check "the file once it was closed" 0 $'places 3000: 3000 0 0 0 0 0 0 0 0 0 0 0 0 0 0\n' "" run --db busy.db input

"$program" run --db killed.db long >pipe 2>first.err &
first=$!
exec 7<pipe
head -c 20000 <&7 >first.out
kill -9 $first
wait $first 2>/dev/null
cat <&7 >>first.out
exec 7<&-
acknowledged=$(grep -c '^move ' first.out)
[[ $(<first.err) == "tcdesk: killed.db is a new desk" ]]
tell "the program that was killed had told a new desk"
alone "a copy of the file alone of a new desk whose program was killed" killed.db 3000
"$program" run --db killed.db input >out 2>err
take_beside
entered=$(sed -n 's/^places \([0-9]*\): .*/\1/p' out)
[[ -n $entered && $entered -ge $acknowledged && $acknowledged -gt 100 && $entered -le 3000 && ! -s err ]]
tell "what was answered before the program was killed stands: $acknowledged, $entered"
check "the file of a program that was killed, once more" 0 "places $entered: $entered 0 0 0 0 0 0 0 0 0 0 0 0 0 0"$'\n' "" run --db killed.db input

# send NUMBER: sends the server an act of ann under this number.
send() {
    local body='{"act":"enter 7 ---- no 8 1 - - ok","by":"ann","moment":7,"number":'$1'}'
    ask "POST /acts HTTP/1.1"$'\r\n'"Content-Length: ${#body}"$'\r\n\r\n'"$body"
}
serve served.db 3
for ((n = 1; n < 3; n++)); do
    send "$n" >"answer$n"
    same "act $n of a served desk" '{"lines":["ok request '$n' 7/'$((n - 1))'","move '$n' 7 ann '$n' - Entered enter"],"more":0,"refusal":0}' "$(tail -n 1 "answer$n")"
    alone "a copy of the file alone of a new desk that is served" served.db $n
done
ask "$places" >answer
ended
same "what was said as the desk was served" "0 tcdesk: served.db is a new desk" "$? $(<err)"
check "the file that was served" 0 $'places 2: 2 0 0 0 0 0 0 0 0 0 0 0 0 0 0\n' "" run --db served.db input
# what is kept stays kept, also where the server is killed, or an opening moves what was done
serve served.db 100
for ((n = 1; n < 3; n++)); do
    send "$n" >answer
    cmp -s "answer$n" answer
    tell "act $n sent again to the next server"
done
send 3 >answer3
kill -9 "$server"
wait "$server" 2>/dev/null
serve served.db 4
for ((n = 1; n < 4; n++)); do
    send "$n" >answer
    cmp -s "answer$n" answer
    tell "act $n sent again behind a server that was killed"
done
ask "$places" >answer
ended
status=$?
take_beside
same "a desk of acts that came again and again" '0  {"lines":["places 3: 3 0 0 0 0 0 0 0 0 0 0 0 0 0 0"],"more":0,"refusal":0}' "$status $(<err) $(tail -n 1 answer)"

echo "kept cases: $passed passed, $failed failed"
[[ $failed == 0 ]]
