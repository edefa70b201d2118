#!/bin/bash
# Serves a desk and sends it the lines of curl that docs/manual/over-http.md prints, in order: each has to give the block that follows it there.
# Then the function that is printed there, where answers are lost: a proxy takes them, or the server is killed. Then what lines of curl do not send: requests
# that are cut short, peers that go away, and one that sends more than it said. Ends with how many passed; status 1 where one failed. Wants curl (7.82 or
# later) and python3.
set -u
top=$(cd "$(dirname "${BASH_SOURCE[0]}")/../.." && pwd) || exit 1
program=${1:-$top/crates/tc_cli/out/tc_cli}
[[ -x $program ]] || { echo "curl_cases: $program is not built" >&2; exit 1; }
command -v curl >/dev/null || { echo "curl_cases: curl is not installed (Debian: curl)" >&2; exit 1; }
program=$(readlink -f "$program")
work=$(mktemp -d) || exit 1
me=curl_cases
. "$top/tools/lib.sh"
trap '[[ -z $proxy ]] || kill "$proxy" 2>/dev/null; end_cases' EXIT
proxy=
cp -r "$top/examples" "$work" && cd "$work" || exit 1

# start FILE COUNT [PORT]: serves the desk of a file, and waits until it says that it listens.
start() {
    port=${3:-}
    [[ -n $port ]] || take_port port
    count=$2
    expect_new serve "$1"
    : >"$work/served.err"
    "$program" serve "$1" "$port" "$count" >"$work/served" 2>"$work/served.err" &
    server=$!
    wait_until listens "$work/served.err" $server
}

# has_ended PID: whether a process has ended.
has_ended() { ! kill -0 "$1" 2>/dev/null; }


# ended NAME: the server that was started ends by itself, with status 0, and says whether its desk is new, where it listened and why it ended.
ended() {
    wait_until has_ended "$server"
    kill "$server" 2>/dev/null
    wait "$server"
    local status=$?
    server=
    cp "$work/served" "$work/out"
    cp "$work/served.err" "$work/err"
    take_beside
    [[ $status == 0 && $(<"$work/err") == "${new}tcdesk: listening on 127.0.0.1:$port"$'\n'"tcdesk: ended after $count connections" ]]
    tell "$1: status $status"
}

# raw BYTES..: sends these bytes, by printf, ends its sending, and prints what comes back.
raw() {
    # shellcheck disable=SC2059
    printf "$@" | python3 -c '
import socket, sys
s = socket.create_connection(("127.0.0.1", int(sys.argv[1])))
s.sendall(sys.stdin.buffer.read())
s.shutdown(socket.SHUT_WR)
while True:
    piece = s.recv(65536)
    if not piece:
        break
    sys.stdout.buffer.write(piece)
' "$port" >"$work/out" 2>"$work/err"
}

# ---- the lines that are printed

# each block of a shell with curl in it, and the block behind it
awk -v work="$work" '
    /^```/ {
        if (kind != "") { close(file); kind = ""; next }
        kind = $0 == "```sh" ? "sh" : $0 == "```" ? "out" : "other"
        if (kind == "sh") n++
        file = sprintf("%s/case-%03d.%s", work, n, kind)
        next
    }
    kind == "sh" || kind == "out" { print >file }
' "$top/docs/manual/over-http.md"
cases=()
for case in "$work"/case-*.sh; do
    [[ -e ${case%.sh}.out ]] && grep -q curl "$case" && cases+=("$case")
done
((${#cases[@]} >= 10))
tell "the page has its lines: ${#cases[@]}"
# each line of curl is a connection, and so is each call of the function
sent=$(cat "${cases[@]}" | grep -cE '^( {4})?curl|^post ')
start "$work/desk.db" "$sent"
for case in "${cases[@]}"; do
    sed "s/:8080/:$port/g" "$case" >"$work/line"
    bash "$work/line" >"$work/out" 2>"$work/err"
    [[ $(<"$work/out") == "$(<"${case%.sh}.out")" && ! -s $work/err ]]
    tell "$(<"$case")"
done
ended "a server of $sent connections"
"$program" run --db "$work/desk.db" /dev/null >"$work/out" 2>"$work/err"
take_beside
[[ $(<"$work/out") == "places 4: 3 1 0 0 0 0 0 0 0 0 0 0 0 0 0" && ! -s $work/err ]]
tell "the desk that is left"

# ---- the function, where answers are lost

# lose WORD..: a proxy before the server, at the port $front, which loses answers as these words say.
lose() {
    take_port front
    : >"$work/ready"
    "$top/tools/pages/losing_proxy.py" "$front" "$port" "$server" "$@" >"$work/ready" 2>"$work/proxy.err" &
    proxy=$!
    wait_until test -s "$work/ready"
}

# posted NAME NUMBER LINES WORD..: the function posts an act of eve, which enters a request, by a proxy that loses answers so. It prints the answer of LINES,
# once, and the next number is then NUMBER.
posted() {
    local name=$1 next=$2 lines=$3
    shift 3
    lose "$@"
    sed "s/:8080/:$front/" "$work/post" >"$work/line"
    bash "$work/line" >"$work/out" 2>"$work/err"
    wait "$proxy"
    [[ $? == 0 && $(<"$work/out") == "{\"lines\":[$lines],\"more\":0,\"refusal\":0}" && ! -s $work/err && ! -s $work/proxy.err && $(<number.eve) == "$next" ]]
    tell "$name"
    proxy=
}

# The function as it is printed, with one call of it behind.
sed '/^}/q' "$(grep -l '^post()' "${cases[@]}" | head -n 1)" >"$work/function"
{ cat "$work/function"; echo "post eve /acts '\"act\":\"enter 5 a--c no 8 1 - - ok\",\"moment\":300'"; } >"$work/post"
start "$work/lost.db" 17
posted "an answer that comes" 2 '"ok request 1 5/0","move 1 300 eve 1 - Entered enter"' pass
posted "an answer that is lost" 3 '"ok request 2 5/1","move 2 300 eve 2 - Entered enter"' close pass
posted "an answer that is cut" 4 '"ok request 3 5/2","move 3 300 eve 3 - Entered enter"' cut pass
posted "answers that are lost again and again" 5 '"ok request 4 5/3","move 4 300 eve 4 - Entered enter"' 504 close 504 pass
for word in 504 close cut; do
    lose $word $word
    sed "s/:8080/:$front/; s/--retry 8/--retry 1/" "$work/post" >"$work/line"
    bash "$work/line" >"$work/out" 2>"$work/err"
    [[ $? == 1 && ! -s $work/out && $(<"$work/err") == "not known yet: give the same line again" && $(<number.eve) == 5 ]]
    tell "it gives up, $word"
    wait "$proxy"
done
posted "what it gave up, by the same line again" 6 '"ok request 5 5/4","move 5 300 eve 5 - Entered enter"' pass
curl -sS "http://127.0.0.1:$port/places" >"$work/out" 2>"$work/err"
[[ $(<"$work/out") == '{"lines":["places 5: 5 0 0 0 0 0 0 0 0 0 0 0 0 0 0"],"more":0,"refusal":0}' ]]
tell "each was done once"
ended "a server whose answers were lost"

# a server that is killed once it has done what was asked, and the next one at its port
start "$work/lost.db" 9
lose kill pass
sed "s/:8080/:$front/" "$work/post" >"$work/line"
bash "$work/line" >"$work/post.out" 2>"$work/post.err" &
poster=$!
wait "$server" 2>/dev/null
start "$work/lost.db" 2 "$port"
wait "$poster"
[[ $? == 0 && $(<"$work/post.out") == '{"lines":["ok request 6 5/5","move 6 300 eve 6 - Entered enter"],"more":0,"refusal":0}' && $(<number.eve) == 7 ]]
tell "a server that is killed before its answer is heard: $(<"$work/post.out")"
wait "$proxy"
proxy=
curl -sS "http://127.0.0.1:$port/places" >"$work/out" 2>"$work/err"
[[ $(<"$work/out") == '{"lines":["places 6: 6 0 0 0 0 0 0 0 0 0 0 0 0 0 0"],"more":0,"refusal":0}' ]]
tell "it was done once"
ended "the next server"

# what is refused is final, and where nobody answers nothing is
start "$work/lost.db" 1
{ sed "s/:8080/:$port/" "$work/function"; echo "post eve /acts '\"act\":\"withdraw 9\",\"moment\":300'"; } >"$work/line"
bash "$work/line" >"$work/out" 2>"$work/err"
[[ $? == 0 && $(<"$work/out") == '{"lines":["refused 2 UnknownRequest"],"more":0,"refusal":2}' && ! -s $work/err && $(<number.eve) == 8 ]]
tell "a refusal, which is not asked for again"
ended "a server that refuses"
sed "s/:8080/:$port/; s/--retry 8/--retry 1/" "$work/post" >"$work/line"
bash "$work/line" >"$work/out" 2>"$work/err"
[[ $? == 1 && ! -s $work/out && $(<"$work/err") == "not known yet: give the same line again" && $(<number.eve) == 8 ]]
tell "nobody answers"

# ---- what curl does not send

start "$work/raw.db" 9
raw ''
[[ ! -s $work/out && ! -s $work/err ]]
tell "a connection that ends at once"
raw 'POST /acts HTTP/1.1\r\nContent-Length: 50\r\n\r\n{"act":"places","by'
[[ ! -s $work/out && ! -s $work/err ]]
tell "a body that is cut short"
raw 'GET /places HTTP/1.0\n\n'
[[ $(head -n 1 "$work/out") == $'HTTP/1.1 200 OK\r' && $(tail -n 1 "$work/out") == '{"lines":["places 0: 0 0 0 0 0 0 0 0 0 0 0 0 0 0 0"],"more":0,"refusal":0}' ]]
tell "a request of HTTP/1.0, whose lines end with LF"
raw 'POST /acts HTTP/1.1\r\nContent-Length: 71\r\n\r\n{"act":"enter 5 a--c no 8 1 - - ok","by":"ann","moment":100,"number":1}\r\nGET /places HTTP/1.1\r\n\r\n'
[[ $(grep -c '^HTTP' "$work/out") == 1 && $(tail -n 1 "$work/out") == '{"lines":["ok request 1 5/0","move 1 100 ann 1 - Entered enter"],"more":0,"refusal":0}' ]]
tell "a second request in the same connection is left out"
raw 'POST /acts HTTP/1.1\r\nContent-Length: 65537\r\n\r\n%65537s' ''
[[ $(head -n 1 "$work/out") == $'HTTP/1.1 413 Payload Too Large\r' || $(head -n 1 "$work/out") == $'HTTP/1.1 413 Content Too Large\r' ]]
tell "a body of 65,537 bytes is refused, and the refusal comes whole"
raw 'GET /places HTTP/1.1\r\nx: %8200s\r\n\r\n' ''
[[ $(head -n 1 "$work/out") == 'HTTP/1.1 413 '* && $(tail -n 1 "$work/out") == '{"lines":["refused 17 TooLong"],"more":0,"refusal":17}' ]]
tell "a head of more than 8,192 bytes"
# a peer that resets its connection before it takes the answer
python3 - "$port" <<'PY'
import socket, struct, sys
s = socket.create_connection(("127.0.0.1", int(sys.argv[1])))
s.sendall(b'POST /acts HTTP/1.1\r\nContent-Length: 71\r\n\r\n{"act":"enter 5 a--c no 8 2 - - ok","by":"ann","moment":101,"number":2}')
s.setsockopt(socket.SOL_SOCKET, socket.SO_LINGER, struct.pack("ii", 1, 0))
s.close()
PY
# one that keeps its connection after it was answered
python3 - "$port" >"$work/out" 2>"$work/err" <<'PY'
import socket, sys
s = socket.create_connection(("127.0.0.1", int(sys.argv[1])))
s.sendall(b"GET /requests/1 HTTP/1.1\r\n\r\n")
while s.recv(65536):
    pass
t = socket.create_connection(("127.0.0.1", int(sys.argv[1])), timeout=30)
t.sendall(b"GET /places HTTP/1.1\r\n\r\n")
got = b""
while piece := t.recv(65536):
    got += piece
print(got.decode().splitlines()[-1])
PY
[[ $(<"$work/out") == '{"lines":["places '[12]': '*'"],"more":0,"refusal":0}' ]]
tell "a peer that goes, and one that stays: each costs its connection alone"
ended "a server that met them"
"$program" run --db "$work/raw.db" /dev/null >"$work/out" 2>"$work/err"
take_beside
[[ $(<"$work/out") == "places "[12]": "* && ! -s $work/err ]]
tell "the desk that they leave"

# ---- faults, in their order: usage, file, port

"$program" serve "$work/none/new.db" 0 1 >"$work/out" 2>"$work/err"
[[ $? == 2 && ! -s $work/out ]] && grep -qF "1..=65535" "$work/err"
tell "port 0"
"$program" serve "$work/none/new.db" 65536 1 >"$work/out" 2>"$work/err"
[[ $? == 2 && ! -s $work/out ]] && grep -qF "1..=65535" "$work/err"
tell "port 65,536"
"$program" serve "$work/none/new.db" 1 0 >"$work/out" 2>"$work/err"
[[ $? == 2 && ! -s $work/out ]] && grep -qF "1..=1000000" "$work/err"
tell "no connection"
start "$work/first.db" 1
"$program" serve "$work/none/new.db" "$port" 1 >"$work/out" 2>"$work/err"
status=$?
take_beside
[[ $status == 2 && ! -s $work/out && $(<"$work/err") == "tcdesk: cannot use $work/none/new.db" ]]
tell "a file that cannot be made, and a port that is taken"
"$program" serve "$work/second.db" "$port" 1 >"$work/out" 2>"$work/err"
status=$?
take_beside
[[ $status == 2 && ! -s $work/out && $(<"$work/err") == "tcdesk: cannot use port $port" && ! -e $work/second.db && ! -e $work/second.db-wal ]]
tell "a port that is taken, and no file"
# its next opening would put what is Sent in doubt
"$program" run --db "$work/second.db" examples/monday.tc >/dev/null 2>"$work/err" && cp "$work/second.db" "$work/stood.db"
"$program" serve "$work/second.db" "$port" 1 >"$work/out" 2>"$work/err"
status=$?
take_beside
[[ $status == 2 && ! -s $work/out && $(<"$work/err") == "tcdesk: cannot use port $port" ]] && cmp "$work/stood.db" "$work/second.db" >>"$work/err" 2>&1
tell "a port that is taken, and a desk"
take_port other
"$program" serve "$work/first.db" "$other" 1 >"$work/out" 2>"$work/err"
status=$?
take_beside
[[ $status == 2 && ! -s $work/out && $(<"$work/err") == "tcdesk: cannot use $work/first.db" ]]
tell "a desk that is served already"
curl -sS "http://127.0.0.1:$port/places" >"$work/out" 2>"$work/err"
[[ $(<"$work/out") == '{"lines":["places 0: '* ]]
tell "the server that was there first"
ended "that server"

echo "curl cases: $passed passed, $failed failed"
[[ $failed == 0 ]]
