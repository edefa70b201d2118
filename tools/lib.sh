# What the tests that are scripts of the shell share. Each reads this file with its own name in $me and its folder in $work; it counts its cases in
# $passed and $failed.
passed=0
failed=0
server=

# end_cases: ends the server whose process is in $server, where there is one, and removes the folder. It is for a trap on EXIT.
end_cases() {
    [[ -z $server ]] || kill "$server" 2>/dev/null
    rm -rf "$work"
}

# tell NAME: counts a case by the status of the command before; where it failed, what stands in the files out and err of $work is shown.
tell() {
    if [[ $? == 0 ]]; then
        passed=$((passed + 1))
    else
        failed=$((failed + 1))
        echo "$me: $1" >&2
        head -n 40 "$work/out" "$work/err" >&2 2>/dev/null
    fi
}

# same NAME WANTED GOT: counts a case, in which two texts have to be the same.
same() {
    [[ $2 == "$3" ]]
    tell "$1:"$'\n'"-- wanted:"$'\n'"$2"$'\n'"-- got:"$'\n'"$3"
}

# expect_new WORD..: sets $new to the line that the program has to say first on standard error by these words, with its end: that it made a desk, where
# the file that they open holds nothing yet. It is empty where nothing is to be said.
expect_new() {
    local file='' before='' word
    case ${1:-} in
    serve | loop)
        for word in "${@:2}"; do
            [[ $before == --@(w|vc|ring|at|first) || $word == --* ]] || { file=$word; break; }
            before=$word
        done
        ;;
    run)
        for word in "$@"; do
            [[ $before != --db ]] || file=$word
            before=$word
        done
        ;;
    esac
    new=
    [[ -z $file || -s $file ]] || new="tcdesk: $file is a new desk"$'\n'
}

# take_new STATUS: takes the line $new from the front of the file err. Where it is missing that is added there, but of a run that ended with 2, which may
# come before.
take_new() {
    local said
    [[ -n $new ]] || return 0
    IFS= read -r -d '' said <err
    if [[ $said == "$new"* ]]; then
        printf '%s' "${said#"$new"}" >err
    elif [[ $1 != 2 ]]; then
        echo "not said first: $new" >>err
    fi
}

# take_beside: takes from the file err why something cannot be used, and that an opening lies before the last move: test_told.py looks for these.
take_beside() {
    sed -i -E '/^tcdesk: (because .*|opened at [0-9]+, before the last move at [0-9]+)$/d' err
}

# check NAME STATUS STDOUT STDERR WORD..: runs the program on the words in the folder $work, with its file `input` as standard input. STDERR
# is a piece that standard error holds; nothing at all is wanted there where it is empty, but that a desk is new where it is.
check() {
    local name=$1 status=$2 out=$3 err=$4
    shift 4
    expect_new "$@"
    "$program" "$@" <input >out 2>err
    local got=$?
    take_new $got
    take_beside
    [[ $got == "$status" && $(cat out; echo .) == "$out." ]] &&
        { [[ -z $err && ! -s err ]] || { [[ -n $err ]] && grep -qF -- "$err" err; }; }
    tell "$name: status $got"
}

# take_port NAME: sets a variable to a port that no socket of this machine has. No other script gets it while this one, or what it started, goes on: a
# lock is held for it. The tests that are Python take theirs below 30000. It asks by no connection: a server that counts its connections would count
# that one.
take_port() {
    local folder=/tmp/tcdesk-ports-$UID number hold
    mkdir -p "$folder"
    for ((number = 30000 + RANDOM % 2000; ; number = 30000 + (number - 29999) % 2000)); do
        exec {hold}>"$folder/$number" || exit 1
        flock -n "$hold" && ! grep -qi "^ *[0-9]*: [0-9a-f]*:$(printf %04x "$number") " /proc/net/tcp /proc/net/tcp6 2>/dev/null && break
        exec {hold}>&-
    done
    printf -v "$1" %s "$number"
}

# wait_until COMMAND..: waits until that succeeds, two minutes at most; its status is that of the last try.
wait_until() {
    local end=$((SECONDS + 120))
    until "$@"; do
        ((SECONDS < end)) || return 1
        sleep 0.05
    done
}

# listens FILE [PID]: whether the server says in that file that it listens at $port; or it has ended, and says no more.
listens() {
    grep -qxF "tcdesk: listening on 127.0.0.1:$port" "$1" || { [[ -n ${2:-} ]] && ! kill -0 "$2" 2>/dev/null; }
}
