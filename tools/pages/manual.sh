#!/bin/bash
# Runs what the manual of the desk shows, and the rehearsals of examples/: tools/pages/manual.sh [PROGRAM], at any place.
#
# The pages of docs/manual/ are read in the order in which its README.md links them, and it has to link each. Each page has a new folder, with the program
# as ./tcdesk and a copy of examples/. The fenced blocks of a page are taken in order. Bash runs a block ```sh. The next block, if it has no word, has to
# be what the command prints on both its outputs; else the command prints nothing. A block ```csv PATH is the whole file PATH; a block ```text is a form,
# and not run. The page over-http.md is left to tools/pages/curl_cases.sh.
#
# Then each examples/NAME.tc is run, by the command of its line `# ./tcdesk ..`, else by `./tcdesk run examples/NAME.tc`, in another
# such folder, in order of name. It has to print NAME.out, and nothing on standard error but that its desk is a new one where it is; its status is 1
# where a line is refused, else 0, and a page of the manual has to name it.
#
# Then the commands of README.md, but for the gate, in a third, in their order. Each ends with 0, or with 1 where a line is refused, says nothing
# on standard error but of a new desk, and prints the block that stands behind it, where one does: behind the first one does. The server is started at a port that
# nobody uses, for one connection, which is the line of curl behind it. README.md has at most 150 lines, and
# names the line at which its promise is defined.
#
# The first difference ends it with status 1. The last line counts what was as it is shown.
set -u
top=$(cd "$(dirname "${BASH_SOURCE[0]}")/../.." && pwd) || exit 1
program=$(readlink -m "${1:-$top/crates/tc_cli/out/tc_cli}")
manual=$top/docs/manual
[[ -x $program ]] || { echo "manual: $program is not built" >&2; exit 1; }
command -v curl >/dev/null || { echo "manual: curl is not installed (Debian: curl)" >&2; exit 1; }
work=$(mktemp -d) || exit 1
. "$top/tools/lib.sh"
trap end_cases EXIT
mkdir "$work/blocks" "$work/page" || exit 1

# fail WORDS..: says what is wrong, and ends.
fail() {
    echo "manual: $*" >&2
    exit 1
}

# compare WHAT WANTED PRINTED: ends with the first difference where the two files differ.
compare() {
    cmp -s "$2" "$3" && return
    diff -U 2 --label wanted "$2" --label printed "$3" | head -n 30 >&2
    fail "$1 is otherwise than it is shown"
}

# expect_said WORDS: puts what these words have to say on standard error into the file $work/due: nothing, or that the desk of their file is new.
expect_said() {
    local given
    read -ra given <<<"$1"
    expect_new "${given[@]:1}"
    printf '%s' "$new" >"$work/due"
}

# folder NAME: a new folder as the top of the repository is to a person who types commands there; it is then the current one.
folder() {
    mkdir "$work/$1" && cp -r "$top/examples" "$work/$1" || exit 1
    printf '#!/bin/bash\nexec -a tcdesk %q "$@"\n' "$program" >"$work/$1/tcdesk" && chmod +x "$work/$1/tcdesk" || exit 1
    cd "$work/$1" || exit 1
}

# blocks PAGE FOLDER: puts each block of a page into a file of FOLDER that has the number of its line, and prints a list of their lines, kinds and paths
# ('-' where a fence has no such word).
blocks() {
    awk -v folder="$2" '
        /^```/ {
            if (inside) { close(file); inside = 0; next }
            inside = 1
            file = sprintf("%s/%d", folder, NR)
            printf "" >file
            sub(/^```/, "")
            print NR, $1 == "" ? "-" : $1, $2 == "" ? "-" : $2
            next
        }
        inside { print >file }
        END { if (inside) print NR, "open", "-" }
    ' "$1"
}

commands=0
files=0
forms=0
# 1 where a command was run and what it prints was not compared yet, 2 where a command was left out
is_waiting=0
empty=$work/empty
: >"$empty"

# settle WANTED: compares what the last command printed, where it was not compared yet.
settle() {
    ((is_waiting != 1)) || compare "what the command of docs/manual/$name, line $command, prints" "$1" "$work/printed"
    is_waiting=0
}

# run_block LINE KIND PATH: runs a block of the page $name, or compares it.
run_block() {
    local line=$1 block=$work/blocks/$name/$1 path=$3
    if [[ $2 == - && $is_waiting != 0 ]]; then
        settle "$block"
        return
    fi
    settle "$empty"
    case $2 in
    sh)
        if grep -q '^sqlite3 ' "$block" && ! command -v sqlite3 >/dev/null; then
            echo "not tried: the shell sqlite3 is not installed: docs/manual/$name, line $line, is not run"
            is_waiting=2
            return
        fi
        timeout 300 bash "$block" >"$work/printed" 2>&1 </dev/null
        [[ $? != 124 ]] || fail "the command of docs/manual/$name, line $line, does not end"
        command=$line
        is_waiting=1
        commands=$((commands + 1))
        ;;
    csv)
        [[ -f $top/$path ]] || fail "docs/manual/$name, line $line: there is no file $path"
        compare "$path, docs/manual/$name, line $line," "$top/$path" "$block"
        files=$((files + 1))
        ;;
    text) forms=$((forms + 1)) ;;
    *) fail "docs/manual/$name, line $line: a block that is no command, no output of one, no file and no form" ;;
    esac
}

mapfile -t pages < <(grep -oE '\]\([a-z-]+\.md\)' "$manual/README.md" | tr -d '()]')
for name in "$manual"/*.md; do
    name=${name##*/}
    [[ $name == README.md || " ${pages[*]} " == *" $name "* ]] || fail "docs/manual/README.md does not link $name"
done
for name in "${pages[@]}"; do
    [[ -f $manual/$name ]] || fail "docs/manual/README.md links $name, which is not there"
    [[ $name != over-http.md ]] || continue
    mkdir "$work/blocks/$name" && blocks "$manual/$name" "$work/blocks/$name" >"$work/list" || exit 1
    folder "page-$name"
    while read -r line kind path; do run_block "$line" "$kind" "$path"; done <"$work/list"
    settle "$empty"
done
((commands > 0)) || fail "the manual has no command"

rehearsals=0
folder rehearsal
for script in examples/*.tc; do
    wanted=$top/${script%.tc}.out
    [[ -f $wanted ]] || fail "$script has no ${script%.tc}.out"
    grep -qF "$script" "$manual"/*.md || fail "no page of docs/manual names $script"
    words=$(sed -n 's/^# \(\.\/tcdesk .*\)/\1/p' "$script" | head -n 1)
    words=${words:-./tcdesk run $script}
    [[ " $words " == *" $script "* ]] || fail "$script says that it is run by another command: $words"
    expect_said "$words"
    timeout 300 bash -c "$words" >"$work/printed" 2>"$work/errors" </dev/null
    status=$?
    compare "what $words prints" "$wanted" "$work/printed"
    compare "what $words says on standard error" "$work/due" "$work/errors"
    grep -q '^refused ' "$wanted"
    refused=$((1 - $?))
    ((status == refused)) || fail "$words ends with status $status"
    rehearsals=$((rehearsals + 1))
done
for wanted in examples/*.out; do
    [[ -f ${wanted%.out}.tc ]] || fail "$wanted is of no script"
done

# ---- README.md

# run_command WORDS: runs a command of README.md. What it prints is in $work/printed.
run_command() {
    expect_said "$1"
    timeout 300 bash -c "$1" >"$work/printed" 2>"$work/errors" </dev/null
    status=$?
    grep -q '^refused ' "$work/printed"
    refused=$((1 - $?))
    compare "what README.md's $1 says on standard error" "$work/due" "$work/errors"
    ((status == refused)) || fail "README.md's $1 ends with status $status"
}

# start_server WORDS: starts the server of README.md, for one connection, and waits until it says that it listens.
start_server() {
    take_port port
    expect_said "$1"
    : >"$work/said"
    bash -c "exec ${1/8080/$port} 1" >"$work/served" 2>"$work/said" </dev/null &
    server=$!
    wait_until listens "$work/said" $server
    ! listens "$work/said" || return 0
    fail "README.md's $1 does not listen: $(<"$work/said")"
}

# ask_server WORDS: sends a line of curl to the server, which ends then. What it prints is in $work/printed.
ask_server() {
    [[ -n $server ]] || fail "README.md's $1 stands before the server"
    timeout 60 bash -c "${1/8080/$port}" >"$work/answer" 2>/dev/null </dev/null
    [[ -s $work/answer ]] || fail "README.md's $1 is not answered"
    printf '%s\n' "$(<"$work/answer")" >"$work/printed"
    wait "$server"
    status=$?
    server=
    ((status == 0)) || fail "the server of README.md ends with status $status"
    { cat "$work/due"; printf 'tcdesk: listening on 127.0.0.1:%s\ntcdesk: ended after 1 connections\n' "$port"; } >"$work/wanted"
    compare "what the server of README.md says on standard error" "$work/wanted" "$work/said"
}

page=$top/README.md
lines=$(wc -l <"$page")
((lines <= 150)) || fail "README.md has $lines lines: more than 150"
blocks "$page" "$work/page" >"$work/list" || exit 1
folder readme
first=0
shown=0
# the command whose block may come next; - where that was left out
words=
while read -r line kind path; do
    block=$work/page/$line
    if [[ $kind == - ]]; then
        [[ -n $words ]] || fail "README.md, line $line: a block behind no command"
        [[ $words == - ]] || compare "what README.md's $words prints" "$block" "$work/printed"
        words=
        shown=$((shown + 1))
        continue
    fi
    ((first == 0 || shown > 0)) || fail "README.md does not show what its first command prints"
    words=
    [[ $kind == sh ]] || continue
    while IFS= read -r words; do
        case $words in
        tools/gate.sh)
            last=-
            continue
            ;;
        ./tcdesk\ serve\ *) start_server "$words" ;;
        curl\ *) ask_server "$words" ;;
        *) run_command "$words" ;;
        esac
        first=$((first + 1))
        last=$words
    done <"$block"
    words=$last
done <"$work/list"
[[ -z $server ]] || fail "README.md has a server that nobody asks"
((first > 1)) || fail "README.md has no commands"

# the line at which README.md says that its promise is defined
promise=crates/tc_desk/specs/Promise.antt
line=$(sed -nE "s|.*line ([0-9]+)\]\($promise#L\1\).*|\1|p" "$page")
[[ -n $line ]] || fail "README.md does not say at which line of $promise its promise stands"
[[ $(sed -n "${line}p" "$top/$promise") == 'pub record KeepsPromise '* ]] || fail "line $line of $promise does not define KeepsPromise"

echo "manual: $first commands of README.md; on ${#pages[@]} pages $commands commands and $files files as they are shown, $forms forms; $rehearsals rehearsals"
