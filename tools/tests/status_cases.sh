#!/bin/bash
# What becomes of the program where it cannot read, write or go on: tools/tests/status_cases.sh [PROGRAM], at any place.
#
# Each command is run with an output that takes nothing: a full disk (/dev/full), one that is closed, and a pipe whose reader is gone.
# Each has to end with status 2 and one line on standard error, behind that of a new desk where it made one. Where that takes nothing either the
# status is the same. A standard input that is closed, or is a folder, is one that cannot be used, and is nothing to a command that does not read it.
# Then the disk under the file that keeps the desk: a limit on the size of files, and a small file system, where one may be mounted.
#
# Each case that fails is printed, and makes the status 1. The last line counts them.
set -u
top=$(cd "$(dirname "${BASH_SOURCE[0]}")/../.." && pwd) || exit 1
program=$(readlink -m "${1:-$top/crates/tc_cli/out/tc_cli}")
[[ -x $program ]] || { echo "status_cases: $program is not built" >&2; exit 1; }
work=$(mktemp -d) || exit 1
trap '[[ -z $server ]] || kill -9 "$server" 2>/dev/null; umount "$work/disk" 2>/dev/null; rm -rf "$work"' EXIT
cp -r "$top/examples" "$work" && cd "$work" || exit 1
me=status_cases
. "$top/tools/lib.sh"

# post NUMBER: enters a request under this number at the server, and prints what it answers.
post() {
    local body='{"act":"enter 5 a--c no 8 1 - - ok","by":"ann","moment":100,"number":'$1'}'
    exec 8<>"/dev/tcp/127.0.0.1/$port"
    printf '%s' "POST /acts HTTP/1.1"$'\r\n'"Content-Length: ${#body}"$'\r\n\r\n'"$body" >&8
    cat <&8
    exec 8>&-
}

# served_full WANTED WORD..: serves a desk on a small disk, by these further words, until a post is refused 31; then one post more, where it goes on, is
# refused 32. WANTED is the status in which it ends, and what it says then.
served_full() {
    local wanted=$1 n status
    shift
    mount -t tmpfs -o size=384k none disk
    take_port port
    : >err
    "$program" serve disk/desk.db "$port" "$@" >out 2>err &
    server=$!
    wait_until listens err $server
    for ((n = 1; n < 2000; n++)); do
        post "$n" >answer
        ! grep -q '"refusal":31}$' answer || break
    done
    same "a server on a full disk ($*): its answer" '{"lines":["refused 31 Store"],"more":0,"refusal":31}' "$(tail -n 1 answer)"
    if [[ $wanted == "go on" ]]; then
        same "a server on a full disk ($*): its next answer" '{"lines":["refused 32 Stopped"],"more":0,"refusal":32}' "$(post 2000 | tail -n 1)"
        kill -9 "$server"
        wait "$server" 2>/dev/null
    else
        wait "$server"
        status=$?
        same "a server on a full disk ($*): its end" "$wanted" "$status $(grep -v 'is a new desk$\|listening on' err | paste -sd '|')"
    fi
    server=
    mount -o remount,size=4m disk
    same "a server on a full disk ($*): what stands" "places $((n - 1)): $((n - 1)) 0 0 0 0 0 0 0 0 0 0 0 0 0 0" "$("$program" run --db disk/desk.db --at 100 /dev/null 2>&1)"
    umount disk
}

# The commands that write to their output, in words.
commands=(
    "run examples/first-run.tc"
    "run --db kept.db examples/first-run.tc"
    "report kept.db 0 86400"
    "board kept.db"
    "check stack examples/stack.csv"
    "check procedure examples/stack.csv"
    "octets frame 30010c070000416f"
    "loop other.db examples/first-run.tc"
    "--help"
    "run --help"
    "help report"
    "--version"
)

# A pipe whose reader is gone, as descriptor 8.
mkfifo pipe
exec 7<>pipe 8>pipe 7>&-

# late TEXT: what was told but that a desk was opened before its last move, and that a number of a loop was used before.
late() { grep -v '^tcdesk: opened at \|^tcdesk: number 1 is used: ' <<<"$1"; }

unusable=$'tcdesk: cannot use output\n2'
for command in "${commands[@]}"; do
    read -ra words <<<"$command"
    expect_new "${words[@]}"
    same "$command, on a full disk" "$new$unusable" "$("$program" "${words[@]}" 2>&1 >/dev/full; echo $?)"
    same "$command, its output closed" "$unusable" "$(late "$("$program" "${words[@]}" 2>&1 >&-; echo $?)")"
    same "$command, the reader of its pipe gone" "$unusable" "$(late "$("$program" "${words[@]}" 2>&1 >&8; echo $?)")"
    same "$command, nothing to be told to" 2 "$("$program" "${words[@]}" >/dev/full 2>&-; echo $?)"
done
exec 8>&-

# A word that is wrong, and a script that cannot be read, where standard error takes nothing.
same "a wrong word, told to nobody" 2 "$("$program" fly 2>&-; echo $?)"
same "no such script, told to a full disk" 2 "$("$program" run none.tc 2>/dev/full; echo $?)"

mkdir folder
same "a script from a standard input that is closed" $'tcdesk: cannot use -\n2' "$("$program" run - 2>&1 <&-; echo $?)"
same "a script from a folder" $'tcdesk: cannot use -\n2' "$("$program" 2>&1 <folder; echo $?)"
same "a check of a standard input that is closed" $'tcdesk: cannot use -\n2' "$("$program" check stack - 2>&1 <&-; echo $?)"
same "a check of a folder" $'tcdesk: cannot use folder\ntcdesk: because it is a folder\n2' "$("$program" check stack folder 2>&1; echo $?)"
same "a check of the standard input" $'ok\n0' "$("$program" check stack - 2>&1 <examples/stack.csv; echo $?)"
for command in "run examples/approval.tc" "check stack examples/stack.csv" "--version"; do
    read -ra words <<<"$command"
    same "$command, its input closed" "$("$program" "${words[@]}" </dev/null; echo $?)" "$("$program" "${words[@]}" <&-; echo $?)"
done
same "a run whose reader has all it wants" 0 "$("$program" run examples/approval.tc | cat >/dev/null; echo "${PIPESTATUS[0]}")"

# ---- the disk under the file that keeps the desk

mkdir disk
for ((n = 0; n < 400; n++)); do
    echo "100 ann enter $((n % 7)) a--c no 8 1 - - ok"
done >many.tc

# filled NAME STATUS WHY: of a run of many.tc on the new disk/desk.db that ended so, where not all could be kept: some lines were answered, the next 31, and
# all others 32. What was answered stands once there is room.
filled() {
    local name=$1 status=$2 why=$3 moves wanted="tcdesk: disk/desk.db is a new desk"
    moves=$(grep -c '^move ' out)
    [[ $status == 1 ]] || wanted+=$'\ntcdesk: cannot use disk/desk.db\ntcdesk: because '$why
    same "$name: its end" "${status/[!12]/1 or 2} $wanted" "$status $(<err)"
    same "$name: what is refused" "refused 31 Store refused 32 Stopped" "$(grep '^refused ' out | uniq | paste -sd ' ')"
    same "$name: the lines that are answered, where some are as ever" 400 "$((moves > 0 ? $(head -n -1 out | grep -c '^ok request\|^refused') : 0))"
    [[ ! -e disk/room ]] || mount -o remount,size=4m disk
    same "$name: what stands" "places $moves: $moves 0 0 0 0 0 0 0 0 0 0 0 0 0 0" "$("$program" run --db disk/desk.db --at 100 /dev/null 2>&1)"
}

# unopened NAME STATUS WHY: of a run on a disk that takes not even the tables of a desk: no new desk is told, and the next run may find none.
unopened() {
    same "$1: its end" $'2 tcdesk: cannot use disk/desk.db\ntcdesk: because '"$3" "$2 $(<err)$(<out)"
    [[ ! -e disk/room ]] || mount -o remount,size=4m disk
    "$program" run --db disk/desk.db /dev/null >out 2>err
    same "$1: what stands" "places 0: 0 0 0 0 0 0 0 0 0 0 0 0 0 0 0" "$(grep -vxF "tcdesk: disk/desk.db is a new desk" err; cat out)"
}

# small KIB: runs many.tc where no file may be larger.
small() {
    rm -f disk/desk.db*
    (trap '' XFSZ && ulimit -f "$1" && exec "$program" run --db disk/desk.db many.tc >out 2>err)
}

# on_disk KIB: the same on a file system of that size.
on_disk() {
    mount -t tmpfs -o "size=${1}k" none disk && : >disk/room && "$program" run --db disk/desk.db many.tc >out 2>err
}

small 100
unopened "files of 100 KiB" $? "the disk failed"
small 300
filled "files of 300 KiB" $? "the disk failed"
mounted="file systems of 64, 96 and 384 KiB were filled"
if mount -t tmpfs -o size=8k none disk 2>/dev/null && umount disk; then
    on_disk 96
    unopened "a file system of 96 KiB" $? "the disk is full"
    umount disk
    on_disk 384
    filled "a file system of 384 KiB" $? "the disk is full"
    umount disk
    mount -t tmpfs -o size=64k none disk
    full=$'tcdesk: cannot use disk/copy.db\ntcdesk: because the disk is full\n2'
    same "a copy on a full disk" "$full" "$("$program" backup kept.db disk/copy.db 2>&1; echo $?)"
    same "a copy on a full disk: what is left" "" "$(ls -A disk)"
    umount disk
    # the closing found room, so no reason is known any more
    stopped='3 tcdesk: disk/desk.db has stopped: its tables could not be written'
    served_full "$stopped"
    served_full "$stopped" 100000 --end-when-stopped
    served_full "go on" 100000
else
    mounted="no file system may be mounted here, so none was filled"
fi

echo "status cases: $passed passed, $failed failed; $mounted"
[[ $failed == 0 ]]
