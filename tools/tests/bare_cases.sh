#!/bin/bash
# Runs README.md's first command where nothing is: in a root of its own that holds glibc, bash and coreutils alone, by the user nobody, in a folder that
# cannot be written. It has to print what README.md shows. Then a desk is served there, and curl, outside, has to be answered.
# Ends with how many passed; status 1 where one failed. Wants to be root, or a system that lets a user have a root of its own; where neither is to be
# had it says that this was not tried.
set -u
export LC_ALL=C
top=$(cd "$(dirname "${BASH_SOURCE[0]}")/../.." && pwd) || exit 1
command -v curl >/dev/null || { echo "bare_cases: curl is not installed (Debian: curl)" >&2; exit 1; }
work=$(mktemp -d) || exit 1
me=bare_cases
. "$top/tools/lib.sh"
trap end_cases EXIT
root=$work/root
desk=$root/opt/tcdesk

# How a command is run in that root, by nobody.
if [ "$(id -u)" = 0 ] && chroot / true 2>/dev/null; then
    within=(chroot --userspec=65534:65534 "$root")
elif unshare --user --map-root-user chroot / true 2>/dev/null; then
    within=(unshare --user --map-root-user chroot "$root")
else
    echo "not tried: a root that holds nothing, since neither chroot nor unshare may be had here"
    exit 0
fi

# put FILE..: copies programs into the root, with the libraries that they are linked with.
put() {
    local file library
    for file in "$@"; do
        cp -L "$file" "$root/usr/bin/" || exit 1
        while read -r library; do
            mkdir -p "$root$(dirname "$library")" && cp -L "$library" "$root$library" || exit 1
        done < <(ldd "$file" | grep -o '/[^ ]*')
    done
}

# The root: a shell, coreutils, what they are linked with, what the repository holds, and a folder that all may write to.
make_root() {
    local name
    mkdir -p "$root/usr/bin" "$root/tmp" "$desk" && ln -s usr/bin "$root/bin" && chmod 1777 "$root/tmp" || exit 1
    put "$(type -P bash)"
    while read -r name; do
        name=$(type -P "$name") && put "$name"
    done <<<$'basename\ncat\nchmod\ncp\ndirname\necho\nenv\nhead\nls\nmkdir\nmv\npwd\nreadlink\nrm\nsha256sum\nsort\ntail\ntrue\nuname'
    (cd "$top" && git ls-files -z --cached --others --exclude-standard | tar --null -T - -cf -) | tar -xf - -C "$desk" || exit 1
    chmod -R a+rX,a-w "$root/opt" && chmod a+x "$desk"
}

# in_root LINE: runs a line of shell in the folder of the desk.
in_root() {
    "${within[@]}" /bin/bash -c "cd /opt/tcdesk && $1" >"$work/out" 2>"$work/err" <&-
}

make_root
in_root "command -v rt python3 awk find strip git curl"
[[ $? == 1 && ! -s $work/out ]]
tell "the root holds a shell and coreutils alone"
in_root ": >here"
[[ $? != 0 ]]
tell "the folder cannot be written"
command=$(sed -n '/^```sh/,/^```$/p' "$top/README.md" | grep -m 1 '^\./tcdesk')
in_root "$command" && [[ ! -s $work/err ]] && diff "$top/examples/first-pass.out" "$work/out" >&2
tell "README.md's first command: $command"
in_root "./tcdesk run --db /tmp/desk.db examples/monday.tc" && [[ $(<"$work/err") == "tcdesk: /tmp/desk.db is a new desk" ]] &&
    diff "$top/examples/monday.out" "$work/out" >&2
tell "a shift on a file"
take_port port
: >"$work/err"
"${within[@]}" /bin/bash -c "cd /opt/tcdesk && exec ./tcdesk serve /tmp/desk.db $port 1" >"$work/out" 2>"$work/err" <&- &
server=$!
wait_until listens "$work/err" $server
curl -s --max-time 60 "http://127.0.0.1:$port/places" >"$work/answer" && grep -q '^{"lines":\["places 3: ' "$work/answer"
tell "curl is answered from outside the root"
wait "$server"
tell "the server ends by itself"
echo "bare root: $passed passed, $failed failed"
[[ $failed == 0 ]]
