#!/bin/bash
# Checks that `--version` names the commit of the program's sources in a clone, in the package of deploy/, and in a folder that holds dist/ alone; and that
# this commit has the sources that stand here. Then the start script of dist/: it gives the program its words, input and status, and an output that takes
# nothing ends it as it ends the program.
# tools/tests/version_cases.sh: ends with how many passed; status 1 where one failed. The package needs dpkg-deb, or it is not tried.
set -u
export LC_ALL=C
top=$(cd "$(dirname "${BASH_SOURCE[0]}")/../.." && pwd) || exit 1
work=$(mktemp -d) || exit 1
work=$(readlink -f "$work")
trap 'rm -rf "$work"' EXIT
me=version_cases
. "$top/tools/lib.sh"
. "$top/tools/program.sh"
number=$(version_of "$kept/tcdesk")
commit=$(sed -n 's/^commit //p' "$kept/tcdesk.built")
wanted="$number (commit $commit)"
# a path on which there is no rt, so that no case proves anything
mkdir "$work/bin" && for name in bash dirname readlink sha256sum; do ln -s "$(command -v "$name")" "$work/bin/"; done

# names NAME PROGRAM: both words for the version print it with the commit, and nothing else.
names() {
    local word
    for word in --version -V; do
        (cd / && PATH=$work/bin "$2" "$word" >"$work/out" 2>"$work/err")
        same "$1, $word" "0 $wanted" "$? $(cat "$work/err" "$work/out")"
    done
}

[[ $wanted =~ ^tcdesk\ 0\.1\.0\ \(commit\ [0-9a-f]{12}\)$ ]]
tell "the version and the commit of dist/: $wanted"
if git -C "$top" cat-file -e "$commit^{commit}" 2>/dev/null; then
    same "what stands here is not as $commit has it" "" "$(differ_from "$commit")"
else
    echo "not tried: whether $commit has these sources, since this is no clone that has it"
fi

# ---- the three places

if git clone -q "$top" "$work/clone" 2>"$work/err"; then
    # what is not committed here is tried, too
    cp -r "$top/dist" "$work/clone/" && cp "$top/tcdesk" "$work/clone/" && cp "$top/tools/program.sh" "$work/clone/tools/"
    names "a clone" "$work/clone/tcdesk"
else
    echo "not tried: a clone, since git makes none of this folder"
fi
mkdir "$work/alone" && cp -r "$top/dist" "$work/alone/"
names "a folder with dist/ alone" "$work/alone/dist/tcdesk"
ln -s "$work/alone/dist/tcdesk" "$work/linked"
names "dist/ through a symbolic link" "$work/linked"
if ! command -v dpkg-deb >/dev/null; then
    echo "not tried: the package, since dpkg-deb is not installed (Debian: dpkg)"
else
    SOURCE_DATE_EPOCH=1000000000 "$top/deploy/package.sh" "$work" >"$work/out" 2>"$work/err" && dpkg-deb -x "$(<"$work/out")" "$work/package"
    tell "a package is made"
    names "the package" "$work/package/usr/bin/tcdesk"
fi

# ---- the start script

desk=$work/alone/dist/tcdesk
cp -r "$top/examples" "$work/alone/" && cd "$work/alone" || exit 1
"$desk" run examples/first-pass.tc >"$work/out" 2>"$work/err" && [[ ! -s $work/err ]] && cmp "$work/out" "$top/examples/first-pass.out"
tell "a script"
same "the standard input" "$(<"$top/examples/first-pass.out")" "$("$desk" <examples/first-pass.tc 2>&1)"
for words in "--version run" "--version --fly" "-V 1" "run --version" fly "run none.tc" --help; do
    read -ra words <<<"$words"
    "$kept/tcdesk" "${words[@]}" >"$work/out" 2>&1 </dev/null
    status=$?
    said=$(<"$work/out")
    [[ $said != "$number" ]] || said=$wanted
    same "words that are the program's: ${words[*]}" "$status $said" "$("$desk" "${words[@]}" >"$work/out" 2>&1 </dev/null; echo "$? $(<"$work/out")")"
done
sed -i '/^commit /d' dist/*/tcdesk.built
same "a program whose sources no commit has" "$number" "$("$desk" --version 2>&1)"
mkfifo pipe
exec 7<>pipe 8>pipe 7>&-
for program in "$desk" "$kept/tcdesk"; do
    same "$program, on a full disk" $'tcdesk: cannot use output\n2' "$("$program" --version 2>&1 >/dev/full; echo $?)"
    same "$program, its output closed" $'tcdesk: cannot use output\n2' "$("$program" --version 2>&1 >&-; echo $?)"
    same "$program, the reader of its pipe gone" $'tcdesk: cannot use output\n2' "$("$program" --version 2>&1 >&8; echo $?)"
    same "$program, nothing to be told to" 2 "$("$program" --version >/dev/full 2>&-; echo $?)"
    same "$program, its input closed" "0" "$("$program" --version <&- >/dev/null 2>&1; echo $?)"
done
echo "version: $passed passed, $failed failed"
[[ $failed == 0 ]]
