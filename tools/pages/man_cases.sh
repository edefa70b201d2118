#!/bin/bash
# Whether docs/tcdesk.1 says what the program and the manual say: tools/pages/man_cases.sh [PROGRAM], at any place.
#
# The page is rendered without a warning, if mandoc or man is installed. Its acts, its questions, its refusals (number, name, and what to do then) and its
# limits are those of the tables in docs/manual/. The commands of its synopsis, and the options and words of each, are those that `--help` of the program
# and of each command names, and so are the options that its description lists. Its example of a desk over HTTP is run as a script, at a port that nobody
# uses; curl is needed for that.
#
# A difference is printed, and makes the status 1. The last line counts what was compared.
set -u
top=$(cd "$(dirname "${BASH_SOURCE[0]}")/../.." && pwd) || exit 1
program=$(readlink -m "${1:-$top/crates/tc_cli/out/tc_cli}")
manual=$top/docs/manual
page=$top/docs/tcdesk.1
[[ -x $program ]] || { echo "man: $program is not built" >&2; exit 1; }
command -v curl >/dev/null || { echo "man: curl is not installed (Debian: curl)" >&2; exit 1; }
work=$(mktemp -d) || exit 1
. "$top/tools/lib.sh"
trap end_cases EXIT
status=0

# compare WHAT WANTED SHOWN: prints where the two lists, in any order, differ. None may be empty.
compare() {
    sort -o "$2" "$2" && sort -o "$3" "$3" || exit 1
    if [[ ! -s $2 ]]; then
        echo "man: nothing is wanted of $1" >&2
        status=1
    elif ! diff -U 0 --label wanted "$2" --label docs/tcdesk.1 "$3" >&2; then
        echo "man: $1 differ" >&2
        status=1
    fi
}

# What is wrong with the page is told, and nothing is to be.
linted="the page lints"
if command -v mandoc >/dev/null; then
    mandoc -T lint "$page" >"$work/lint" 2>&1
elif command -v man >/dev/null; then
    man --warnings --local-file "$page" 2>"$work/lint" >/dev/null </dev/null
else
    linted="the page is not linted"
    echo "not tried: neither mandoc nor man is installed"
    : >"$work/lint"
fi
if [[ $? != 0 || -s $work/lint ]]; then
    cat "$work/lint" >&2
    linted="the page does not lint"
    status=1
fi

# section FILE HEAD: the lines of the section with this head, up to the next of its kind.
section() {
    awk -v head="$2" -v kind="${2%% *} " 'index($0, kind) == 1 { inside = $0 == head; next } inside' "$1"
}

# rows PAGE HEAD: the rows of the table of a section of a page of the manual, without its two first lines, marks of quoting and links.
rows() {
    section "$manual/$1.md" "$2" | grep '^|' | tail -n +3 | tr -d '"`' | sed -E 's/\[([^]]*)\]\([^)]*\)/\1/g'
}

# items SECTION: the items of a list of the man page, each in a line of small letters, without marks of quoting and macros.
items() {
    section "$page" ".Sh $1" | sed 's/\\([oclr]q//g' | awk '
        /^\.(It|El)/ { if (said != "") print tolower(said); said = substr($0, 5) ":"; next }
        said != "" { said = said " " $0 }' | sed -E 's/(^| )(cm|ar) /\1/g'
}

# Each act and each question, and what it does: "words: sentence."
for list in acts questions; do
    rows "$list" "## The $list" | awk -F ' *[|] *' '{ print tolower($2 ": " $3 ".") }' >"$work/$list"
    items "${list^^}" >"$work/$list.page"
    compare "$list" "$work/$list" "$work/$list.page"
done

# Each refusal, and what to do then: "number name: sentence."
rows refusals '# Refusals' | awk -F ' *[|] *' '{
    n = split($2, names, ", ")
    for (i = 1; i <= n; i++) print tolower(names[i] ": " $4 ".")
}' >"$work/refusals"
items REFUSALS >"$work/refusals.page"
compare refusals "$work/refusals" "$work/refusals.page"

rows limits '# Limits' | awk -F ' *[|] *' '{ print tolower($2 ": at most " $3 ".") }' >"$work/limits"
items LIMITS >"$work/limits.page"
compare limits "$work/limits" "$work/limits.page"

# The commands, each with its options and words: "COMMAND" and "COMMAND WORD".
"$program" --help >"$work/help" || { echo "man: --help ends otherwise than with 0" >&2; exit 1; }
commands=$(awk '/^Commands:/ { inside = 1; next } /^$/ { inside = 0 } inside { print $1 }' "$work/help")
: >"$work/words"
cp "$work/help" "$work/helps"
for name in $commands; do
    echo "$name" >>"$work/words"
    [[ $name != help ]] || { echo "help [COMMAND]" >>"$work/words"; continue; }
    "$program" "$name" --help >"$work/help" || { echo "man: $name --help ends otherwise than with 0" >&2; exit 1; }
    cat "$work/help" >>"$work/helps"
    awk -v name="$name" '
        /^ +--[a-z]/ { sub(/[.]+$/, "", $1); print name, $1 ($2 ~ /^</ ? " " substr($2, 2, length($2) - 2) : "") }
        /^  <[A-Z]+>/ { gsub(/[<>]/, ""); print name, $1 }
        /^  \[[A-Z]+\]/ { print name, $1 }' "$work/help" >>"$work/words"
done
section "$page" '.Sh SYNOPSIS' | sed 's/\\-/-/g' | awk '
    $1 == ".Cm" { name = $2; print name }
    $1 == ".Op" && $2 == "Fl" { print name, "-" $3 ($5 == "" ? "" : " " $5) }
    $1 == ".Op" && $2 == "Ar" { print name, "[" $3 "]" }
    $1 == ".Ar" { print name, $2 }' >"$work/words.page"
compare "commands and their options" "$work/words" "$work/words.page"

grep -oE '^ +(-[hV], )?--[a-z-]+' "$work/helps" | grep -oE -- '-[a-zA-Z-]+' | sort -u >"$work/options"
section "$page" '.Sh DESCRIPTION' | grep '^\.It Fl' | grep -oE 'Fl [^ ]+' | sed 's/\\-/-/g; s/^Fl /-/' >"$work/options.page"
compare options "$work/options" "$work/options.page"
echo "$commands" >"$work/commands"
section "$page" '.Sh DESCRIPTION' | sed -n 's/^\.It Cm //p' >"$work/commands.page"
compare commands "$work/commands" "$work/commands.page"

# The example of a desk over HTTP, as a script.
take_port port
section "$page" '.Sh EXAMPLES' | awk '/^\.Bd/ { text = ""; next } /^\.Ed/ { if (text ~ /tcdesk serve/) printf "%s", text; next }
    { text = text $0 "\n" }' | sed "s/8080/$port/" >"$work/example"
mkdir "$work/bin" "$work/folder" && ln -s "$program" "$work/bin/tcdesk" || exit 1
(cd "$work/folder" && PATH=$work/bin:$PATH timeout 60 sh "$work/example") >"$work/answer" 2>&1 </dev/null
if [[ $(<"$work/answer") != '{"lines":["places 0: '*'"],"more":0,"refusal":0}' ]]; then
    cat "$work/answer" >&2
    echo "man: the example of a desk over HTTP is not answered" >&2
    status=1
fi

((status == 0)) && said="as they stand elsewhere" || said="and they differ"
echo "man: $linted; $(wc -l <"$work/acts") acts, $(wc -l <"$work/questions") questions, $(wc -l <"$work/refusals") refusals, $(wc -l <"$work/limits") limits, $(wc -l <"$work/commands") commands," \
    "$(wc -l <"$work/options") options, $said"
exit $status
