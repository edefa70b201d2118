# What the program is made of, and whether a program is the one that these sources make. ./tcdesk, tools/build.sh and the gate read this file:
# $top is the folder of the repository.
#
# A folder that holds a program holds two files: tcdesk, and tcdesk.built. The lines of that one are the digest of the sources, the toolchain, the
# SHA-256 of the program, its version, and the commit that has these sources, if one has.

# The program of this repository, kept for machines that have no toolchain; and the one that tools/build.sh last made here.
kept=$top/dist/x86_64-linux-gnu
own=$top/out

# The crates that the program is built of, each behind those that it stands on.
program_crates() {
    local line name
    local -A below=() seen=()
    while IFS= read -r line || [ -n "$line" ]; do
        line=${line%%#*}
        line=${line//,/ }
        name=${line%%[: ]*}
        [ -z "$name" ] || below[$name]=${line#"$name"}
    done <"$top/crates.txt"
    program_crates_below tc_cli
}

# program_crates_below NAME: NAME behind those that it stands on, but those that were told before.
program_crates_below() {
    local name
    [[ -v below[$1] && ! -v seen[$1] ]] || return 0
    seen[$1]=1
    for name in ${below[$1]//:/ }; do program_crates_below "$name"; done
    echo "$1"
}

# The SHA-256 of each text that decides the program's bytes: crates.txt, HANDLES, and the sources of the crates that it is built of. What is
# proved of them, in specs/ and proofs/, changes no byte.
source_sums() (
    shopt -s globstar nullglob
    LC_ALL=C
    cd "$top" || return
    files=(crates.txt HANDLES)
    for name in $(program_crates); do
        for file in "crates/$name/src"/**; do [ ! -f "$file" ] || files+=("$file"); done
    done
    sha256sum -- "${files[@]}"
)

# source_paths: sets $paths to the files and folders of these texts.
source_paths() {
    mapfile -t paths < <(program_crates)
    paths=("${paths[@]/#/crates/}")
    paths=(crates.txt HANDLES "${paths[@]/%//src}")
}

# differ_from COMMIT: prints the paths whose text here is not the one that a commit of this clone has.
differ_from() {
    local -a paths
    source_paths
    git -C "$top" diff --name-only "$1" -- "${paths[@]}"
    git -C "$top" ls-files --others --exclude-standard -- "${paths[@]}"
}

# commit_of_sources: prints 12 digits of the last commit that changed one of these texts. It prints nothing if a text here is not as committed,
# or if this is no clone.
commit_of_sources() {
    local -a paths
    local commit
    source_paths
    commit=$(git -C "$top" log -1 --format=%H -- "${paths[@]}" 2>/dev/null)
    [ -n "$commit" ] || return 0
    [ -n "$(differ_from "$commit")" ] || echo "${commit::12}"
}

# sources_digest TOOLCHAIN: the digest of all that decides the program's bytes: these sources, and the toolchain by the name that it gives
# itself (rt version).
sources_digest() {
    local sum
    sum=$({ echo "$1"; source_sums; } | sha256sum)
    echo "${sum%% *}"
}

# sum_of FILE: its SHA-256.
sum_of() {
    local sum
    sum=$(sha256sum <"$1")
    echo "${sum%% *}"
}

# version_of FILE: the first line of what the program there says of its version.
version_of() {
    local text
    text=$("$1" --version 2>&1)
    echo "${text%%$'\n'*}"
}

# is_program FOLDER: whether the program in a folder is that of the sources that stand here, is the very one that was made of them, and runs on
# this machine. Where not, $why says why.
is_program() {
    local word rest found sources='' toolchain='' sum='' version=''
    why="there is no program in ${1#"$top/"}"
    [[ -f $1/tcdesk && -r $1/tcdesk.built ]] || return
    while read -r word rest; do
        case $word in
        sources) sources=$rest ;;
        toolchain) toolchain=$rest ;;
        sha256) sum=$rest ;;
        version) version=$rest ;;
        esac
    done <"$1/tcdesk.built"
    # side by side, since each takes some 20 ms
    found=$(echo "its own $(sum_of "$1/tcdesk")" & echo "of sources $(sources_digest "$toolchain")"; wait)
    found=$'\n'$found$'\n'
    why="the sources here are not those that the program in ${1#"$top/"} was made of"
    [[ ${#sources} == 64 && $found == *$'\n'"of sources $sources"$'\n'* ]] || return
    why="the program in ${1#"$top/"} is not the one that was made: its SHA-256 is another"
    [[ ${#sum} == 64 && $found == *$'\n'"its own $sum"$'\n'* ]] || return
    why="the program in ${1#"$top/"} does not run on this machine"
    [ "$(version_of "$1/tcdesk")" = "$version" ]
}

# start FOLDER WORD..: runs the program of a folder with these words, and ends with its status.
start() {
    local folder=$1
    shift
    . "$top/dist/tcdesk"
}

# put_program FILE FOLDER TOOLCHAIN SOURCES: puts a program that was just built, stripped, into a folder, with what it was made of.
put_program() {
    local new=$2/tcdesk.$BASHPID commit
    mkdir -p "$2" && strip -o "$new" "$1" && chmod 755 "$new" || return
    rm -f "$2/tcdesk.built"
    mv -f "$new" "$2/tcdesk" || return
    commit=$(commit_of_sources)
    printf '%s\n' "sources $4" "toolchain $3" "sha256 $(sum_of "$2/tcdesk")" "version $(version_of "$2/tcdesk")" ${commit:+"commit $commit"} >"$2/tcdesk.built"
}

# is_other FOLDER OTHER: whether two folders hold programs that were made of the same sources by the same toolchain, and are not the same.
is_other() {
    local word
    [ -r "$2/tcdesk.built" ] || return
    for word in sources toolchain; do
        [ "$(grep "^$word " "$1/tcdesk.built")" = "$(grep "^$word " "$2/tcdesk.built")" ] || return
    done
    [ "$(grep '^sha256 ' "$1/tcdesk.built")" != "$(grep '^sha256 ' "$2/tcdesk.built")" ]
}
