#!/bin/bash
# deploy/package_test.sh [SUITE] makes the package of deploy/package.sh, twice, and looks at it: its bytes, its fields, its files, what lintian says, and
# whether its completion knows what `--help` tells. Then it is installed on a new Debian (that of SUITE, or of this machine), in a root of its own, and used
# there as a new user would: scripts, a desk in a file, a copy of it, the page, the completion, and the service by hand; it is removed and purged, and what is
# left is told. Then systemd is begun in that root. The service is started, failed, killed, ended and upgraded, the timer copies its desk, and one of three
# machines of deploy/replica is set up by its page. All commands of the pages deploy/README.md, docs/SCALE.md, deploy/backup/README.md and
# deploy/postgres/README.md, as the package has them, have to print what is shown there.
# The last line is `N passed, N failed`; the status is 1 where one failed. Wants dpkg-deb. The root wants root, and mmdebstrap or debootstrap with an
# archive of Debian; systemd in it wants systemd-nspawn. What is not at hand is told in a line `not tried: ..`.
set -u
export LC_ALL=C
top=$(cd "$(dirname "${BASH_SOURCE[0]}")/.." && pwd) || exit 1
command -v dpkg-deb >/dev/null || { echo "not tried: the package, since dpkg-deb is not installed (Debian: dpkg)"; echo "0 passed, 0 failed"; exit 0; }
work=$(mktemp -d) || exit 1
me=package_test
. "$top/tools/lib.sh"
. "$top/tools/program.sh"
. "$top/deploy/package_machine.sh"
trap end_all EXIT
root=$work/root
suite=${1:-stable}
[[ -n ${1:-} ]] || ! grep -q '^ID=debian' /etc/os-release || suite=$(. /etc/os-release && echo "${VERSION_CODENAME:-stable}")
untried=0

# end_all: ends what was begun here, and removes the folder.
end_all() {
    stop_machine
    end_cases
}

# not_tried WHAT: tells what is not at hand.
not_tried() {
    untried=$((untried + 1))
    echo "not tried: $1"
}

# finish: tells what was seen, and ends.
finish() {
    ((untried == 0)) || echo "package: not tried: $untried"
    echo "$passed passed, $failed failed"
    [[ $failed == 0 ]]
    exit
}

# make FOLDER: makes the package there.
make() {
    "$top/deploy/package.sh" "$1" >"$work/out" 2>"$work/err"
}

# ---- the package alone

# offered WORD..: what the completion offers for the last of these words.
offered() (
    . "$top/deploy/debian/completion"
    compopt() { :; }
    COMP_WORDS=("$@")
    COMP_CWORD=$(($# - 1))
    _tcdesk
    printf '%s\n' "${COMPREPLY[@]}" | sort
)

# options WORD..: the long options that the help of a command tells.
options() {
    "$kept/tcdesk" "$@" --help | grep -oE '^ +(-[hV], )?--[a-z-]+' | grep -oE -- '--[a-z-]+' | sort
}

bytes_cases() {
    local name version need
    read -r _ version _ <<<"$1"
    (umask 077 && TZ=Asia/Tokyo make "$work/one")
    tell "a package is made"
    package=$(<"$work/out")
    same "its name" "$work/one/tcdesk_${version}_amd64.deb" "$package"
    [[ -e $package ]] || finish
    sleep 2
    (cd / && umask 002 && make "$work/two") && cmp "$package" "$work/two/${package##*/}"
    tell "it is made again, and has the same bytes"
    SOURCE_DATE_EPOCH=1000000000 make "$work/three" && ! cmp -s "$package" "$work/three/${package##*/}" &&
        dpkg-deb -c "$work/three/${package##*/}" | awk '$4 != "2001-09-09" { exit 1 }'
    tell "SOURCE_DATE_EPOCH is what all times are"
    dpkg-deb -c "$package" >"$work/list"
    [[ $(awk '{ print $2 }' "$work/list" | sort -u) == root/root && $(awk '{ print $4, $5 }' "$work/list" | sort -u | wc -l) == 1 ]]
    tell "all of it is of root, and of one time"
    # dpkg-deb puts links behind the files
    awk '!/^l/ { print $6 }' "$work/list" | sort -c
    tell "it lies in order"
    same "its version" "$version" "$(dpkg-deb -f "$package" Version)"
    dpkg-deb -x "$package" "$work/files" && diff -r "$top/dist" "$work/files/usr/lib/tcdesk" >"$work/out" 2>"$work/err"
    tell "it has dist/"
    same "its command" ../lib/tcdesk/tcdesk "$(readlink "$work/files/usr/bin/tcdesk")"
    if command -v objdump >/dev/null; then
        need=$(objdump -T "$kept/tcdesk" | grep -o 'GLIBC_[0-9.]*' | sort -Vu | tail -n 1)
        grep -qF "libc6 (>= ${need#GLIBC_})," <(dpkg-deb -f "$package" Depends)
        tell "it depends on the C library that its program wants: $need"
    else
        not_tried "which C library the program wants, since objdump is not installed (Debian: binutils)"
    fi
    if command -v lintian >/dev/null; then
        lintian --allow-root -EIL +pedantic "$package" >"$work/out" 2>"$work/err"
        ! grep -qE '^[EW]: ' "$work/out"
        tell "lintian tells no error and no warning"
        grep '^[A-Z]: ' "$work/out"
    else
        not_tried "lintian, which is not installed"
    fi
    file_cases
    for name in deploy/package{,_test,_machine}.sh deploy/postgres/load.sh deploy/backup/tcdesk-backup deploy/debian/{serve,postinst,prerm,postrm,completion}; do
        bash -n "$top/$name" 2>"$work/err"
        tell "$name is read by bash"
    done
    for name in run report board backup check serve loop; do
        same "completion of the options of $name" "$(options "$name")" "$(offered tcdesk "$name" -)"
    done
    same "completion of the options of the program" "$(options)" "$(offered tcdesk -)"
    same "completion of commands" "$("$kept/tcdesk" --help | awk '/^Commands:/ { inside = 1; next } /^$/ { inside = 0 } inside { print $1 }' | sort)" \
        "$(offered tcdesk '')"
    same "completion of a command that is begun" serve "$(offered tcdesk se)"
    same "completion of what can be checked" $'procedure\nscript\nstack' "$(offered tcdesk check '')"
    same "completion behind an option with a number" $'--ring' "$(offered tcdesk run --w 20 --r)"
    touch "$work/a desk.db" "$work/a script"
    same "completion of a file" $'a desk.db\na script' "$(cd "$work" && offered tcdesk serve --at=7 'a ')"
    same "completion of the file of an option" "a desk.db" "$(cd "$work" && offered tcdesk run --db = 'a d')"
    same "completion of the second file of a copy" "a desk.db" "$(cd "$work" && offered tcdesk backup desk.db 'a d')"
    same "completion of a script that is checked" "a script" "$(cd "$work" && offered tcdesk check script 'a s')"
    same "completion of the desk of a board" "a desk.db" "$(cd "$work" && offered tcdesk board 'a d')"
    same "no completion of a port" "" "$(cd "$work" && offered tcdesk serve desk.db '')"
}

# file_cases: the package has each example, and the files of the login, of the loader, of the copies and of three machines; its pages have their lines, and
# what they name is there; the units hold what they begin as they have to.
file_cases() {
    local doc=$work/files/usr/share/doc/tcdesk from page name
    diff -r "$top/examples" "$doc/examples" >"$work/out" 2>"$work/err"
    tell "each example"
    same "its licence" "License: Apache-2.0" "$(grep '^License:' "$doc/copyright")"
    sed -n '/^ \.$/,/^Files:/p' "$doc/copyright" | sed -n 's/^ //p' | sed '1d; s/^\.$//' | diff - "$top/NOTICE" >"$work/out" 2>"$work/err"
    tell "its copyright has NOTICE"
    for name in nginx/{conf.d,html,njs,sites-available,snippets,authority.cnf} postgres/{load.sh,load.sql,tables.sql}; do
        diff -r "$top/deploy/$name" "$work/files/usr/share/tcdesk/$name" >"$work/out" 2>"$work/err"
        tell "deploy/$name"
    done
    for name in "$top"/deploy/backup/*.{service,timer} "$top"/deploy/replica/systemd/*.service; do
        cmp "$name" "$work/files/usr/lib/systemd/system/${name##*/}" >"$work/out" 2>"$work/err"
        tell "${name#"$top/"}"
    done
    for name in "$top"/deploy/replica/systemd/{*.default,*.conf} "$top"/deploy/replica/*.{py,sh}; do
        case ${name##*/} in
        trial*.py | *_test.py | stand_ins.py) [[ ! -e $work/files/usr/share/tcdesk/${name#"$top/deploy/"} ]] ;;
        *) cmp "$name" "$work/files/usr/share/tcdesk/${name#"$top/deploy/"}" >"$work/out" 2>"$work/err" ;;
        esac
        tell "${name#"$top/"}"
    done
    for page in "$top"/docs/{manual/*,LINK,SCALE}.md README.Debian=deploy/README.md {nginx,postgres,backup,replica}.md; do
        [[ $page != "$top"/* ]] || page=${page#"$top/docs/"}=${page#"$top/"}
        [[ $page == *=* ]] || page=$page=deploy/${page%.md}/README.md
        from=${page#*=} page=${page%%=*}
        gzip -dc "$doc/$page.gz" >"$work/page.md" 2>"$work/err" && [[ $(wc -l <"$work/page.md") == "$(wc -l <"$top/$from")" ]] &&
            ! grep -nE '\./tcdesk([ ;]|$)' "$work/page.md" >"$work/out"
        tell "the page $from"
        while IFS= read -r name; do
            [[ -e $work/files$name ]]
            tell "the page $from names $name"
        done < <(grep -oE '/usr/(bin|lib|libexec|share)/[A-Za-z/._-]*tcdesk[A-Za-z0-9/._-]*' "$work/page.md" | sed 's/\.$//' | sort -u)
    done
    for page in tcdesk@ tcdesk-backup@ tcdesk-desk tcdesk-replica; do
        for name in User=tcdesk Group=tcdesk UMask=0077 NoNewPrivileges=yes CapabilityBoundingSet= ProtectSystem=strict ProtectHome=yes PrivateTmp=yes \
            PrivateDevices=yes ProtectKernelTunables=yes ProtectControlGroups=yes RestrictNamespaces=yes MemoryDenyWriteExecute=yes; do
            grep -qxF "$name" "$work/files/usr/lib/systemd/system/$page.service"
            tell "the unit $page has $name"
        done
    done
    for name in Restart=on-failure StateDirectory=tcdesk StateDirectoryMode=0700; do
        grep -qxF "$name" "$work/files/usr/lib/systemd/system/tcdesk@.service"
        tell "the unit has $name"
    done
    ! grep -E '^Restart' "$work/files/usr/lib/systemd/system/tcdesk@.service" | grep -vxE 'Restart=on-failure|RestartSec=5' >"$work/out"
    tell "the unit restarts on failure only"
}

# refused_cases: a copy of the repository whose program or commit is missing, or is another, makes no package.
refused_cases() {
    local copy=$work/copy
    mkdir "$copy" && (cd "$top" && git ls-files -z --cached --others --exclude-standard | tar --null -T - -cf -) | tar -xf - -C "$copy"
    same "no commit" "package: there is no commit whose time the files could have: set SOURCE_DATE_EPOCH"$'\n2' \
        "$("$copy/deploy/package.sh" "$work/none" 2>&1 | grep -v 'is packed as it is'; echo "${PIPESTATUS[0]}")"
    export SOURCE_DATE_EPOCH=1000000000
    "$copy/deploy/package.sh" "$work/none" >"$work/out" 2>"$work/err" && cmp "$work/none/${package##*/}" "$work/three/${package##*/}"
    tell "a copy with a time that is given makes the same package"
    rm -r "$work/none"
    printf x >>"$copy/dist/x86_64-linux-gnu/tcdesk"
    "$copy/deploy/package.sh" "$work/none" >"$work/out" 2>"$work/err"
    [[ $? == 2 && ! -e $work/none && $(<"$work/err") == "package: the program in dist/x86_64-linux-gnu is not the one that was made"* ]]
    tell "a program that is not the one that was made"
    rm "$copy/dist/x86_64-linux-gnu/tcdesk"
    "$copy/deploy/package.sh" "$work/none" >"$work/out" 2>"$work/err"
    [[ $? == 2 && ! -e $work/none && $(<"$work/err") == "package: there is no program in dist/x86_64-linux-gnu" ]]
    tell "no program"
    unset SOURCE_DATE_EPOCH
}

# ---- a root of its own

# in_root LINE: runs a line of bash in the root, with processes of its own.
in_root() {
    unshare --mount --pid --fork --kill-child --mount-proc="$root/proc" chroot "$root" /usr/bin/env -i PATH=/usr/sbin:/usr/bin:/sbin:/bin HOME=/root LC_ALL=C.UTF-8 \
        DEBIAN_FRONTEND=noninteractive bash -c "cd /root; $1" >"$work/out" 2>"$work/err" <&-
}

# by_user NAME LINE: the same, by a user, in the folder /tmp.
by_user() {
    in_root "cd /tmp; exec setpriv --reuid=$1 --regid=$(in_root "id -g $1" && cat "$work/out") --clear-groups bash -c $(printf %q "$2")"
}

# make_root: a new Debian. Where it cannot be had, $why says why.
make_root() {
    local more=man-db,bash-completion,curl
    why="neither chroot nor unshare may be had here"
    [[ $(id -u) == 0 ]] && unshare --mount --pid --fork chroot / true 2>/dev/null || return
    if command -v mmdebstrap >/dev/null; then
        mmdebstrap --variant=minbase --include=$more "$suite" "$root" >"$work/made" 2>&1
    elif command -v debootstrap >/dev/null; then
        debootstrap --variant=minbase --include=$more "$suite" "$root" >"$work/made" 2>&1
    else
        why="neither mmdebstrap nor debootstrap is installed"
        return 1
    fi
    [[ $? == 0 ]] || { why="no root could be made: $(tail -n 1 "$work/made")"; return 1; }
    cp -L /etc/resolv.conf "$root/etc/" && in_root "apt-get update" || { why="the archive of Debian is not reached"; return 1; }
}

# files_of_root: each file of the root but what is its log, cache or list of packages, and each user and group.
files_of_root() {
    (
        cd "$root" || exit
        find . -xdev \( -path ./proc -o -path ./root -o -path ./tmp -o -path ./run -o -path ./var/cache -o -path ./var/log -o -path ./var/lib/apt \
            -o -path ./var/lib/dpkg -o -path ./var/lib/systemd -o -path ./var/lib/postgresql -o -path ./var/lib/nginx -o -path ./var/tmp \
            -o -path './var/backups/*.[0-9]*' -o -path './etc/*-' -o -path ./etc/.pwd.lock \) -prune -o -print | sort
        cut -d : -f 1 etc/passwd | sed 's/^/user /'
        cut -d : -f 1 etc/group | sed 's/^/group /'
    )
}

# changed_files: what the root has more than before ($work/before), and what it has no more.
changed_files() {
    files_of_root >"$work/after"
    diff "$work/before" "$work/after" | sed -n 's/^> /+ /p; s/^< /- /p' | sed -E 's/[0-9]{8}T[0-9]{6}Z/INSTANT/'
}

left='+ ./etc/default/tcdesk-hand
+ ./var/backups/tcdesk
+ ./var/backups/tcdesk/hand-INSTANT.db
+ ./var/lib/tcdesk
+ ./var/lib/tcdesk/hand.db
+ ./var/lib/tcdesk/hand.db-wal
+ user tcdesk
+ group tcdesk'

user_cases() {
    local name line port turn
    files_of_root >"$work/before"
    cp "$package" "$root/root/"
    in_root "apt-get install -y ./${package##*/}" && grep -q "Creating user 'tcdesk'" "$work/out" "$work/err"
    tell "it is installed where systemd is not, and makes its user"
    in_root "dpkg --verify tcdesk" && [[ ! -s $work/out ]]
    tell "each file is as its sum says"
    by_user nobody "tcdesk --version"
    same "it names the commit of its sources" "$(version_of "$kept/tcdesk") (commit $(sed -n 's/^commit //p' "$kept/tcdesk.built"))" "$(<"$work/out")"
    in_root "stat -c '%a %U:%G' /var/lib/tcdesk /var/backups/tcdesk; ls -A /var/lib/tcdesk /var/backups/tcdesk | grep db"
    same "whose the folders of desks and of copies are, which are empty" $'700 tcdesk:tcdesk\n700 tcdesk:tcdesk' "$(<"$work/out")"
    by_user nobody "cp -r /usr/share/doc/tcdesk/examples ."
    for name in first-pass procedure stack; do
        by_user nobody "tcdesk run examples/$name.tc"
        cmp "$work/out" "$top/examples/$name.out" >&2
        tell "a script: $name"
    done
    by_user nobody "tcdesk run --db desk.db examples/monday.tc" && cmp "$work/out" "$top/examples/monday.out" >&2 &&
        [[ $(<"$work/err") == "tcdesk: desk.db is a new desk" ]]
    tell "a shift on a file"
    by_user nobody "tcdesk run --db desk.db --at 86400 examples/tuesday.tc && tcdesk report desk.db 0 86400" &&
        cmp <(sed '/^SHIFT/,$d' "$work/out") "$top/examples/tuesday.out" >&2 && grep -q '^moves 9$' "$work/out"
    tell "the next one, and the report"
    by_user nobody "tcdesk backup desk.db copy.db && tcdesk report copy.db 0 86400" && grep -q '^copied 4 requests, last move 15 ' "$work/out" &&
        grep -q '^moves 9$' "$work/out"
    tell "a copy, and its report"
    in_root "man -P cat tcdesk" && grep -q 'spacecraft telecommand desk' "$work/out"
    tell "the page"
    in_root "ls \$(man -P cat tcdesk | grep -oE '/usr/share/doc/tcdesk/[A-Za-z/.-]*[a-z]' | sort -u)" && grep -q manual/README.md.gz "$work/out" &&
        grep -q examples/monday.tc "$work/out"
    tell "each file that the page names is there"
    # shellcheck disable=SC2016
    in_root '. /usr/share/bash-completion/bash_completion; for it in _completion_loader _comp_complete_load; do ! declare -F $it >/dev/null || $it tcdesk; done
        complete -p tcdesk && COMP_WORDS=(tcdesk lo) COMP_CWORD=1 && _tcdesk && echo "${COMPREPLY[@]}"'
    same "bash loads the completion" $'complete -F _tcdesk tcdesk\nloop' "$(<"$work/out")"

    # what the unit runs, by hand
    line=$(sed -n 's/^ExecStart=//p' "$top/deploy/debian/tcdesk@.service")
    line=${line//%i/hand}
    by_user tcdesk "$line"
    [[ $? != 0 && $(<"$work/err") == *"/etc/default/tcdesk-hand has to say PORT=N"* ]]
    tell "the service by hand: no port"
    take_port port
    echo "PORT=$port" >"$root/etc/default/tcdesk-hand"
    # shellcheck disable=SC2016
    unshare --mount bash -c 'umask 077; mount -t proc proc "$0/proc" && exec chroot --userspec="$(stat -c %u:%g "$0/var/lib/tcdesk")" "$0" \
        /usr/bin/env -i PATH=/usr/bin:/bin PORT="$1" ${*:2}' "$root" "$port" "$line" >"$work/out" 2>"$work/err" <&- &
    server=$!
    wait_until listens "$work/err" $server
    same "the service by hand: what it says" "tcdesk: /var/lib/tcdesk/hand.db is a new desk"$'\n'"tcdesk: listening on 127.0.0.1:$port" "$(<"$work/err")"
    by_user nobody "exec curl -s --max-time 60 http://127.0.0.1:$port/places"
    same "the service by hand is answered" '{"lines":["places 0: 0 0 0 0 0 0 0 0 0 0 0 0 0 0 0"],"more":0,"refusal":0}' "$(<"$work/out")"
    # what the unit of the copies runs, while the desk is served
    line=$(sed -n 's/^ExecStart=//p' "$top/deploy/backup/tcdesk-backup@.service")
    line=${line//%i/hand}
    by_user tcdesk "umask 077; KEEP=2; $line"
    same "a copy by hand" "copied 0 requests, no move" "$(<"$work/out")"
    in_root "stat -c '%a %U:%G' /var/backups/tcdesk/hand-*Z.db"
    same "whose it is" "600 tcdesk:tcdesk" "$(<"$work/out")"
    { kill "$server"; wait "$server"; } 2>/dev/null
    server=
    same "whose its file is" "600 $(stat -c %u:%g "$root/var/lib/tcdesk")" "$(stat -c '%a %u:%g' "$root/var/lib/tcdesk/hand.db")"

    in_root "apt-get remove -y --autoremove tcdesk"
    tell "it is removed"
    same "what a removal leaves" "$left" "$(changed_files)"
    in_root "apt-get purge -y tcdesk"
    tell "it is purged"
    same "what a purge leaves" "$left" "$(changed_files)"
    rm -r "$root/var/lib/tcdesk/"* "$root/var/backups/tcdesk/"* "$root/etc/default/tcdesk-hand"
    in_root "apt-get install -y ./${package##*/} && apt-get purge -y --autoremove tcdesk"
    tell "it is installed again, and purged at once"
    same "what a purge leaves where no desk is" $'+ user tcdesk\n+ group tcdesk' "$(changed_files)"
    in_root "userdel tcdesk"
    same "and what the end of the user leaves" "" "$(changed_files)"
}

bytes_cases "$(version_of "$kept/tcdesk")"
refused_cases
if ! make_root; then
    not_tried "the package on a Debian of its own, since $why"
    finish
fi
user_cases
if ! in_root "apt-get install -y systemd systemd-sysv"; then
    not_tried "the service, since systemd could not be installed in the root"
elif ! in_root "apt-get install -y --no-install-recommends nginx-light libnginx-mod-http-js openssl postgresql rsync sqlite3 &&
    apt-get install -y --no-install-recommends --download-only etcd-server etcd-client python3 python3-aiohttp iproute2"; then
    not_tried "the service, since what its pages want could not be installed in the root"
elif ! boot; then
    in_root "apt-get install -y ./${package##*/}"
    in_root "systemd-analyze verify tcdesk@one.service" && [[ ! -s $work/err ]]
    tell "systemd reads the unit"
    in_root "systemd-analyze security --no-pager --offline=true --threshold=15 tcdesk@one.service"
    tell "systemd finds the unit exposed by 1.5 of 10 at most"
    not_tried "the service under systemd, since $why"
else
    # a line may be on its way to the journal when it is asked
    printf '#!/bin/sh\n/usr/bin/journalctl --sync; exec /usr/bin/journalctl "$@"\n' >"$root/usr/local/bin/journalctl" && chmod 755 "$root/usr/local/bin/journalctl"
    service_cases
    pages_cases
    replica_cases
fi
finish
