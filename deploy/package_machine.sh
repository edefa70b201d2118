# systemd in the root that deploy/package_test.sh made ($root, with $package in it), and what is tried there; that script reads this file.
machine=
groups=()

# boot: begins systemd in the root, without a network. Where it does not begin, $why says why.
boot() {
    local turn group more=()
    why="systemd-nspawn is not installed (Debian: systemd-container)"
    command -v systemd-nspawn >/dev/null || return
    # Where systemd does not run here it gives no unit, and so no group of processes of its own: two machines that run at the same time would have the same.
    if [[ ! -d /run/systemd/system ]]; then
        more=(--keep-unit)
        for group in /sys/fs/cgroup /sys/fs/cgroup/{systemd,unified}; do
            [[ -f $group/cgroup.procs ]] && mkdir "$group/package-test.$$" && groups+=("$group/package-test.$$")
        done
    fi
    (
        for group in "${groups[@]}"; do echo "$BASHPID" >"$group/cgroup.procs"; done
        exec systemd-nspawn -D "$root" --boot --register=no "${more[@]}" --private-network --console=pipe </dev/null >"$work/console" 2>&1
    ) &
    machine=$!
    why="systemd does not begin in it"
    for ((turn = 0; turn < 1200; turn++)); do
        sleep 0.5
        kill -0 "$machine" 2>/dev/null || return
        leader=$(pgrep -P "$machine") || continue
        in_machine "systemctl is-system-running"
        [[ $(<"$work/out") != running && $(<"$work/out") != degraded ]] || return 0
    done
    return 1
}

# in_machine LINE: runs a line of bash where systemd runs; `till LINE` there waits for up to two minutes until that succeeds.
in_machine() {
    # shellcheck disable=SC2016
    local till='till() { local turn; for turn in {1..240}; do ! eval "$1" || return 0; sleep 0.5; done; return 1; }'
    timeout 900 nsenter -t "$leader" --all env -i PATH=/usr/local/sbin:/usr/local/bin:/usr/sbin:/usr/bin:/sbin:/bin HOME=/root LC_ALL=C.UTF-8 DEBIAN_FRONTEND=noninteractive \
        bash -c "$till; cd /root; $1" >"$work/out" 2>"$work/err" <&-
}

# stop_machine: ends systemd in the root, and takes away the groups of processes that were made for it here.
stop_machine() {
    local group turn
    [[ -n $machine ]] || return 0
    kill "$machine" 2>/dev/null
    for ((turn = 0; turn < 40; turn++)); do
        kill -0 "$machine" 2>/dev/null || break
        sleep 0.5
    done
    # a second one ends it at once
    ! kill "$machine" 2>/dev/null || wait "$machine"
    machine=
    for group in "${groups[@]}"; do find "$group" -depth -type d -exec rmdir {} + 2>/dev/null; done
}

# machine_says NAME WANTED LINE: a line prints this there, on both its outputs.
machine_says() {
    in_machine "{ $3; } 2>&1"
    same "$1" "$2" "$(<"$work/out")"
}

service_cases() {
    # shellcheck disable=SC2016
    local id='systemctl show -P MainPID tcdesk@one' said='journalctl -t tcdesk -o cat -u tcdesk@one' before exposure next=$work/next
    in_machine "apt-get install -y ./${package##*/}"
    tell "it is installed where systemd runs"
    machine_says "systemd reads the unit" "" "systemd-analyze verify tcdesk@one.service"
    in_machine "systemd-analyze security --no-pager --threshold=15 tcdesk@one.service"
    tell "systemd finds the unit exposed by 1.5 of 10 at most"
    exposure=$(grep -o 'exposure level .*' "$work/out")
    echo "systemd-analyze security: $exposure"
    in_machine "echo PORT=8080 >/etc/default/tcdesk-one; systemctl start tcdesk@one; curl -s http://127.0.0.1:8080/places" && grep -q '"places 0: ' "$work/out"
    tell "a desk is served as soon as it is started"
    machine_says "by whom, and with what" $'tcdesk\n0000000000000000\n0000000000000000\n1\n2' \
        "stat -c %U /proc/\$($id); awk '/^(CapEff|CapBnd|NoNewPrivs|Seccomp):/ { print \$2 }' /proc/\$($id)/status"
    machine_says "of the disk it may write its own folder alone, also root there" $'written: /var/lib/tcdesk' \
        "for it in / /boot /etc /home /opt /root /srv /usr /usr/local /var /var/cache /var/lib /var/lib/tcdesk /var/log; do
            ! nsenter --mount=/proc/\$($id)/ns/mnt touch \$it/probe 2>/dev/null || { echo written: \$it; nsenter --mount=/proc/\$($id)/ns/mnt rm \$it/probe; }; done"
    machine_says "whose its file is" $'700 tcdesk:tcdesk /var/lib/tcdesk\n600 tcdesk:tcdesk /var/lib/tcdesk/one.db' \
        "stat -c '%a %U:%G %n' /var/lib/tcdesk /var/lib/tcdesk/one.db"

    in_machine "$id"
    before=$(<"$work/out")
    # the next version is the same but for its number
    dpkg-deb -R "$package" "$next" && sed -i 's/^Version: .*/&+next/' "$next/DEBIAN/control" && dpkg-deb --root-owner-group -b "$next" "$root/root/next.deb" >"$work/out"
    in_machine "apt-get install -y ./next.deb && dpkg-query -W -f '\${Version}\n' tcdesk && $id" && [[ $(tail -n 2 "$work/out") == *+next$'\n'$before ]]
    tell "an upgrade leaves the server alone"
    in_machine "kill -9 \$($id); till 'it=\$($id); [[ \$it != 0 && \$it != $before ]] && systemctl -q is-active tcdesk@one'
        $id; curl -s http://127.0.0.1:8080/places" && [[ $(head -n 1 "$work/out") != "$before" ]] && grep -q '"places 0: ' "$work/out"
    tell "a server that was killed comes back"
    machine_says "one that a person killed stays down" inactive "kill \$($id); till '! systemctl -q is-active tcdesk@one'; sleep 8; systemctl is-active tcdesk@one"
    machine_says "one that served its COUNT ends with 0, and stays down" $'tcdesk: ended after 2 connections\ninactive' \
        "mkdir -p /run/systemd/system/tcdesk@one.service.d
        printf '[Service]\nExecStart=\nExecStart=/usr/local/bin/few one\n' >/run/systemd/system/tcdesk@one.service.d/few.conf
        sed 's/\"\$PORT\"/& 2/' /usr/libexec/tcdesk/serve >/usr/local/bin/few && chmod 755 /usr/local/bin/few
        systemctl daemon-reload && systemctl start tcdesk@one && for it in 1 2; do curl -s http://127.0.0.1:8080/places >/dev/null; done
        till '! systemctl -q is-active tcdesk@one'; sleep 8; $said | tail -n 1; systemctl is-active tcdesk@one"
    # its next starts are no more than a person may make
    in_machine "rm -r /run/systemd/system/tcdesk@one.service.d /usr/local/bin/few; systemctl daemon-reload; systemctl reset-failed tcdesk@one; systemctl restart tcdesk@one"

    machine_says "a file that is no desk's: the start fails, says why, and stays down after 5 starts" $'status 1\n5 tcdesk: cannot use /var/lib/tcdesk/two.db\nfailed' \
        "echo PORT=8082 >/etc/default/tcdesk-two; install -o tcdesk -g tcdesk -m 600 /etc/hostname /var/lib/tcdesk/two.db
        systemctl start tcdesk@two 2>/dev/null; echo status \$?; till 'systemctl -q is-failed tcdesk@two'
        till 'journalctl --sync; journalctl -t tcdesk -o cat -u tcdesk@two | grep -c cannot | grep -qx 5'
        journalctl -t tcdesk -o cat -u tcdesk@two | grep cannot | uniq -c | sed 's/^ *//'; systemctl is-active tcdesk@two"
    machine_says "no port: the start fails, and says why" $'status 1\nis not set, so /etc/default/tcdesk-three has to say PORT=N' \
        "touch /etc/default/tcdesk-three; systemctl start tcdesk@three 2>/dev/null; echo status \$?; systemctl stop tcdesk@three
        journalctl -t tcdesk -o cat -u tcdesk@three | head -n 1 | sed 's/.*PORT: //'"
    in_machine "post() { curl -s --json \"{\\\"by\\\":\\\"\$1\\\",\\\"number\\\":\$2,\\\"act\\\":\\\"\$3\\\",\\\"moment\\\":7}\" http://127.0.0.1:8080/acts; }
        post ann 1 'enter 5 ---c no 8 1 - - ok'; post bob 1 'approve 1'; post ann 2 'initiate none'; post ann 3 'release 1'
        from=\$(date +%s); systemctl restart tcdesk@one
        read -r _ _ at rest < <($said | grep ^move); echo; echo \$((at >= from && at <= \$(date +%s))) \$rest"
    same "a restart puts in doubt what is on its way, at the moment of the start" "1 desk 1 Sent Doubtful open" "$(tail -n 1 "$work/out")"
    machine_says "its options are those of the file" "tcdesk: connection 1: answered" \
        "echo 'OPTIONS=\"--w 10 --verbose\"' >>/etc/default/tcdesk-one; systemctl restart tcdesk@one; curl -s http://127.0.0.1:8080/places >/dev/null
        till '$said | tail -n 1 | grep -q answered'; $said | tail -n 1"
    end_cases_of_service
    copy_cases
    removed_cases
}

# end_cases_of_service: a HUP is nothing to a server; a stop brings the log into the file; and a full disk ends it, so that it comes back, and works once there
# is room.
end_cases_of_service() {
    # shellcheck disable=SC2016
    local id='systemctl show -P MainPID tcdesk@one' said='journalctl -t tcdesk -o cat -u' ask='curl -s --max-time 60 http://127.0.0.1:8080/places'
    machine_says "a HUP is nothing to a server" $'the same\n{"lines":["places 1: 0 0 0 0 0 0 0 0 0 0 0 1 0 0 0"],"more":0,"refusal":0}' \
        "before=\$($id); systemctl kill --signal=HUP tcdesk@one; sleep 1; systemctl kill --signal=HUP tcdesk@one; sleep 2
        [[ \$($id) == \$before ]] && echo the same; $ask"
    machine_says "a stop is told, and is quick; the file alone is the desk then" $'tcdesk: ended with the standard input\nsoon\nplaces 2: 1 0 0 0 0 0 0 0 0 0 0 1 0 0 0' \
        "curl -s --json '{\"by\":\"ann\",\"number\":9,\"act\":\"enter 6 ---c no 8 1 - - ok\",\"moment\":8}' http://127.0.0.1:8080/acts >/dev/null
        began=\$SECONDS; systemctl stop tcdesk@one; $said tcdesk@one | tail -n 1; ((SECONDS - began > 20)) || echo soon
        cp /var/lib/tcdesk/one.db alone.db; tcdesk report alone.db 0 0 | grep '^places'; rm alone.db*"
    # a disk of its own below the folder of the desks
    machine_says "on a full disk it says what failed, and is started anew; with room it works" \
        $'has stopped: its tables could not be written\nfailed and came back\nrefused no more' \
        "mount -t tmpfs -o size=384k,mode=700,uid=\$(id -u tcdesk),gid=\$(id -g tcdesk) none /var/lib/tcdesk; echo PORT=8083 >/etc/default/tcdesk-full; systemctl start tcdesk@full
        post() { curl -s --json \"{\\\"by\\\":\\\"ann\\\",\\\"number\\\":\$1,\\\"act\\\":\\\"enter 5 ---c no 8 1 - - ok\\\",\\\"moment\\\":9}\" http://127.0.0.1:8083/acts; }
        for ((n = 1; n < 2000; n++)); do [[ \$(post \$n) != *'\"refusal\":31}' ]] || break; done
        till '$said tcdesk@full | grep -q \"has stopped: its tables could not be written\"'
        $said tcdesk@full | grep -m 1 -o 'has stopped: .*'
        mount -o remount,size=8m /var/lib/tcdesk
        till '((\$(systemctl show -P NRestarts tcdesk@full) > 0)) && systemctl -q is-active tcdesk@full' && echo failed and came back
        [[ \$(post \$n) == *'\"refusal\":0}' ]] && echo refused no more
        systemctl stop tcdesk@full; umount /var/lib/tcdesk; rm /etc/default/tcdesk-full; systemctl reset-failed; systemctl start tcdesk@one"
}

# copy_cases: the timer copies the desk of the service, and keeps as many copies as it is told.
copy_cases() {
    local copies='ls /var/backups/tcdesk'
    machine_says "systemd reads the units of the copies" "" "systemd-analyze verify tcdesk-backup@one.timer tcdesk-backup@one.service"
    in_machine "systemd-analyze security --no-pager --threshold=15 tcdesk-backup@one.service"
    tell "systemd finds the unit of the copies exposed by 1.5 of 10 at most"
    machine_says "of a desk that is none no copy is made" "status 1" "systemctl start tcdesk-backup@none >/dev/null 2>&1; echo status \$?"
    in_machine "systemctl enable --now tcdesk-backup@one.timer; till '$copies | grep -q Z.db' && tcdesk report \$(ls /var/backups/tcdesk/one-*Z.db | tail -n 1) 0 0" &&
        grep -q '^places 2: ' "$work/out"
    tell "the timer makes a copy of a desk that is served"
    machine_says "whose it is" "600 tcdesk:tcdesk" "stat -c '%a %U:%G' /var/backups/tcdesk/one-*Z.db | sort -u"
    machine_says "as many are kept as it is told" $'2\n0' "echo KEEP=2 >>/etc/default/tcdesk-one
        for it in 1 2 3 4; do systemctl start tcdesk-backup@one || echo failed; sleep 1; done
        systemctl stop tcdesk-backup@one.timer tcdesk-backup@one; $copies | wc -l; $copies | grep -vc '^one-[0-9]*T[0-9]*Z.db\$'"
    in_machine "cp -a /var/backups/tcdesk before; systemctl stop tcdesk@one; mv /var/lib/tcdesk/one.db .
        ! systemctl start tcdesk-backup@one && systemctl is-failed tcdesk-backup@one && diff -r before /var/backups/tcdesk; status=\$?
        mv one.db /var/lib/tcdesk/; rm -r before; systemctl reset-failed; systemctl start tcdesk@one tcdesk-backup@one.timer; exit \$status"
    tell "a copy that fails takes none away"
}

# removed_cases: what a removal and a purge end, and what they leave.
removed_cases() {
    in_machine "systemctl enable tcdesk@one; apt-get remove -y tcdesk; systemctl -q is-active tcdesk-backup@one.timer && echo timed
        curl -s --max-time 60 http://127.0.0.1:8080/places"
    [[ $? == 7 && $(<"$work/out") != *timed* ]]
    tell "a removal ends the desks that are served, and the timers"
    machine_says "and leaves them, their copies and their links" \
        $'one.db\none.db-wal\ntwo.db\ntwo.db-wal\none\none\nmulti-user.target.wants/tcdesk@one.service\ntimers.target.wants/tcdesk-backup@one.timer' \
        "ls /var/lib/tcdesk; ls /var/backups/tcdesk | grep Z.db | cut -d - -f 1; cd /etc/systemd/system; ls */tcdesk*"
    machine_says "a purge leaves the desks and their copies, and no links" $'one.db\none.db-wal\ntwo.db\ntwo.db-wal\none\none' \
        "apt-get purge -y tcdesk >/dev/null 2>&1; ls /var/lib/tcdesk; ls /var/backups/tcdesk | grep Z.db | cut -d - -f 1; ls /etc/systemd/system/*/ | grep tcdesk"
    in_machine "rm -r /var/lib/tcdesk /var/backups/tcdesk /etc/default/tcdesk-*; userdel tcdesk; systemctl reset-failed"
}

# page_parts NAME FOLDER: puts the blocks ```sh of a page, as the package has it, into a folder, each into a file that is named after its line, and the block
# without a word that stands next behind it into another.
page_parts() {
    in_machine "apt-get install -y ./${package##*/} && zcat /usr/share/doc/tcdesk/$1.gz"
    sed -n '/^# /,$p' "$work/out" | awk -v folder="$2" '
        /^```/ && inside { close(file); inside = 0; next }
        /^```/ {
            inside = 1
            word = substr($0, 4)
            if (word == "sh") { at = NR; printf "" >sprintf("%s/%03d.out", folder, at) }
            file = word == "sh" ? sprintf("%s/%03d.sh", folder, at) : word == "" ? sprintf("%s/%03d.out", folder, at) : "/dev/null"
            next
        }
        inside { print >file }'
}

# page_cases NAME [LINES]: the blocks ```sh of a page are run one behind the other by one bash, behind these lines. Each has to print what stands behind it,
# or nothing where nothing does.
page_cases() {
    local page=$work/page-$1 file number
    mkdir "$page" "$root/root/page"
    page_parts "$1" "$page"
    {
        echo "${2:-}"
        for file in "$page"/*.sh; do
            echo "echo; echo '== ${file##*/}'"
            cat "$file"
        done
    } >"$root/root/page.sh"
    in_machine "cd page; bash ../page.sh 2>&1"
    cp "$work/out" "$page/printed"
    for file in "$page"/*.sh; do
        number=${file##*/}
        awk -v head="== $number" '/^== [0-9]+\.sh$/ { inside = $0 == head; next } inside' "$page/printed" >"$work/out"
        number=$((10#${number%.sh}))
        same "the page $1, line $number" "$(plain <"${file%.sh}.out")" "$(plain <"$work/out")"
    done
    in_machine "rm -r page page.sh"
}

# replica_cases: one of three machines of deploy/replica, set up by the commands of its page, but that it is alone: its cluster is itself.
replica_cases() {
    local page=$work/page-replica name parts
    local status='python3 /usr/share/tcdesk/replica/replica.py status' ask='curl -s --max-time 60 http://127.0.0.1:8080/places?newest'
    mkdir "$page" "$root/root/page"
    page_parts replica.md "$page"
    parts=("$page"/*.sh)
    cp "${parts[@]}" "$root/root/page"
    parts=("${parts[@]##*/}")
    in_machine "cd page; set -e; . ./${parts[0]}; . ./${parts[1]}; . ./${parts[2]}
        sed -i 's,10\.0\.0\.1,127.0.0.1,; s,^ETCD_INITIAL_CLUSTER=.*,ETCD_INITIAL_CLUSTER=a=https://127.0.0.1:2380,' /etc/default/etcd
        . ./${parts[3]}; . ./${parts[4]}; . ./${parts[5]}"
    tell "a machine that keeps a desk with others is set up by the page"
    machine_says "systemd reads its units" "" "systemd-analyze verify tcdesk-desk.service tcdesk-replica.service"
    in_machine "systemd-analyze security --no-pager --threshold=20 tcdesk-desk.service tcdesk-replica.service"
    tell "systemd finds its units exposed by 2 of 10 at most"
    machine_says "it is in" "machine a in" "till '$status | grep -q \"machine a in\"'; $status | grep machine"
    in_machine "cd page; . ./${parts[7]}" && grep -q '^Tcdesk-Place: ' "$work/out" && grep -qF '{"lines":["ok request 1 5/0"' "$work/out"
    tell "an act is carried out"
    machine_says "of the disk it has a folder of its own" $'700 tcdesk:tcdesk /var/lib/tcdesk-replica\n600 tcdesk:tcdesk /var/lib/tcdesk-replica/desk.db' \
        "stat -c '%a %U:%G %n' /var/lib/tcdesk-replica /var/lib/tcdesk-replica/desk.db; ls -A /var/lib/tcdesk"
    for name in "systemctl kill --signal=KILL tcdesk-desk" "systemctl restart tcdesk-desk" "systemctl kill --signal=KILL tcdesk-replica"; do
        in_machine "$name; till '$ask | grep -q \"places 1: 1 0\"' && $ask"
        tell "it goes on behind: $name"
    done
    in_machine "cd page; . ./${parts[9]} && . ./${parts[10]}; till '$ask | grep -q \"places 1: 1 0\"' && grep -qx LOG=desk2 /etc/default/tcdesk-replica"
    tell "another log begins with the file of the one before"
    in_machine "systemctl disable --now etcd tcdesk-desk tcdesk-replica; apt-get purge -y etcd-server tcdesk; ls -A /usr/share/tcdesk
        rm -r page /etc/tcdesk-first.db /etc/default/etcd /etc/default/tcdesk-replica /etc/tcdesk-replica /etc/etcd /etc/systemd/system/etcd.service.d /var/lib/tcdesk-replica
        userdel tcdesk; systemctl daemon-reload"
    [[ $(<"$work/err") == *"cannot access '/usr/share/tcdesk'"* ]]
    tell "nothing is left in the folder of its program"
}

# pages_cases: all pages whose commands are tried, and what is left behind the last of them.
pages_cases() {
    files_of_root >"$work/before"
    page_cases README.Debian
    same "what is left behind it" "" "$(changed_files)"
    page_cases SCALE.md
    in_machine "apt-get purge -y tcdesk; rm -r /var/lib/tcdesk /etc/default/tcdesk-* /srv/copies /srv/standby; userdel tcdesk; systemctl reset-failed"
    page_cases backup.md
    in_machine "apt-get purge -y tcdesk; rm -r /var/lib/tcdesk /var/backups/tcdesk /etc/default/tcdesk-*; userdel tcdesk; systemctl reset-failed"
    same "what is left behind the pages of copies" "" "$(changed_files)"
    in_machine "for it in {1..60}; do ! su -c 'createuser root && createdb --owner root tcdesk' postgres || break; sleep 1; done"
    tell "root has a database"
    page_cases postgres.md "export PGDATABASE=tcdesk; cp -r /usr/share/doc/tcdesk/examples ."
}

# plain: what hangs on the day, and on how this Debian tells of its units, is left out.
plain() {
    sed -E "s/\b[0-9]{10}\b/MOMENT/g; s/ [0-9]{4}-[0-9]{2}-[0-9]{2}T[0-9:]{8}Z\$/ INSTANT/; s,/usr/lib/systemd/,/lib/systemd/,g; s/^Removed \"(.*)\"/Removed \1/; s/'//g"
}
