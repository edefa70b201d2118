#!/bin/bash
# A lab: three machines that keep one desk, each a namespace of the network on this one machine. It wants root, and what the page has installed, with iproute2.
#
#     lab.sh up FOLDER [PROGRAM]     makes it, and begins all programs; they are begun again when they end. PROGRAM is /usr/lib/tcdesk/x86_64-linux-gnu/tcdesk
#     lab.sh down FOLDER             ends all of it; FOLDER stays
#
# The entrances are http://10.79.0.1:8080, .2 and .3; FOLDER/a/log has what the programs of machine a said. FOLDER/a/pids has them, for `kill`.
set -euo pipefail

here=$(dirname "$(realpath "$0")")
[[ $# -ge 2 && ($1 == up || $1 == down) ]] || { sed -n '2,8s/^# \{0,1\}//p' "$0" >&2; exit 2; }
mkdir -p "$2"
folder=$(realpath "$2") program=${3:-/usr/lib/tcdesk/x86_64-linux-gnu/tcdesk}
names=(a b c)
members=a=https://10.79.0.1:2380,b=https://10.79.0.2:2380,c=https://10.79.0.3:2380

# keeps NAME WORDS..: runs a program in the namespace of a machine, and again when it ends, in a session of its own.
keeps() {
    local name=$1
    shift
    setsid ip netns exec "tcdesk-$name" bash -c 'while true; do "$@"; sleep 1; done' keeps "$@" </dev/null >>"$folder/$name/log" 2>&1 &
    echo $! >>"$folder/$name/pids"
}

# network: a bridge, which has the address of who asks, and one link of each machine to it.
network() {
    ip link add tcdesk-lab type bridge
    ip addr add 10.79.0.254/24 dev tcdesk-lab
    ip link set tcdesk-lab up
    local at=0 name
    for name in "${names[@]}"; do
        at=$((at + 1))
        ip netns add "tcdesk-$name"
        ip link add "tcdesk-$name" type veth peer name lab netns "tcdesk-$name"
        ip link set "tcdesk-$name" master tcdesk-lab
        ip link set "tcdesk-$name" up
        ip -n "tcdesk-$name" addr add "10.79.0.$at/24" dev lab
        ip -n "tcdesk-$name" link set lo up
        ip -n "tcdesk-$name" link set lab up
    done
}

# begin_etcd NAME AT: the etcd of a machine.
begin_etcd() {
    local keys=$folder/keys/$1/etcd
    keeps "$1" etcd --name "$1" --data-dir "$folder/$1/etcd" --initial-cluster "$members" --initial-cluster-state new --bcrypt-cost 4 --log-level error --logger zap \
        --listen-client-urls https://127.0.0.1:2379 --advertise-client-urls https://127.0.0.1:2379 \
        --listen-peer-urls "https://10.79.0.$2:2380" --initial-advertise-peer-urls "https://10.79.0.$2:2380" \
        --client-cert-auth --trusted-ca-file "$keys/clients.pem" --cert-file "$keys/server.pem" --key-file "$keys/server.key" \
        --peer-client-cert-auth --peer-trusted-ca-file "$keys/authority.pem" --peer-cert-file "$keys/peer.pem" --peer-key-file "$keys/peer.key"
}

# up: all of it.
up() {
    local at name
    "$here/certificates.sh" "$folder/keys" a=10.79.0.1 b=10.79.0.2 c=10.79.0.3
    network
    for at in 1 2 3; do
        name=${names[at - 1]}
        mkdir -p "$folder/$name"
        begin_etcd "$name" "$at"
    done
    for at in {1..30}; do
        sleep 1
        cat "$folder"/keys/authority/{root,replica}.password | ip netns exec tcdesk-a "$here/auth.sh" "$folder/keys/a/replica" >"$folder/auth" 2>&1 && break
    done
    for at in 1 2 3; do
        name=${names[at - 1]}
        keeps "$name" /usr/bin/python3 "$here/replica.py" desk --keys "$folder/keys/$name/replica" --folder "$folder/$name/desk" --program "$program"
        keeps "$name" /usr/bin/python3 "$here/replica.py" run --keys "$folder/keys/$name/replica" --folder "$folder/$name/desk" --name "$name" \
            --listen "10.79.0.$at:8080"
    done
}

# down: nothing of it runs any more.
down() {
    local name pid
    for name in "${names[@]}"; do
        while read -r pid; do
            pkill -KILL --session "$pid" || true
        done <"$folder/$name/pids"
        rm -f "$folder/$name/pids"
        ip netns del "tcdesk-$name" || true
    done
    ip link del tcdesk-lab || true
}

"$1"
