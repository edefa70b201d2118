#!/bin/bash
# Makes all keys of one desk on three machines, or on so many. It is run where nothing is served: on a laptop, say, which keeps FOLDER/authority for itself.
#
#     certificates.sh FOLDER NAME=ADDRESS..      FOLDER/NAME is what the machine NAME is given; one more name later is one more folder
#
# FOLDER/authority   the keys of two authorities, one for the etcds among each other and one for their clients; and the password of etcd's root
# FOLDER/NAME/etcd       authority.pem, peer.pem, peer.key: how the etcds know each other; clients.pem, server.pem, server.key: how one serves its machine
# FOLDER/NAME/replica    clients.pem, replica.pem, replica.key and password: how the replica knows etcd, and is known; seal.key: the seal of the desk
set -euo pipefail
umask 077

[[ $# -ge 2 ]] || { sed -n '2,10s/^# \{0,1\}//p' "$0" >&2; exit 2; }
folder=$1
shift
mkdir -p "$folder/authority"
cd "$folder"

# authority NAME: an authority that signs for nothing else, where there is none yet.
authority() {
    [[ -e authority/$1.key ]] || openssl req -x509 -newkey ec -pkeyopt ec_paramgen_curve:prime256v1 -noenc -days 3650 -subj "/CN=tcdesk $1" -keyout "authority/$1.key" -out "authority/$1.pem" 2>/dev/null
}

# signed AUTHORITY PATH NAME [ADDRESSES]: a key, and a certificate of it, for this name and these addresses. It has no common name: etcd takes none of who speaks JSON.
signed() {
    openssl req -newkey ec -pkeyopt ec_paramgen_curve:prime256v1 -noenc -subj "/O=tcdesk/OU=$3" -keyout "$2.key" -out "$2.csr" 2>/dev/null
    openssl x509 -req -in "$2.csr" -CA "authority/$1.pem" -CAkey "authority/$1.key" -CAcreateserial -days 3650 \
        ${4:+-extfile <(echo "subjectAltName=$4")} -out "$2.pem" 2>/dev/null
    rm "$2.csr"
}

# secret PATH: 32 random bytes, where there are none yet.
secret() {
    [[ -e $1 ]] || openssl rand -hex 32 >"$1"
}

authority peers
authority clients
secret authority/root.password
secret authority/replica.password
secret authority/seal.key
for it; do
    name=${it%%=*} address=${it#*=}
    [[ $name =~ ^[a-z0-9]{1,16}$ && $address != "$it" && ! -e $name ]] || { echo "certificates.sh: $it is no NAME=ADDRESS, or is there already" >&2; exit 2; }
    mkdir -p "$name/etcd" "$name/replica"
    signed peers "$name/etcd/peer" "$name" "IP:${address//,/,IP:}"
    signed clients "$name/etcd/server" "etcd" "IP:127.0.0.1,IP:${address//,/,IP:}"
    signed clients "$name/replica/replica" "replica"
    cp authority/peers.pem "$name/etcd/authority.pem"
    cp authority/clients.pem "$name/etcd/clients.pem"
    cp authority/clients.pem "$name/replica/clients.pem"
    cp authority/replica.password "$name/replica/password"
    cp authority/seal.key "$name/replica/seal.key"
done
