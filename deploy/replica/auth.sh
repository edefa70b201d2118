#!/bin/bash
# Turns on etcd's auth, once for all machines: the user `replica` may touch the keys of the desks alone, and nobody may do anything without a login.
# It reads two lines from the standard input: the password of root, and that of replica (FOLDER/authority/*.password of certificates.sh).
#
#     cat authority/root.password authority/replica.password | ssh MACHINE /usr/share/tcdesk/replica/auth.sh [FOLDER [ADDRESS:PORT]]
#
# FOLDER (/etc/tcdesk-replica) has the certificate of a client. It wants etcdctl (Debian: etcd-client).
set -euo pipefail

folder=${1:-/etc/tcdesk-replica}
read -r root
read -r replica
export ETCDCTL_API=3 ETCDCTL_CACERT=$folder/clients.pem ETCDCTL_CERT=$folder/replica.pem ETCDCTL_KEY=$folder/replica.key
etcdctl=(etcdctl --endpoints "https://${2:-127.0.0.1:2379}")
"${etcdctl[@]}" user add root --interactive=false <<<"$root"
"${etcdctl[@]}" user grant-role root root
"${etcdctl[@]}" role add tcdesk
"${etcdctl[@]}" role grant-permission tcdesk readwrite --prefix=true /tcdesk/
"${etcdctl[@]}" user add replica --interactive=false <<<"$replica"
"${etcdctl[@]}" user grant-role replica tcdesk
"${etcdctl[@]}" auth enable
