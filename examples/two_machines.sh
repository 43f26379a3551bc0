#!/usr/bin/env bash
# A standby on another machine, with the server's own ports and address: three network namespaces of this machine
# stand for two servers, `a` and `b`, and for the network with the sender and the set-tops, `c`. The program binds
# 127.0.0.1 alone; the kernel's NAT carries the service's address 10.9.0.100 to it, and leaves the set-tops'
# addresses as they are. The journal goes over TCP by socat. The address moves by a route.
# Needs root, iproute2, nftables and socat.
#
#   two_machines.sh [ROUNDS]      1; a round takes some nine seconds
set -eu
here="$(cd "$(dirname "${BASH_SOURCE[0]}")" && pwd)"
rounds="${1:-1}" port=5000 address=10.9.0.100 set_tops=10.9.0.9
server="${RAMS_REPLAY:-$here/../rams-replay}"
for it in ip nft socat; do
    command -v "$it" >/dev/null || { echo "two_machines.sh: no $it here" >&2 && exit 77; }
done
[[ "$(id -u)" == 0 ]] || { echo "two_machines.sh: only root may make network namespaces" >&2 && exit 77; }
room="$(mktemp -d)" gaps="$(mktemp)"
net="rams$$"
at() { exec ip netns exec "$net$1" "${@:2}"; }
finish() {
    kill $(jobs -p) 2>/dev/null || true
    for it in a b c; do ip netns del "$net$it" 2>/dev/null || true; done
    rm -rf "$room" "$gaps"
}
trap finish EXIT

"$server" make 1 1 >/dev/null # (builds it, where it isn't there)

# A machine with the service's address, and NAT between that and 127.0.0.1.
machine() {
    ip netns add "$net$1"
    ip -n "$net$1" link set lo up
    ip -n "$net$1" addr add "$address/32" dev lo
    ip link add eth0 netns "$net$1" type veth peer name "to_$1" netns "${net}c"
    ip -n "$net$1" link set eth0 up
    ip -n "${net}c" link set "to_$1" up
    ip -n "$net$1" addr add "10.9.$2.2/24" dev eth0
    ip -n "${net}c" addr add "10.9.$2.1/24" dev "to_$1"
    ip -n "$net$1" route add default via "10.9.$2.1"
    ip netns exec "$net$1" sysctl -qw net.ipv4.conf.eth0.route_localnet=1
    ip netns exec "$net$1" nft -f - <<NFT
table ip rams {
    chain in {
        type nat hook prerouting priority dstnat
        ip daddr $address udp dport $port-$((port + 127)) dnat to 127.0.0.1
    }
    chain out {
        type nat hook postrouting priority srcnat
        ip saddr 127.0.0.1 oifname eth0 udp sport $port-$((port + 127)) snat to $address
    }
}
NFT
}
ip netns add "${net}c"
ip -n "${net}c" link set lo up
ip -n "${net}c" addr add "$set_tops/32" dev lo
ip netns exec "${net}c" sysctl -qw net.ipv4.ip_forward=1
machine a 1
machine b 2

round() {
    rm -f "$room"/*
    mkfifo "$room/go"
    ip -n "${net}c" route replace "$address/32" via 10.9.1.2
    (at b socat -u "TCP4-LISTEN:7000,reuseaddr,keepalive,keepidle=1,keepintvl=1,keepcnt=2" -) | (at b "$server" takeover "$port" 5000) >"$room/new" &
    local standby=$!
    sleep 0.3
    : >"$room/old"
    (at a "$server" serve "$port" 60000) <"$here/standby.head" >>"$room/old" &
    local first=$!
    tail --pid="$first" --sleep-interval=0.01 --lines=+1 --follow "$room/old" | (at a socat -u - TCP4:10.9.2.2:7000) &
    sleep 0.5
    (RAMS_SERVER="$address" RAMS_SET_TOPS="$set_tops" at c python3 "$here/standby.py" load "$port" "$port" "$room" again "$first") &
    local load=$!
    read -r _ <"$room/go"
    ip -n "${net}c" route replace "$address/32" via 10.9.2.2
    kill -USR1 "$load"
    wait "$load" || failed=1
    wait "$standby" || failed=1
    "$server" run <"$room/new" >"$room/book"
    python3 "$here/standby.py" judge "$room" >"$room/judged" || failed=1
    cat "$room/judged"
}

for ((n = 1; n <= rounds; n++)); do
    echo "two_machines.sh: round $n of $rounds"
    round
    grep '^gap:' "$room/judged" >>"$gaps" || true
done
python3 "$here/standby.py" table "$gaps"
exit "${failed:-0}"
