#!/usr/bin/env bash
# A server under load on loopback is killed (SIGKILL) in the middle of eight bursts; a standby that has read
# its journal goes on with them. What the set-tops got is then judged by both journals and their book.
#
#   standby.sh [HOW] [ROUNDS] [PORT] [JOURNAL]      restart 1 5000; a round takes some nine seconds
#
# HOW: `restart`  the standby is started when the server is dead, on the same ports, with the journal's file
#      `pipe`     it follows from the start through `tee`, on the ports from PORT + 200 on, to which all then turn
#      `tail`     the same with `tail -f` of the journal's file
#      `socat`    like `tail`, over TCP, as if the standby were on another machine
#      `once`     like `restart`, with a sender that doesn't send again what no server took: the bursts are lost then
# JOURNAL: the first server too is a takeover, from this file.
set -eu
here="$(cd "$(dirname "${BASH_SOURCE[0]}")" && pwd)"
how="${1:-restart}" rounds="${2:-1}" port="${3:-5000}" journal="${4:-}"
server="${RAMS_REPLAY:-$here/../rams-replay}"
room="$(mktemp -d)" gaps="$(mktemp)"
trap 'kill $(jobs -p) 2>/dev/null || true; rm -rf "$room" "$gaps"' EXIT
next="$port" again=again
case "$how" in
restart) ;;
once) again=once ;;
pipe | tail | socat) next=$((port + 200)) ;;
*) echo "standby.sh: HOW is restart, pipe, tail, socat or once" >&2 && exit 2 ;;
esac

"$server" make 1 1 >/dev/null # (builds it, where it isn't there)

# The server.
serve() {
    if [[ -n "$journal" ]]; then
        exec "$server" takeover "$port" 60000 <"$journal"
    fi
    exec "$server" serve "$port" 60000 <"$here/standby.head"
}

# The journal's file as it grows, until the server is dead.
follow() {
    exec tail --pid="$first" --sleep-interval=0.01 --lines=+1 --follow "$room/old"
}

# Starts the server, $first, and where the standby, $standby, follows from the start that too.
begin() {
    : >"$room/old"
    if [[ "$how" == pipe ]]; then
        serve | tee -p "$room/old" | "$server" takeover "$next" 5000 >"$room/new" &
        standby=$! first="$(jobs -p %%)"
        return
    fi
    serve >>"$room/old" &
    first=$!
    case "$how" in
    tail)
        follow | "$server" takeover "$next" 5000 >"$room/new" &
        standby=$!
        ;;
    socat)
        socat -u "TCP4-LISTEN:$((port + 400)),bind=127.0.0.2,reuseaddr" - | "$server" takeover "$next" 5000 >"$room/new" &
        standby=$!
        sleep 0.3
        follow | socat -u - "TCP4:127.0.0.2:$((port + 400))" &
        ;;
    esac
}

round() {
    rm -f "$room"/*
    mkfifo "$room/go"
    begin
    sleep 0.5
    python3 "$here/standby.py" load "$port" "$next" "$room" "$again" "$first" &
    local load=$!
    read -r _ <"$room/go"
    if [[ "$next" == "$port" ]]; then
        wait "$first" || true # (its ports are free when it is gone, not when it is killed)
        "$server" takeover "$port" 5000 <"$room/old" >"$room/new" &
        standby=$!
    fi
    kill -USR1 "$load"
    wait "$load" || failed=1
    wait "$standby" || failed=1
    "$server" run <"$room/new" >"$room/book"
    python3 "$here/standby.py" judge "$room" >"$room/judged" || failed=1
    cat "$room/judged"
}

for ((n = 1; n <= rounds; n++)); do
    echo "standby.sh: round $n of $rounds ($how)"
    round
    grep '^gap:' "$room/judged" >>"$gaps" || true
done
python3 "$here/standby.py" table "$gaps"
exit "${failed:-0}"
