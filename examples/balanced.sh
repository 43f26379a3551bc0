#!/usr/bin/env bash
# Two servers of one channel behind nginx's `stream` module on loopback, for some eight seconds: eight set-tops
# ask the balancer, and get their bursts and repairs back through it. Debian has it as libnginx-mod-stream.
#
#   balanced.sh [KEY] [WORKERS] [PORT] [DIES]      '$remote_addr' 1 5000
#
# KEY is what nginx hashes, WORKERS its processes; with more than one, `reuseport` is set. With a word DIES the second
# server is killed while some of its set-tops are in their bursts.
set -euo pipefail
here="$(cd "$(dirname "${BASH_SOURCE[0]}")" && pwd)"
key="${1:-\$remote_addr}" workers="${2:-1}" port="${3:-5000}" victim=0
front=$((port + 401)) other=$((port + 200))
server="${RAMS_REPLAY:-$here/../rams-replay}"
module=/usr/lib/nginx/modules/ngx_stream_module.so
[[ -f "$module" ]] || { echo "balanced.sh: no nginx with its stream module here" >&2 && exit 77; }
room="$(mktemp -d)"
trap 'kill $(jobs -p) 2>/dev/null || true; wait; rm -rf "$room"' EXIT
chmod 755 "$room"

"$server" make 1 1 >/dev/null # (builds it, where it isn't there)

reuse=""
[[ "$workers" == 1 ]] || reuse=reuseport
cat >"$room/nginx.conf" <<CONF
load_module $module;
daemon off;
worker_processes $workers;
pid $room/pid;
error_log $room/errors warn;
events {}
stream {
    upstream channel_7 {
        hash $key consistent;
        server 127.0.0.1:$((port + 1));
        server 127.0.0.1:$((other + 1));
    }
    server {
        listen 127.0.0.1:$front udp $reuse;
        proxy_pass channel_7;
        proxy_timeout 60s;
    }
}
CONF
nginx -p "$room" -c "$room/nginx.conf" -e "$room/errors" &
balancer=$!
"$server" serve "$port" 11000 <"$here/standby.head" >"$room/journal0" &
first=$!
"$server" serve "$other" 11000 <"$here/standby.head" >"$room/journal1" &
second=$!
[[ -z "${4:-}" ]] || victim=$second
sleep 0.5
python3 "$here/balanced.py" load "$front" "$room" 7 "$victim" "$port" "$other" || failed=1
wait "$first" "$second" || [[ "$victim" != 0 ]]
kill "$balancer"
wait "$balancer" || true
if [[ "$victim" == 0 ]]; then
    for i in 0 1; do "$server" run <"$room/journal$i" >"$room/book$i"; done
    python3 "$here/balanced.py" judge "$room" "$room/book0" "$room/book1" || failed=1
fi
cut -c 1-200 "$room/errors" >&2
exit "${failed:-0}"
