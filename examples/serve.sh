#!/usr/bin/env bash
# A server, a sender and a set-top on loopback, for some ten seconds. What the server decided is then
# worked out again from its journal by `run`, and compared with what the set-top got. The words are
# the port (5000) and how many packets in 100 the set-top loses (5).
set -euo pipefail
here="$(cd "$(dirname "${BASH_SOURCE[0]}")" && pwd)"
port="${1:-5000}" loss="${2:-5}"
server="${RAMS_REPLAY:-$here/../rams-replay}"
room="$(mktemp -d)"
trap 'kill $(jobs -p) 2>/dev/null || true; rm -rf "$room"' EXIT

"$server" make 1 1 >/dev/null # (builds it, where it isn't there)

stream=()
if command -v ffmpeg >/dev/null; then
    echo "serve.sh: the stream is a test picture of ffmpeg"
    stream=("$room/stream.ts")
    ffmpeg -loglevel error -f lavfi -i testsrc=size=720x576:rate=25 -t 12 -c:v mpeg2video -g 12 -b:v 3500k \
        -f mpegts -muxrate 4211200 "${stream[@]}"
else
    echo "serve.sh: no ffmpeg here, so the stream is made up"
fi

"$server" serve "$port" 14000 <"$here/serve.head" >"$room/journal" &
serving=$!
sleep 0.5
python3 "$here/loopback.py" send "$port" "$((port + 999))" 9 "${stream[@]}" &
sleep 2
python3 "$here/loopback.py" watch "$((port + 1))" "$((port + 999))" 6 "$loss" "$room/log" || failed=1
wait "$serving"

"$server" run <"$room/journal" >"$room/book"
echo "serve.sh: the journal has $(wc -l <"$room/journal") lines; its book: $(tail -n 1 "$room/book")"
python3 "$here/loopback.py" compare "$room/book" "$room/log" || failed=1
exit "${failed:-0}"
