#!/usr/bin/env bash
# Starts the server on a free port of 127.0.0.1, loads items by curl, and compares what it answers; then two connections at
# the same time, pages along their links, what a server tells at its end, and the example.
set -e
cd "$(dirname "${BASH_SOURCE[0]}")/.."
for tool in curl python3; do
    if ! command -v $tool >/dev/null; then
        echo "tests/serve.sh: SKIPPED, since there is no $tool: the server isn't tried" >&2
        exit 0
    fi
done
SECONDS_TO_START=${SECONDS_TO_START:-20}
folder=$(mktemp -d)
server=
finish() {
    if [ -n "$server" ]; then kill "$server" 2>/dev/null || true; wait "$server" 2>/dev/null || true; fi
    rm -rf "$folder"
}
trap finish EXIT

free_port() { python3 -c 'import socket; s = socket.socket(); s.bind(("127.0.0.1", 0)); print(s.getsockname()[1])'; }
# listens PORT: whether somebody listens there, which needs no connection of the server's
listens() { grep -qi "^ *[0-9]*: 0100007F:$(printf %04X "$1") 00000000:0000 0A " /proc/net/tcp; }
# start WORKERS CONNS: starts the server; a port that another took meanwhile is tried again with another one
start() {
    local try round
    for try in 1 2 3; do
        port=$(free_port)
        base=http://127.0.0.1:$port
        ./stacd serve "$port" "$1" 1 "$2" >"$folder/out" 2>"$folder/errors" &
        server=$!
        for ((round = 0; round < SECONDS_TO_START * 10; round++)); do
            if listens "$port"; then return; fi
            if ! kill -0 "$server" 2>/dev/null; then break; fi
            sleep 0.1
        done
        kill "$server" 2>/dev/null || true
        wait "$server" 2>/dev/null || true
        server=
    done
    echo "tests/serve.sh: the server doesn't listen at port $port: $(cat "$folder/errors")" >&2
    exit 1
}

failed=0
differs() {
    echo "tests/serve.sh: $1: wanted $2, got $3" >&2
    failed=1
}
# asks: what is wanted (status, blank, body), then the words of curl
asks() {
    local wanted=$1 came
    shift
    came=$(curl -q -sS --noproxy '*' --max-time 20 -w '\n%{http_code}' "$@" 2>&1 |
        python3 -c 'import sys; body, status = sys.stdin.read().rsplit("\n", 1); print(status, body)')
    if [ "$came" != "$wanted" ]; then differs "curl $*" "$wanted" "$came"; fi
}
# tells: a line that is wanted among those of the reply's head, then the words of curl
tells() {
    local wanted=$1 came
    shift
    came=$(curl -q -sS --noproxy '*' --max-time 20 -o /dev/null -D - "$@" 2>&1 | tr -d '\r')
    if ! grep -qxF "$wanted" <<<"$came"; then differs "curl $*" "the line $wanted" "$came"; fi
}
scene() { printf '{"type":"Feature","id":"%s","geometry":{"type":"Point","coordinates":[%s]},"properties":{"datetime":"%s","eo:cloud_cover":%s}}' "$@"; }
of_s2() { printf '%s' "${1%\}},\"collection\":\"s2\"}"; }
page() { printf '{"type":"FeatureCollection","features":[%s],"numberReturned":%s,"links":[%s]}' "$1" "$2" "$root"; }

./stacd page 1 </dev/null >/dev/null
start 2 1000000
root="{\"rel\":\"root\",\"type\":\"application/json\",\"href\":\"$base/\"}"
a=$(scene a 1,1 2024-01-10T00:00:00Z 7)
b=$(scene b 50,50 2024-02-20T00:00:00Z 70)
asks '201 {"revision":1,"items":0}' -d '{"id":"s2","catalogue:cut":"month"}' "$base/collections"
asks '201 {"revision":2,"items":2}' -d "{\"type\":\"FeatureCollection\",\"features\":[$a,$b]}" "$base/collections/s2/items"
asks "200 $(page "$(of_s2 "$b"),$(of_s2 "$a")" 2)" "$base/search"
asks "200 $(page "$(of_s2 "$a")" 1)" "$base/search?bbox=0,0,2,2"
asks "200 $(page "$(of_s2 "$b")" 1)" "$base/search?datetime=2024-02-01T00:00:00Z/.."
asks "200 $(page "$(of_s2 "$a")" 1)" -G --data-urlencode 'filter=eo:cloud_cover < 20' "$base/search"
asks "200 $(page "$(of_s2 "$b")" 1)" -d '{"filter":{"op":">","args":[{"property":"eo:cloud_cover"},20]}}' "$base/search"
asks "200 $(of_s2 "$a")" "$base/collections/s2/items/a"
asks '404 {"code":"NoItem","description":"c"}' "$base/collections/s2/items/c"
asks '404 {"code":"NoRoute","description":""}' "$base/nowhere"
asks '405 {"code":"NoMethod","description":""}' -X PUT "$base/search"
asks '400 {"code":"BadBody","description":"Syntax 6"}' -d '{"id":' "$base/collections"
asks '400 {"code":"BadFilter","description":"Syntax 4"}' -G --data-urlencode 'filter=a = ' "$base/search"
asks '409 {"code":"ItemExists","description":"a"}' -d "$a" "$base/collections/s2/items"
asks '409 {"code":"Behind","description":"2"}' -H 'Catalogue-Seen: 9' "$base/search"
asks '201 {"revision":3,"items":1}' -d "$(scene a 1,1 2024-01-10T00:00:00Z 9)" "$base/collections/s2/items?upsert=true"
asks '200 {"revision":4,"items":1}' -X PATCH -d '{"properties":{"eo:cloud_cover":7}}' "$base/collections/s2/items/a"
asks "200 $(of_s2 "$a")" "$base/collections/s2/items/a"
asks '200 {"revision":5,"items":1}' -X PUT -d "$(scene b 50,50 2024-03-20T00:00:00Z 70)" "$base/collections/s2/items/b"
asks '200 {"revision":6,"items":1}' -X DELETE "$base/collections/s2/items/b"
asks "200 $(page "$(of_s2 "$a")" 1)" -H 'Catalogue-Seen: 6' "$base/search"
tells 'Catalogue-Revision: 6' "$base/search"
tells 'Content-Type: application/geo+json' "$base/search"
tells 'Allow: GET, POST' -X DELETE "$base/search"
tells 'Connection: close' --http1.0 "$base/"
python3 tests/connections.py "$port" || failed=1
kill "$server" 2>/dev/null || differs "the server" "that it runs until it is stopped" "$(cat "$folder/out" "$folder/errors")"
wait "$server" 2>/dev/null || true

# Two workers that serve one connection each: after two the server tells what it has taken, and ends with status 0.
start 2 1
asks '201 {"revision":1,"items":0}' -d '{"id":"s2"}' "$base/collections"
asks '201 {"revision":2,"items":1}' -d "$a" "$base/collections/s2/items"
for ((round = 0; round < 100; round++)); do
    if ! kill -0 "$server" 2>/dev/null; then break; fi
    sleep 0.1
done
kill "$server" 2>/dev/null || true
status=0
wait "$server" 2>/dev/null || status=$?
server=
if [ "$status $(cat "$folder/out")" != "0 loads 2 items 1" ]; then
    differs "the server's end" "0 loads 2 items 1" "$status $(cat "$folder/out" "$folder/errors")"
fi

# The example loads six scenes and shows two, the newest first.
demo=$(examples/demo.sh "$(free_port)" 2>&1) || true
for line in '{"revision":2,"items":6}' '"features":[{"type":"Feature","stac_version":"1.0.0","id":"S2A_31UFU_20240214_0_L2A",' '"numberReturned":2,'; do
    if ! grep -qF "$line" <<<"$demo"; then differs examples/demo.sh "$line" "$demo"; fi
done

if [ $failed = 0 ]; then echo "the server answers as it should"; fi
exit $failed
