#!/usr/bin/env bash
# demo.sh [PORT]: starts the server, loads scenes.json into a new collection, searches it, and stops the server.
set -e
here=$(dirname "$(readlink -f "${BASH_SOURCE[0]}")")
port=${1:-8080}
base=http://127.0.0.1:$port
if ! command -v curl >/dev/null; then
    echo "demo.sh: there is no curl" >&2
    exit 1
fi
asks() {
    local word
    printf '$ curl'
    for word in "$@"; do
        if [[ $word =~ [^A-Za-z0-9./:@=_-] ]]; then word=${word@Q}; fi
        printf ' %s' "$word"
    done
    echo
    curl -q -sSf --noproxy '*' "$@"
    printf '\n\n'
}

"$here/../stacd" page 1 </dev/null >/dev/null # proves and builds it, where that isn't done yet
"$here/../stacd" serve "$port" 2 1 1000000 2>/dev/null &
server=$!
trap 'kill "$server" 2>/dev/null || true' EXIT
for try in {1..50}; do
    sleep 0.2
    if ! kill -0 "$server" 2>/dev/null; then
        echo "demo.sh: the server can't listen at port $port; examples/demo.sh PORT takes another" >&2
        exit 1
    fi
    if curl -q -sf --noproxy '*' -o /dev/null "$base/"; then break; fi
done

asks -d '{"id":"s2","catalogue:cut":"month"}' "$base/collections"
asks -d "@$here/scenes.json" "$base/collections/s2/items"
asks -G --data-urlencode 'filter=eo:cloud_cover < 20 AND S_INTERSECTS(geometry, POINT(5 52))' "$base/search"
