#!/usr/bin/env bash
# Starts the server, and nginx with the shipped configuration before it, on free ports of 127.0.0.1; loads the examples
# through it, and asks by curl, by slow clients, and by whichever other clients are installed. One line each: ok, failed or
# skipped. STACD names another program than ./stacd.
set -e
cd "$(dirname "${BASH_SOURCE[0]}")/.."
nginx=$(PATH=$PATH:/usr/sbin:/sbin command -v nginx || true)
if [ -z "$nginx" ]; then
    echo "tests/proxy.sh: SKIPPED: there is no nginx, without which the proxy isn't tried" >&2
    exit 0
fi
for tool in curl openssl python3; do
    if ! command -v $tool >/dev/null; then
        echo "tests/proxy.sh: SKIPPED: there is no $tool, without which the proxy isn't tried" >&2
        exit 0
    fi
done
unset http_proxy https_proxy all_proxy HTTP_PROXY HTTPS_PROXY ALL_PROXY
STACD=${STACD:-./stacd}
SECONDS_TO_START=${SECONDS_TO_START:-20}
WORKERS=$(sed -n 's/^ExecStart=.* serve 8080 \([0-9]*\) .*/\1/p' deploy/systemd/stacd.service)
folder=$(mktemp -d)
server=
proxy=
finish() {
    local one
    for one in $proxy $server; do
        kill "$one" 2>/dev/null || true
        wait "$one" 2>/dev/null || true
    done
    rm -rf "$folder"
}
trap finish EXIT

free_ports() {
    python3 -c 'import socket
held = [socket.socket() for _ in range(4)]
for one in held: one.bind(("127.0.0.1", 0))
print(*[one.getsockname()[1] for one in held])'
}
# listens PORT: whether somebody listens there, which needs no connection of the server's
listens() { grep -qi "^ *[0-9]*: 0100007F:$(printf %04X "$1") 00000000:0000 0A " /proc/net/tcp; }
# comes PORT PROCESS: whether the process comes to listen there
comes() {
    local round
    for ((round = 0; round < SECONDS_TO_START * 10; round++)); do
        if listens "$1"; then return 0; fi
        if ! kill -0 "$2" 2>/dev/null; then return 1; fi
        sleep 0.1
    done
    return 1
}
# adapt: the shipped configuration, for this folder and these ports; more words of sed may stand behind
adapt() {
    local user='/^user /d'
    if [ "$(id -u)" = 0 ]; then user='s/^user .*/user root;/'; fi
    sed -e "$user" -e "s#/run/nginx.pid#$folder/nginx.pid#" -e "s#/var/log/nginx/#$folder/#" \
        -e "s#^http {#&\nclient_body_temp_path $folder/body; proxy_temp_path $folder/proxy; fastcgi_temp_path $folder/fastcgi; uwsgi_temp_path $folder/uwsgi; scgi_temp_path $folder/scgi;#" \
        -e "s#default https://stac.example.org;#default \$scheme://\$http_host;#" -e '/listen \[::\]:/d' \
        -e "s#listen 80 #listen 127.0.0.1:$led #" \
        -e "s#listen 443 ssl http2 default_server;#listen 127.0.0.1:$tls ssl http2; listen 127.0.0.1:$plain;#" \
        -e "s#/etc/ssl/stacd/fullchain.pem#$folder/certificate.pem#" -e "s#/etc/ssl/stacd/privkey.pem#$folder/key.pem#" \
        -e "s#127.0.0.1:8080#127.0.0.1:$port#" -e "s#/etc/nginx/stacd/#$PWD/deploy/nginx/#" "$@" \
        deploy/nginx/nginx.conf >"$folder/nginx.conf"
}
# start: both on ports that are free; ports that another took meanwhile are tried again with other ones
start() {
    local try
    for try in 1 2 3; do
        read -r port plain tls led <<<"$(free_ports)"
        "$STACD" serve "$port" "$WORKERS" 1 1000000 >"$folder/out" 2>"$folder/errors" &
        server=$!
        if comes "$port" "$server"; then
            adapt
            "$nginx" -p "$folder" -c "$folder/nginx.conf" -g 'daemon off;' >"$folder/nginx.out" 2>&1 &
            proxy=$!
            if comes "$tls" "$proxy"; then return; fi
            kill "$proxy" 2>/dev/null || true
            wait "$proxy" 2>/dev/null || true
            proxy=
        fi
        kill "$server" 2>/dev/null || true
        wait "$server" 2>/dev/null || true
        server=
    done
    echo "tests/proxy.sh: the server and nginx don't start: $(cat "$folder/errors" "$folder/nginx.out")" >&2
    exit 1
}
children() { cat "/proc/$proxy/task/$proxy/children"; }
# again WORDS: nginx takes the configuration anew, adapted by the words of sed too
again() {
    local round old
    adapt "$@"
    old=$(children)
    kill -HUP "$proxy"
    for ((round = 0; round < SECONDS_TO_START * 10; round++)); do
        sleep 0.1
        if [ -n "$(children)" ] && ! grep -qwF "${old% }" <<<"$(children)"; then return; fi
    done
    echo "tests/proxy.sh: nginx doesn't take its configuration anew: $(tail -n 5 "$folder/error.log")" >&2
    exit 1
}

failed=0
# told NAME STATUS TEXT: a line, and what came where it failed
told() {
    case $2 in
    0) echo "ok       $1${3:+: $3}" ;;
    77) echo "skipped  $1: it isn't installed" ;;
    *)
        echo "failed   $1: $3"
        failed=1
        ;;
    esac
}
# runs NAME COMMAND: the command, or function of this script, ends with status 0, or with 77 where what it needs isn't
# installed
runs() {
    local name=$1 came status
    shift
    set +e # so that a function ends where it fails first
    came=$(
        set -e
        "$@" 2>&1
    )
    status=$?
    set -e
    told "$name" $status "$(tail -n 3 <<<"$came")"
}
ask() { curl -q -sS --noproxy '*' --max-time 20 --cacert "$folder/certificate.pem" "$@" 2>&1; }
# has NAME WANTED WORDS: what curl brings by the words has each line of WANTED as a part
has() {
    local name=$1 wanted=$2 came line
    shift 2
    came=$(ask "$@" | tr -d '\r') || true
    while read -r line; do
        if ! grep -qiF -- "$line" <<<"$came"; then
            told "$name" 1 "curl $* brings no $line, but $(head -c 600 <<<"$came")"
            return
        fi
    done <<<"$wanted"
    told "$name" 0
}

# number NAME: the number behind a name in the shipped configuration
number() { sed -n "s/^ *$1 \([0-9]*\);.*/\1/p" deploy/nginx/nginx.conf; }
fewer_kept() {
    echo "$(number keepalive) for each of $(number worker_processes) processes, $WORKERS workers"
    [ $(($(number keepalive) * $(number worker_processes))) -lt "$WORKERS" ]
}
unit_valid() {
    if ! command -v systemd-analyze >/dev/null; then return 77; fi
    sed "s#^ExecStart=[^ ]*#ExecStart=$(readlink -f "$STACD")#" deploy/systemd/stacd.service >"$folder/stacd.service"
    systemd-analyze verify "$folder/stacd.service" 2>&1 | tee "$folder/unit"
    [ ! -s "$folder/unit" ] # what it only warns of counts too
}
cmp_examples() {
    mkdir "$folder/made"
    python3 examples/make_scenes.py "$folder/made"
    for file in "$folder"/made/*; do cmp "$file" "examples/$(basename "$file")"; done
}
load_examples() {
    local name came
    for name in sentinel-2-l1c sentinel-2-l2a; do
        came=$(sed "s#127.0.0.1:8080#127.0.0.1:$port#" examples/$name.collection.json | ask --data-binary @- "$base/collections")
        came+=$(ask -d @examples/$name.items.json "$base/collections/$name/items")
        if ! grep -q '"items":0}{"revision":[0-9]*,"items":100}$' <<<"$came"; then
            echo "$came"
            return 1
        fi
    done
}

"$STACD" page 1 </dev/null >/dev/null
openssl req -x509 -newkey rsa:2048 -nodes -keyout "$folder/key.pem" -out "$folder/certificate.pem" -days 2 \
    -subj /CN=127.0.0.1 -addext subjectAltName=IP:127.0.0.1 2>/dev/null
start
base=https://127.0.0.1:$tls
bare=http://127.0.0.1:$plain
export SSL_CERT_FILE=$folder/certificate.pem CURL_CA_BUNDLE=$folder/certificate.pem REQUESTS_CA_BUNDLE=$folder/certificate.pem
origin='Origin: https://map.example.org'
items=$base/collections/sentinel-2-l2a/items

runs "fewer connections are kept than there are workers" fewer_kept
runs "systemd takes the unit" unit_valid
runs "the examples are what their script makes" cmp_examples
runs "the examples load" load_examples

# By curl.
has "GET, by TLS and HTTP/2" $'HTTP/2 200\ncatalogue-revision: 4\ncontent-type: application/json' --http2 -D - "$base/"
has "the landing page" "$(printf '%s\n' '"rel":"service-desc"' "\"href\":\"$base/api\"" 'item-search#filter"' 'item-search#sort"' \
    'features-1/1.0/conf/core"' 'features-1/1.0/conf/geojson"' 'v1.0.0/collections"' 'v1.0.0/ogcapi-features"')" "$base/"
has "conformance" $'item-search#filter"\n/conf/basic-cql2"' "$base/conformance"
for path in / /collections "/collections/sentinel-2-l2a" "/search?limit=3" "/collections/sentinel-2-l1c/items?limit=3"; do
    runs "links of $path begin with the public address" python3 tests/proxied.py links "$base" "$base$path"
done
has "a page's link to itself" "{\"rel\":\"self\",\"type\":\"application/geo+json\",\"href\":\"$items?limit=2\"}" "$items?limit=2"
has "plain HTTP leads to the public address" $'308 Permanent\nLocation: http' -D - "http://127.0.0.1:$led/search?limit=1"
for path in / /collections "/search?limit=3"; do
    has "HEAD $path" $'HTTP/1.1 200 OK\nCatalogue-Revision: 4\nstatus 200, 0 bytes' --http1.1 -I -w 'status %{http_code}, %{size_download} bytes' "$base$path"
done
has "OPTIONS with an Origin" $'204 No Content\nAccess-Control-Allow-Origin: *\nAccess-Control-Allow-Methods: GET, HEAD, POST, OPTIONS\nAccess-Control-Allow-Headers: Accept, Catalogue-Seen, Content-Type' \
    --http1.1 -D - -X OPTIONS -H "$origin" -H 'Access-Control-Request-Method: POST' "$base/search"
has "OPTIONS of a collection with an Origin" 'Access-Control-Allow-Methods: GET, HEAD, OPTIONS' -D - -X OPTIONS -H "$origin" "$base/collections"
has "GET with an Origin" $'200 OK\nAccess-Control-Allow-Origin: *\nAccess-Control-Expose-Headers: Allow, Catalogue-Revision' --http1.1 -D - -H "$origin" "$base/search"
has "POST of a search with an Origin" $'200 OK\n"numberReturned":1' --http1.1 -D - -H "$origin" -d '{"limit":1}' "$base/search"
has "gzip" 'Content-Encoding: gzip' --compressed -D - -o "$folder/zipped" "$items?limit=100"
runs "gzip brings the same" cmp "$folder/zipped" <(ask "$items?limit=100")
has "a collection's queryables" '"title":"Queryables"' "$items/../queryables"
has "a filter" '"numberReturned":7' -G -d limit=7 --data-urlencode "filter=eo:cloud_cover < 40 AND platform LIKE 'sentinel-2%'" "$base/search"
has "Catalogue-Seen" '"code":"Behind"' -H 'Catalogue-Seen: 99' "$base/search"
has "a collection for points" '"items":0}' -d '{"id":"points","itemType":"feature","catalogue:cut":"month"}' "$base/collections"
python3 tests/proxied.py points 500 0 0 >"$folder/few"
python3 tests/proxied.py points 2000 500 2400 >"$folder/many"
has "a chunked POST" $'201 Created\n"items":500}' --http1.1 -D - -H 'Transfer-Encoding: chunked' --data-binary "@$folder/few" "$base/collections/points/items"
has "a POST of $(wc -c <"$folder/many") bytes with Expect" $'100 Continue\n201 Created\n"items":2000}' --http1.1 -D - -H 'Expect: 100-continue' \
    --data-binary "@$folder/many" "$base/collections/points/items"
runs "next leads through 2,500 items" python3 tests/proxied.py pages "$base" points 2500
has "/api" $'Content-Type: application/vnd.oai.openapi+json;version=3.0\n"openapi": "3.0.3"' -D - "$base/api"
runs "each path that /api tells answers" python3 tests/proxied.py paths "$base" points p000007

# What the proxy refuses.
head -c 17000000 /dev/zero >"$folder/large"
long=$(printf '%40000s' '' | tr ' ' a)
has "refused: too large" $'413 Request\n{"code":"BadLength","description":"TooLong"}' --http1.1 -D - --data-binary "@$folder/large" "$base/search"
has "refused: too large, chunked" $'413 Request\n{"code":"BadLength","description":"TooLong"}' --http1.1 -D - -H 'Transfer-Encoding: chunked' --data-binary "@$folder/large" "$base/search"
has "refused: too long an address" $'414 Request\n{"code":"BadHead","description":"TooLarge"}' --http1.1 -D - "$base/search?ids=$long"
has "refused: too long a header" $'431\n{"code":"BadHead","description":"TooLarge"}' --http1.1 -D - -H "X-Long: $long" "$base/search"
has "refused: no head" $'400 Bad Request\n{"code":"BadHead","description":"Malformed"}' --http1.1 -D - -H 'Content-Length: x' "$base/search"
has "refused: a write by a page" $'403 Forbidden\nContent-Type: application/json\n{"code":"NotAllowed","description":""}' --http1.1 -D - -H "$origin" -d '{"id":"x"}' "$base/collections"
has "refused: a method of /api" $'405 Not Allowed\n{"code":"NoMethod","description":""}' --http1.1 -D - -d x "$base/api"
has "the server's own refusals are kept" $'400 Bad Request\n{"code":"BadLimit","description":""}' --http1.1 -D - "$base/search?limit=x"
for ((round = 0; round < 400; round++)); do printf 'url = "%s/search?limit=1"\noutput = "%s/burst.%d"\n' "$bare" "$folder" "$round"; done >"$folder/burst"
ask -Z --parallel-immediate --parallel-max 250 -K "$folder/burst" >/dev/null || true
too_many() {
    local count
    count=$(cat "$folder"/burst.* | grep -oF '{"code":"TooMany","description":""}' | wc -l)
    echo "$count of 400"
    [ "$count" -gt 0 ]
}
runs "refused: too many at once" too_many
sleep 2
again -e '/^ *127.0.0.1\/32 1;$/d'
for method in POST PUT PATCH DELETE; do
    has "refused: $method from another address" $'403 Forbidden\n{"code":"NotAllowed","description":""}' --http1.1 -D - -X $method -d '{}' "$items/S2A_31UDS_20240103_0_L2A"
done
has "refused: a write by a path that is written otherwise" $'403 Forbidden' --http1.1 -D - --path-as-is -X DELETE "$base/collections/.."
has "a search from another address" '"numberReturned":1' -d '{"limit":1}' "$base/search"
again

logged() { awk '$3 == 200 && $5 >= 0 && $7 > 4 && $8 == "\"GET" {found = 1} END {exit !found}' "$folder/access.log"; }
runs "the log tells statuses, seconds and revisions" logged

# By slow clients, and for speed.
runs "500 slow clients" python3 tests/proxied.py slow "$bare" 500 12
sleep 2
again -e 's#rate=100r/s#rate=100000r/s#'
runs "speed" python3 tests/proxied.py rates "http://127.0.0.1:$port" "$bare"

# By other clients, where they are installed.
if [ -x /usr/bin/python3 ]; then debian=/usr/bin/python3; else debian=python3; fi # whose libraries Debian's packages bring
installed() { command -v "$1" >/dev/null || return 77; }
openapi_valid() {
    installed perl
    perl -MJSON::Validator -e 1 2>/dev/null || return 77
    perl -MJSON::Validator -e 'my $v = JSON::Validator->new->schema($ARGV[0])->schema; print ref $v, "\n", map {"$_\n"} @{$v->errors}; exit(@{$v->errors} ? 1 : 0)' "$PWD/deploy/nginx/openapi.json"
}
gdal_features() {
    installed ogr2ogr
    timeout 60 ogr2ogr -f CSV "$folder/points.csv" "OAPIF:$base" points -oo PAGE_SIZE=1000 -lco GEOMETRY=AS_XY
    echo "$(($(wc -l <"$folder/points.csv") - 1)) items"
    [ "$(wc -l <"$folder/points.csv")" = 2501 ]
}
gdal_scenes() {
    installed gdalinfo
    timeout 60 gdalinfo "STACIT:\"$base/search?collections=sentinel-2-l2a&limit=30\"" >"$folder/scenes"
    echo "$(grep -c _NAME=STACIT: "$folder/scenes") assets by grid"
    [ "$(grep -c '_NAME=STACIT:' "$folder/scenes")" = 6 ]
}
gdal_pixels() {
    installed gdalinfo
    gdal_create -q -of GTiff -outsize 1098 1098 -bands 3 -burn 7 -a_srs EPSG:32631 -a_ullr 399960 5700000 509760 5590200 "$folder/tile.tif"
    ask -d '{"id":"local"}' "$base/collections" >/dev/null
    python3 tests/proxied.py local "$folder/tile.tif" 31UDS examples/sentinel-2-l2a.items.json | ask -d @- "$base/collections/local/items" >/dev/null
    timeout 60 gdalinfo -stats "STACIT:\"$base/search?collections=local\"" >"$folder/pixels"
    grep -q '^Size is 1098, 1098$' "$folder/pixels"
    grep -q 'Minimum=7.000, Maximum=7.000' "$folder/pixels"
}
httpie() {
    installed http
    local by=(timeout 20 http --ignore-stdin --check-status --verify "$folder/certificate.pem")
    "${by[@]}" --body GET "$base/search" limit==3 sortby==-eo:cloud_cover | grep '"numberReturned": *3' >/dev/null
    "${by[@]}" --body POST "$base/search" limit:=3 'ids:=["p000001"]' | grep '"numberReturned": *1' >/dev/null
    "${by[@]}" --headers HEAD "$base/collections" | grep 200 >/dev/null
    "${by[@]}" --chunked --body POST "$base/search" limit:=2 | grep '"numberReturned": *2' >/dev/null
}
export QT_QPA_PLATFORM=offscreen HOME=$folder XDG_RUNTIME_DIR=$folder
runs "client: a checker of OpenAPI, libjson-validator-perl" openapi_valid
runs "client: GDAL, ogr2ogr over OAPIF brings all items" gdal_features
runs "client: GDAL, gdalinfo over STACIT tells all scenes" gdal_scenes
runs "client: GDAL, gdalinfo over STACIT reads pixels" gdal_pixels
runs "client: httpie" httpie
runs "client: OWSLib" timeout 60 "$debian" tests/clients.py owslib "$base" points 2500
runs "client: geopandas" timeout 60 "$debian" tests/clients.py geopandas "$base" points 2500
runs "client: QGIS" timeout 120 "$debian" tests/clients.py qgis "$bare" points 2500

kill "$server" 2>/dev/null || told "the server" 1 "it didn't run to the end"
wait "$server" 2>/dev/null || true
server=
has "refused: no server" $'502 Bad Gateway\nRetry-After: 5\n{"code":"NoServer","description":""}' --http1.1 -D - "$base/search"
if [ $failed = 0 ]; then echo "the server answers through the proxy as it should"; fi
exit $failed
