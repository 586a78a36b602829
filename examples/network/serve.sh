#!/usr/bin/env bash
# Starts the example's five regions and a gateway on this machine, asks one trip through it with curl, and stops them all:
# examples/network/serve.sh [REQUEST]
# REQUEST is one of the request documents beside this script. PORT is the gateway's (48200), the regions have the five behind it.
# Where the program is not built yet, it is proved and built first.
set -u
here=$(cd "$(dirname "$0")" && pwd)
. "$here/../../tools/script.sh"
need_words 1 "$@"
need curl
ojp=$here/../../ojp
request=${1:-$here/reading-olten.xml}
[ -f "$request" ] || { echo "serve.sh: no such file: $request" >&2; exit 2; }
port=${PORT:-48200}
folder=$(mktemp -d)
trap 'kill $(jobs -p) 2>/dev/null; rm -rf "$folder"' EXIT
. "$here/start.sh"

start_regions "$port"
"$ojp" gateway "$folder/regions.txt" "$port" > "$folder/gateway" &
await "$folder/gateway"
curl -sS --fail-with-body --data-binary "@$request" -H 'Content-Type: application/xml' "http://127.0.0.1:$port/ojp"
echo
