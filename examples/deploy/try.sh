#!/usr/bin/env bash
# Tries nginx.conf where nginx, curl and openssl are installed: two gateways over the example's regions behind it, one trip by TLS,
# and what the proxy refuses: examples/deploy/try.sh
# Uses ports 8443, 8081, 8082 and 48401 to 48405. Where the program is not built yet, it is proved and built first.
set -u
here=$(cd "$(dirname "$0")" && pwd)
. "$here/../../tools/script.sh"
need_words 0 "$@"
ojp=$here/../../ojp
for tool in nginx curl openssl; do
  command -v "$tool" > /dev/null || { echo "not tried: $tool is not installed"; exit 0; }
done
folder=$(mktemp -d)
chmod 755 "$folder"
. "$here/../network/start.sh"
trap 'nginx -c "$folder/nginx.conf" -s stop 2>/dev/null; kill $(jobs -p) 2>/dev/null; rm -rf "$folder"' EXIT

start_regions 48400
for port in 8081 8082; do
  "$ojp" gateway "$folder/regions.txt" "$port" > "$folder/$port" &
  await "$folder/$port"
done

openssl req -x509 -newkey rsa:2048 -nodes -days 1 -subj /CN=ojp.example.org \
  -keyout "$folder/ojp.key" -out "$folder/ojp.pem" 2> /dev/null || exit 1
{
  echo "pid $folder/nginx.pid; error_log $folder/error.log;"
  echo "events {}"
  echo "http {"
  echo "access_log off; client_body_temp_path $folder/body; proxy_temp_path $folder/proxy;"
  sed "s#/etc/ssl/certs/ojp.pem#$folder/ojp.pem#; s#/etc/ssl/private/ojp.key#$folder/ojp.key#" "$here/nginx.conf"
  echo "}"
} > "$folder/nginx.conf"
nginx -c "$folder/nginx.conf" || exit 1

ask() {
  curl -sS --insecure --resolve ojp.example.org:8443:127.0.0.1 "$@"
}

wrong=0
say() {
  if [ "$2" = "$3" ]; then echo "$1: $2"; else echo "$1: $2, and not $3"; wrong=1; fi
}

url=https://ojp.example.org:8443
trip=$(ask --data-binary "@$network/reading-olten.xml" -H 'Content-Type: application/xml' "$url/ojp" | grep -c '<ojp:TripLeg>')
say "a trip by TLS" "$trip" 1
say "another target" "$(ask -o /dev/null -w '%{http_code}' --data-binary x "$url/other")" 404
say "no POST" "$(ask -o /dev/null -w '%{http_code}' "$url/ojp")" 403
head -c 1048577 /dev/zero > "$folder/long"
say "a body that is too long" "$(ask -o /dev/null -w '%{http_code}' --data-binary "@$folder/long" -H 'Expect:' "$url/ojp")" 413
say "no document" "$(ask --data-binary x "$url/ojp")" "byte 0: Markup"
kill %6
say "one gateway away" "$(ask --data-binary "@$network/reading-olten.xml" "$url/ojp" | grep -c '<ojp:TripLeg>')" 1
exit $wrong
