#!/usr/bin/env bash
# Measures a region over loopback, with curl as its client: bench/serve.sh [REQUESTS]
# Each kind of request is sent so often, one connection after another; told are the requests a second as the client has them,
# and the processor time of the server for one. The largest timetable has as many stops, journeys and calls as are allowed.
# PORT is the region's (47655).
. "$(dirname "$0")/program.sh"
need_words 1 "$@"
need curl python3
requests=${1:-1000}
need_number "$requests"
[ "$requests" -gt 1 ] || { echo "serve.sh: at least 2 requests: the first is taken off" >&2; exit 2; }
port=${PORT:-47655}
python3 "$top/bench/largest.py" "$folder" || exit 1

# The processor time of a server of FILE for COUNT requests of DOCUMENT, in microseconds; the client's time goes to `elapsed`.
served() {
  local file=$1 document=$2 count=$3 begin
  (TIMEFORMAT='%3U %3S'; time "$program" region "$file" "$port" --count "$count" > "$folder/ready") 2> "$folder/times" &
  until [ -s "$folder/ready" ]; do sleep 0.01; done
  begin=$(date +%s%N)
  curl -sS --fail -o "$folder/answer" --data-binary "@$document" -H 'Content-Type: application/xml' "http://127.0.0.1:$port/ojp#[1-$count]" || exit 1
  elapsed=$(( ($(date +%s%N) - begin) / 1000 ))
  wait
  : > "$folder/ready"
  micros=$(awk '{ printf "%d", ($1 + $2) * 1000000 }' "$folder/times")
}

measure() {
  local what=$1 file=$2 document=$3 start
  served "$file" "$document" 1
  start=$micros
  served "$file" "$document" "$requests"
  echo "$what: $(( requests * 1000000 / elapsed )) requests a second, $(( (micros - start) / (requests - 1) )) microseconds of the server's processor each"
}

measure "the example's trip" "$top/examples/plan/a.tt" "$top/examples/plan/request.xml"
measure "100 stop events of the largest timetable" "$folder/largest.tt" "$folder/events.xml"
measure "a trip of the largest timetable" "$folder/largest.tt" "$folder/trip.xml"
begin=$(date +%s%N)
for _ in 1 2 3 4 5 6 7 8 9 10; do "$program" plan "$folder/largest.tt" < "$folder/trip.xml" > /dev/null || exit 1; done
echo "the same trip by plan, as a whole process: $(( ($(date +%s%N) - begin) / 10000 )) microseconds"
