#!/usr/bin/env bash
# Measures a gateway and its regions over loopback, with curl as its client: bench/gateway.sh [REQUESTS]
# The regions and requests are those of examples/network. Told are the requests a second as the client has them, one after another,
# and the median of their times; then the same with one region behind a forwarder that holds back each of its replies for 50 ms:
# asks of one round overlap, so a trip takes longer by its rounds through that region and not by its asks.
# PORT is the gateway's (48300); the regions have the five behind it, the forwarder the 20th.
. "$(dirname "$0")/program.sh"
need_words 1 "$@"
need curl python3
requests=${1:-300}
need_number "$requests"
port=${PORT:-48300}
ojp=$program
. "$top/examples/network/start.sh"

# Forwards each connection to PORT, the first byte of its reply held back for 50 ms.
cat > "$folder/forward.py" <<'PY'
import asyncio, sys
listens, leads, wait = int(sys.argv[1]), int(sys.argv[2]), float(sys.argv[3])

async def copy(source, sink, delay):
    first = True
    while piece := await source.read(65536):
        if first and delay:
            await asyncio.sleep(delay)
        first = False
        sink.write(piece)
        await sink.drain()
    sink.write_eof()

async def serve(source, sink):
    there_source, there_sink = await asyncio.open_connection("127.0.0.1", leads)
    await asyncio.gather(copy(source, there_sink, 0), copy(there_source, sink, wait))
    sink.close()
    there_sink.close()

async def main():
    server = await asyncio.start_server(serve, "127.0.0.1", listens)
    print("ready", flush=True)
    await server.serve_forever()

asyncio.run(main())
PY

start_regions "$port"
paris=$(sed -n 's/^PARIS 127.0.0.1 //p' "$folder/regions.txt")
python3 "$folder/forward.py" $((port + 20)) "$paris" 0.05 > "$folder/forward" &
await "$folder/forward"
sed "s/^PARIS 127.0.0.1 .*/PARIS 127.0.0.1 $((port + 20))/" "$folder/regions.txt" > "$folder/delayed.txt"

measure() {
  local what=$1 regions=$2 document=$3 count=$4 begin elapsed
  "$ojp" gateway "$regions" "$port" --count $((count + 1)) > "$folder/gateway" &
  gateway=$!
  await "$folder/gateway"
  curl -sS --fail -o /dev/null --data-binary "@$document" -H 'Content-Type: application/xml' "http://127.0.0.1:$port/ojp" || exit 1
  begin=$(date +%s%N)
  curl -sS --fail -o /dev/null -w '%{time_total}\n' --data-binary "@$document" -H 'Content-Type: application/xml' "http://127.0.0.1:$port/ojp#[1-$count]" > "$folder/times" || exit 1
  elapsed=$(( ($(date +%s%N) - begin) / 1000 ))
  wait "$gateway"
  : > "$folder/gateway"
  echo "$what: $(( count * 1000000 / elapsed )) requests a second, $(sort -n "$folder/times" | sed -n "$(( (count + 1) / 2 ))p") s at the median"
}

for request in reading-olten chatelet-waldenburg olten-reading; do
  measure "$request" "$folder/regions.txt" "$network/$request.xml" "$requests"
done
measure "chatelet-waldenburg, replies of PARIS held back for 50 ms" "$folder/delayed.txt" "$network/chatelet-waldenburg.xml" 20
