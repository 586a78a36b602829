# Functions for scripts that start the example's servers; to be sourced. They want `ojp`, the program, and `folder`, one of their own.
network=$(cd "$(dirname "${BASH_SOURCE[0]}")" && pwd)

# Waits until the server whose standard output goes to the file says that it listens.
await() {
  for _ in $(seq 400); do
    grep -qs ready "$1" && return
    sleep 0.02
  done
  echo "no server is ready: $1" >&2
  exit 1
}

# Starts the five regions at the ports behind the given one, and writes their file of regions.
start_regions() {
  local at=$1 name
  # Built once, so that the servers start at once.
  "$ojp" check < "$network/reading-olten.xml" > /dev/null || exit 1
  for name in channel jura paris rhine thames; do
    at=$((at + 1))
    "$ojp" region "$network/$name.tt" "$at" > "$folder/$name" &
    echo "$(sed -n 's/^region //p' "$network/$name.tt") 127.0.0.1 $at" >> "$folder/regions.txt"
  done
  for name in channel jura paris rhine thames; do await "$folder/$name"; done
}
