# Sourced by scripts of this folder: the built program, and a folder that goes with the script.
top=$(cd "$(dirname "${BASH_SOURCE[0]}")/.." && pwd)
. "$top/tools/script.sh"
program=$top/crates/ojp/out/ojp
[ -x "$program" ] || { echo "$(basename "$0"): build the program first: ./ojp check < examples/plan/request.xml" >&2; exit 1; }
folder=$(mktemp -d)
trap 'kill $(jobs -p) 2>/dev/null; rm -rf "$folder"' EXIT
