#!/usr/bin/env bash
# Measures the writer and the readers over documents and messages in memory: bench/codec.sh [ROUNDS [SAMPLES]].
# Each work is done ROUNDS times in each of SAMPLES runs; the least time of a round is told.
top=$(cd "$(dirname "$0")/.." && pwd)
. "$top/tools/script.sh"
need_words 2 "$@"
program=$top/crates/ojp_bench/out/ojp_bench
rounds=${1:-10}
samples=${2:-20}
need_number "$rounds"
need_number "$samples"
[ -x "$program" ] || { echo "codec.sh: build the program first: (cd crates/ojp_bench && rt run -- all 1)" >&2; exit 1; }
for work in write length whole pieces bytes body chunks; do
  least=
  for ((sample = 0; sample < samples; sample++)); do
    micros=$("$program" "$work" "$rounds" 2>&1 > /dev/null | sed -n 's/.*: \([0-9]*\) microseconds.*/\1/p')
    [ -n "$micros" ] || { echo "codec.sh: no answer: $work" >&2; exit 1; }
    [ -z "$least" ] || [ "$micros" -lt "$least" ] && least=$micros
  done
  echo "$work: $least microseconds a round"
done
