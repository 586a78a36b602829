#!/usr/bin/env bash
# Times the built program on the example, as whole processes: bench/plan.sh [RUNS]
. "$(dirname "$0")/program.sh"
need_words 1 "$@"
runs=${1:-200}
need_number "$runs"
begin=$(date +%s%N)
for _ in $(seq "$runs"); do
  "$program" plan "$top/examples/plan/a.tt" < "$top/examples/plan/request.xml" > /dev/null || exit 1
done
end=$(date +%s%N)
echo "$(( (end - begin) / runs / 1000 )) microseconds a run, over $runs runs"
