#!/usr/bin/env bash
# Least time and peak memory of `run` for 1,000, 4,000 and 12,000 launches that are awaited in order.
set -eu
. "$(dirname "$0")/program.sh"
for launches in 1000 4000 12000; do
  awk -v n="$launches" 'BEGIN {
    print "func.func @main() {"
    for (k = 0; k < n; k++) printf "%%t%d=async.execute{async.yield}\n", k
    for (k = 0; k < n; k++) printf "async.await %%t%d:!async.token\n", k
    print "return }"
  }' >"$text"
  python3 "$here/bench/measure.py" "$text" "$program" run --steps --objects=65536
done
