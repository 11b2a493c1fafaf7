#!/usr/bin/env bash
# Least time and peak memory of `run` on the largest straight text that the limit of 1,048,576 bytes allows, and on a half
# and a quarter of it.
set -eu
. "$(dirname "$0")/program.sh"
for bytes in 262144 524288 1048576; do
  awk -v bytes="$bytes" 'BEGIN {
    printf "func.func @main() -> i64 {\n  %%v0 = arith.constant 1 : i64\n"; size = 60
    for (k = 1; ; k++) {
      line = sprintf("  %%v%d = arith.addi %%v%d, %%v0 : i64\n", k, k - 1)
      if (size + length(line) + 30 > bytes) break
      printf "%s", line; size += length(line)
    }
    printf "  return %%v%d : i64\n}\n", k - 1
  }' >"$text"
  python3 "$here/bench/measure.py" "$text" "$program" run --steps
done
