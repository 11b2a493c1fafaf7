#!/usr/bin/env bash
# Least time and peak memory of reading, verifying and making code of texts of 64 KiB, 256 KiB and 1 MiB of functions with loops,
# branches, loads and tasks. `rt run` proves and builds the program first, and keeps it as out/line_bench.
set -eu
here="$(cd "$(dirname "$0")/.." && pwd)"
(cd "$here/crates/line_bench" && rt run <stdin >/dev/null 2>&1)
text="$(mktemp)"
trap 'rm -f "$text"' EXIT
for bytes in 65536 262144 1048576; do
  python3 "$here/bench/functions.py" "$bytes" >"$text"
  python3 "$here/bench/measure.py" "$text" "$here/crates/line_bench/out/line_bench"
done
