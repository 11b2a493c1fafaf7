#!/usr/bin/env bash
# Least time and peak memory of `check` on 64 KiB, 256 KiB and 1 MiB of functions with loops, branches, loads and tasks.
set -eu
. "$(dirname "$0")/program.sh"
for bytes in 65536 262144 1048576; do
  python3 "$here/bench/functions.py" "$bytes" >"$text"
  python3 "$here/bench/measure.py" "$text" "$program" check
done
