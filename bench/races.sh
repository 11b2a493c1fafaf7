#!/usr/bin/env bash
# Least times and peak memory of `source` with its race check on the modules of 50, 100 and 200: 64 iterations of a parallel
# loop, a task of a chain and a task of a group for each. The result is four times the sum of j * j + N over j below N.
set -eu
. "$(dirname "$0")/program.sh"
for number in 50 100 200; do
  python3 "$here/bench/generated.py" "$number" >"$text"
  python3 "$here/bench/measure.py" "$text" "$program" source
done
