#!/usr/bin/env bash
# Nanoseconds a step of the core, of a run on one thread: a serial loop of arithmetic, one of loads and stores, 100,000
# launches that are awaited one by one, a group of 65,536, and 244 groups of 4,096 in turn, whose tokens are all kept.
# `rt run` proves and builds the program first, and keeps it as out/core_bench.
set -eu
here="$(cd "$(dirname "$0")/.." && pwd)"
(cd "$here/crates/core_bench" && rt run <stdin >/dev/null 2>&1)
text="$(mktemp)"
trap 'rm -f "$text"' EXIT
loop() { # turns, what comes before the loop, what a turn does, what comes behind the loop
  printf 'func.func @main() {\n  %%z = arith.constant 0 : index\n  %%n = arith.constant %s : index\n  %%s = arith.constant 1 : index\n' "$1"
  printf '  %s\n  scf.for %%i = %%z to %%n step %%s {\n    %s\n    scf.yield\n  }\n  %s\n  return\n}\n' "$2" "$3" "${4:-}"
}
measure() { # what the run is of
  told="$(python3 "$here/bench/measure.py" "$text" "$here/crates/core_bench/out/core_bench")"
  python3 - "$1" "$told" <<'PYTHON'
import re
import sys

name, told = sys.argv[1:]
spent, steps = re.search(r", ([\d.]+) s, .*, (\d+) steps", told).groups()
print(f"{name}: {float(spent) * 1e9 / int(steps):.0f} ns a step; {told}")
PYTHON
}
loop 330000 '%a = arith.constant 7 : i64' '%x = arith.muli %a, %a : i64 %y = arith.addi %x, %a : i64' >"$text"
measure arithmetic
loop 330000 '%m = memref.alloc() : memref<1xi64>' \
  '%x = memref.load %m[%z] : memref<1xi64> memref.store %x, %m[%z] : memref<1xi64>' >"$text"
measure memory
loop 100000 '' '%t = async.execute { async.yield } async.await %t : !async.token' >"$text"
measure tasks
launch='%t = async.execute { async.yield } %r = async.add_to_group %t, %g : !async.token'
loop 65536 '%g = async.create_group %n : !async.group' "$launch" 'async.await_all %g' >"$text"
measure group
loop 244 '%m = arith.constant 4096 : index' \
  "%g = async.create_group %m : !async.group scf.for %j = %z to %m step %s { $launch scf.yield } async.await_all %g" >"$text"
measure groups
