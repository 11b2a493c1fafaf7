#!/usr/bin/env bash
# Least time and peak memory of `source` on a serial loop of arithmetic, on one of loads and stores, each of some 1,000,000
# operations, and on 100,000 launches that are awaited one by one.
set -eu
. "$(dirname "$0")/program.sh"
loop() { # turns, what comes before the loop, what a turn does
  printf 'func.func @main() {\n  %%z = arith.constant 0 : index\n  %%n = arith.constant %s : index\n  %%s = arith.constant 1 : index\n' "$1"
  printf '  %s\n  scf.for %%i = %%z to %%n step %%s {\n    %s\n    scf.yield\n  }\n  return\n}\n' "$2" "$3"
}
measure() { python3 "$here/bench/measure.py" "$text" "$program" source; }
loop 330000 '%a = arith.constant 7 : i64' '%x = arith.muli %a, %a : i64 %y = arith.addi %x, %a : i64' >"$text"
measure
loop 330000 '%m = memref.alloc() : memref<1xi64>' \
  '%x = memref.load %m[%z] : memref<1xi64> memref.store %x, %m[%z] : memref<1xi64>' >"$text"
measure
loop 100000 '' '%t = async.execute { async.yield } async.await %t : !async.token' >"$text"
measure
