"""Prints the module of a number N: a parallel loop over 64 N cells, a chain of N tasks, and a group of N tasks."""
import sys

TEXT = """func.func @main() -> i64 {
  %c0 = arith.constant 0 : index
  %c1 = arith.constant 1 : index
  %cn = arith.constant N : index
  %ca = arith.constant A : index
  %k = arith.constant N : i64
  %three = arith.constant 3 : i64
  %a = memref.alloc(%ca) : memref<?xi64>
  %s = memref.alloc() : memref<1xi64>
  %b = memref.alloc(%cn) : memref<?xi64>
  scf.parallel (%i) = (%c0) to (%ca) step (%c1) {
    %x = arith.index_cast %i : index to i64
    %y = arith.muli %x, %x : i64
    %z = arith.addi %y, %k : i64
    memref.store %z, %a[%i] : memref<?xi64>
    scf.reduce
  }
  %t0 = async.execute { async.yield }
  %last = scf.for %j = %c0 to %cn step %c1 iter_args(%p = %t0) -> (!async.token) {
    %t = async.execute [%p] {
      %x = memref.load %a[%j] : memref<?xi64>
      %y = memref.load %s[%c0] : memref<1xi64>
      %z = arith.addi %x, %y : i64
      memref.store %z, %s[%c0] : memref<1xi64>
      async.yield
    }
    scf.yield %t : !async.token
  }
  async.await %last : !async.token
  %g = async.create_group %cn : !async.group
  scf.for %j = %c0 to %cn step %c1 {
    %t = async.execute {
      %x = memref.load %a[%j] : memref<?xi64>
      %y = arith.muli %x, %three : i64
      memref.store %y, %b[%j] : memref<?xi64>
      async.yield
    }
    %r = async.add_to_group %t, %g : !async.token
  }
  async.await_all %g
  %first = memref.load %s[%c0] : memref<1xi64>
  %sum = scf.for %j = %c0 to %cn step %c1 iter_args(%q = %first) -> (i64) {
    %x = memref.load %b[%j] : memref<?xi64>
    %y = arith.addi %q, %x : i64
    scf.yield %y : i64
  }
  return %sum : i64
}
"""

number = int(sys.argv[1])
sys.stdout.write(TEXT.replace("constant N", f"constant {number}").replace("constant A", f"constant {64 * number}"))
