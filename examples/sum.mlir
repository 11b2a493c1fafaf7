// Two tasks sum the halves of a buffer, and a parallel loop fills it before.
func.func @sum(%m: memref<?xi64>, %from: index, %to: index) -> i64 {
  %zero = arith.constant 0 : i64
  %one = arith.constant 1 : index
  %sum = scf.for %i = %from to %to step %one iter_args(%so_far = %zero) -> (i64) {
    %x = memref.load %m[%i] : memref<?xi64>
    %more = arith.addi %so_far, %x : i64
    scf.yield %more : i64
  }
  return %sum : i64
}

func.func @main() -> i64 {
  %zero = arith.constant 0 : index
  %one = arith.constant 1 : index
  %half = arith.constant 50 : index
  %all = arith.constant 100 : index
  %m = memref.alloc(%all) : memref<?xi64>
  scf.parallel (%i) = (%zero) to (%all) step (%one) {
    %x = arith.index_cast %i : index to i64
    memref.store %x, %m[%i] : memref<?xi64>
  }
  %t, %first = async.execute -> !async.value<i64> {
    %s = func.call @sum(%m, %zero, %half) : (memref<?xi64>, index, index) -> i64
    async.yield %s : i64
  }
  %u, %second = async.execute -> !async.value<i64> {
    %s = func.call @sum(%m, %half, %all) : (memref<?xi64>, index, index) -> i64
    async.yield %s : i64
  }
  %a = async.await %first : !async.value<i64>
  %b = async.await %second : !async.value<i64>
  %sum = arith.addi %a, %b : i64
  memref.dealloc %m : memref<?xi64>
  return %sum : i64
}
