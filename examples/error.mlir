// A task fails; whoever awaits it fails too, with the operation that it stood in. A run of it answers 1.
func.func @main(%number: i64) -> i64 {
  %token, %value = async.execute -> !async.value<i64> {
    %hundred = arith.constant 100 : i64
    %is_small = arith.cmpi slt, %number, %hundred : i64
    cf.assert %is_small, "too large"
    %half = arith.constant 2 : i64
    %quotient = arith.divsi %number, %half : i64
    async.yield %quotient : i64
  }
  %result = async.await %value : !async.value<i64>
  return %result : i64
}
