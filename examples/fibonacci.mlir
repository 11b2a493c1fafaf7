// The tenth number of Fibonacci by tasks: each awaits the two before it and gives their sum. The loop carries two values that
// no one may have given yet.
func.func @main() -> i64 {
  %zero = arith.constant 0 : index
  %one = arith.constant 1 : index
  %ten = arith.constant 10 : index
  %first, %nothing = async.execute -> !async.value<i64> {
    %number = arith.constant 0 : i64
    async.yield %number : i64
  }
  %second, %unit = async.execute -> !async.value<i64> {
    %number = arith.constant 1 : i64
    async.yield %number : i64
  }
  %last, %next = scf.for %at = %zero to %ten step %one iter_args(%a = %nothing, %b = %unit) -> (!async.value<i64>, !async.value<i64>) {
    %token, %sum = async.execute (%a as %x: !async.value<i64>, %b as %y: !async.value<i64>) -> !async.value<i64> {
      %both = arith.addi %x, %y : i64
      async.yield %both : i64
    }
    scf.yield %b, %sum : !async.value<i64>, !async.value<i64>
  }
  %result = async.await %last : !async.value<i64>
  return %result : i64
}
