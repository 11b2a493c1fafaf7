// A chain of tasks: the second waits for the first one's token, takes its value as an operand, and gives a value of its own.
func.func @main() -> i64 {
  %zero = arith.constant 0 : i64
  %token, %value = async.execute -> !async.value<i64> {
    %seven = arith.constant 7 : i64
    async.yield %seven : i64
  }
  %later, %square = async.execute [%token] (%value as %number: !async.value<i64>) -> !async.value<i64> {
    %is_positive = arith.cmpi sgt, %number, %zero : i64
    cf.assert %is_positive, "not positive"
    %product = arith.muli %number, %number : i64
    async.yield %product : i64
  }
  %result = async.await %square : !async.value<i64>
  return %result : i64
}
