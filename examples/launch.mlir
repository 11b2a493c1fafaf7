// Two tasks that run beside each other; main waits for both and returns 42.
func.func @main() -> i64 {
  %first = async.execute {
    %one = arith.constant 1 : i64
    %two = arith.addi %one, %one : i64
    async.yield
  }
  %second = async.execute {
    async.yield
  }
  %answer = arith.constant 42 : i64
  async.await %second : !async.token
  async.await %first : !async.token
  return %answer : i64
}
