// Two tasks write one cell, and nothing orders them: `source --args=[1:0]` tells the race. With `async.execute [%t]` in place of
// the second `async.execute` the second task awaits the first, and there is none.
func.func @main(%m: memref<1xi64>) {
  %z = arith.constant 0 : index
  %one = arith.constant 1 : i64
  %two = arith.constant 2 : i64
  %t = async.execute {
    memref.store %one, %m[%z] : memref<1xi64>
    async.yield
  }
  %u = async.execute {
    memref.store %two, %m[%z] : memref<1xi64>
    async.yield
  }
  async.await %t : !async.token
  async.await %u : !async.token
  return
}
