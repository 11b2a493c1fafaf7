// Ten tasks, each of which stores one square; the group is awaited before the squares are added up: 285.
func.func @main() -> i64 {
  %zero = arith.constant 0 : index
  %one = arith.constant 1 : index
  %ten = arith.constant 10 : index
  %squares = memref.alloc() : memref<10xi64>
  %group = async.create_group %ten : !async.group
  scf.for %at = %zero to %ten step %one {
    %token = async.execute {
      %number = arith.index_cast %at : index to i64
      %square = arith.muli %number, %number : i64
      memref.store %square, %squares[%at] : memref<10xi64>
      async.yield
    }
    %place = async.add_to_group %token, %group : !async.token
  }
  async.await_all %group
  %nothing = arith.constant 0 : i64
  %sum = scf.for %at = %zero to %ten step %one iter_args(%so_far = %nothing) -> (i64) {
    %square = memref.load %squares[%at] : memref<10xi64>
    %more = arith.addi %so_far, %square : i64
    scf.yield %more : i64
  }
  return %sum : i64
}
