// The product of two matrices, whose cells are the iterations of a parallel loop. In blocks of one iteration it takes three tasks:
//   run --num-workers=1 --min-task=1 --args=[2x2:1,2,3,4],[2x2:5,6,7,8],[2x2:=0]
func.func @main(%a: memref<?x?xi64>, %b: memref<?x?xi64>, %c: memref<?x?xi64>) {
  %zero = arith.constant 0 : index
  %one = arith.constant 1 : index
  %none = arith.constant 0 : i64
  %rows = memref.dim %a, %zero : memref<?x?xi64>
  %inner = memref.dim %a, %one : memref<?x?xi64>
  %columns = memref.dim %b, %one : memref<?x?xi64>
  scf.parallel (%i, %j) = (%zero, %zero) to (%rows, %columns) step (%one, %one) {
    %sum = scf.for %k = %zero to %inner step %one iter_args(%so_far = %none) -> (i64) {
      %x = memref.load %a[%i, %k] : memref<?x?xi64>
      %y = memref.load %b[%k, %j] : memref<?x?xi64>
      %product = arith.muli %x, %y : i64
      %more = arith.addi %so_far, %product : i64
      scf.yield %more : i64
    }
    memref.store %sum, %c[%i, %j] : memref<?x?xi64>
    scf.reduce
  }
  return
}
