"""Prints a module of real functions, of at most so many bytes and at most 1,024 functions."""
import sys

HEAD = """func.func @sum{k}(%a: memref<?xi64>, %n: index) -> i64 {{
  %zero = arith.constant 0 : index
  %one = arith.constant 1 : index
  %first = arith.constant 0 : i64
"""
LINES = """  %s{j} = scf.for %i{j} = %zero to %n step %one iter_args(%t{j} = %first) -> (i64) {{
    %x{j} = memref.load %a[%i{j}] : memref<?xi64>
    %y{j} = arith.addi %t{j}, %x{j} : i64
    %b{j} = arith.cmpi slt, %y{j}, %first : i64
    %z{j} = scf.if %b{j} -> (i64) {{
      scf.yield %first : i64
    }} else {{
      %w{j} = arith.muli %y{j}, %y{j} : i64
      scf.yield %w{j} : i64
    }}
    scf.yield %z{j} : i64
  }}
  %u{j}, %v{j} = async.execute -> !async.value<i64> {{
    %c{j} = arith.xori %s{j}, %first : i64
    async.yield %c{j} : i64
  }}
  %r{j} = async.await %v{j} : !async.value<i64>
"""
TAIL = """  return %r{j} : i64
}}
"""

limit = int(sys.argv[1])
parts, size, number = [], 0, 0
while True:
    text = HEAD.format(k=number) + "".join(LINES.format(j=j) for j in range(3)) + TAIL.format(j=2)
    if size + len(text) > limit or number == 1024:
        break
    parts.append(text)
    size += len(text)
    number += 1
sys.stdout.write("".join(parts))
