# Sourced by the benches of commands: makes the program, and a file for its text that is gone at the end.
here="$(cd "$(dirname "$0")/.." && pwd)"
"$here/dofraneg" run <"$here/examples/answer.mlir" >/dev/null
program="$here/crates/dofraneg/out/dofraneg"
text="$(mktemp)"
trap 'rm -f "$text"' EXIT
