#!/usr/bin/env bash
# Times the tokens of 1 MiB of the worst kinds of text.
# `rt run` proves and builds the program first, and keeps it as out/token_bench.
set -eu
cd "$(dirname "$0")/../crates/token_bench"
rt run <stdin >/dev/null 2>&1
texts=$(mktemp -d)
trap 'rm -r "$texts"' EXIT
size=1048576

# repeat PATTERN BYTES: the pattern over and over, cut at so many bytes
repeat() {
    yes "$1" | tr -d '\n' | head -c "$2" || true
}

repeat 'abcdefg ' "$size" >"$texts/names"
repeat '(' "$size" >"$texts/brackets"
repeat '<' "$size" >"$texts/open"
{ printf '"'; repeat 'a' $((size - 2)); printf '"'; } >"$texts/string"
{ printf '//'; repeat 'a' $((size - 2)); } >"$texts/comment"
repeat 'memref<' 700000 >"$texts/memref-100000-deep"
{ repeat 'memref<' 700000; repeat '>' 50000; } >"$texts/memref-half-closed"
{ repeat 'memref<' 700000; repeat '>' 100000; } >"$texts/memref-closed"

for text in "$texts"/*; do
    begun=$(date +%s%N)
    answer=$(./out/token_bench <"$text")
    ended=$(date +%s%N)
    printf '%-22s %5d ms   %s\n' "$(basename "$text")" $(((ended - begun) / 1000000)) "$answer"
done
