#!/usr/bin/env bash
# Tries the wrong bodies that are too dear for the gate, in a copy of the repository: of the crates named, or of all.
set -eu
here="$(cd "$(dirname "$0")/.." && pwd)"
copy="$(mktemp -d)"
trap 'rm -rf "$copy"' EXIT
git clone -q "$here" "$copy/repository"
cd "$copy/repository"
[ $# -gt 0 ] || set -- $(cd edits && ls -d -- */ | tr -d /)
for name in "$@"; do
  cp -r "edits/$name" "crates/$name/must-fail"
done
rt must-fail "$@"
