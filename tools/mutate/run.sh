#!/usr/bin/env bash
# Tries the edits of tools/mutate/edits in a copy of the repository, those of the named crates or all: the prover must refuse each.
# They are wrong programs like those of crates/*/must-fail, in crates whose check is long, so the gate tries a few of each such crate and
# the others stand here. Usage: tools/mutate/run.sh [CRATE...]; its last lines are those of 'rt must-fail', and so is its exit status.
set -euo pipefail
here=$(cd "$(dirname "${BASH_SOURCE[0]}")" && pwd)
repository=$(cd "$here/../.." && pwd)
scratch=$(mktemp -d)
trap 'rm -rf "$scratch"' EXIT

if [ $# -eq 0 ]; then
  cd "$here/edits"
  set -- *
fi
cp "$repository/crates.txt" "$scratch/"
(cd "$repository" && tar --exclude=out/incremental --exclude=must-fail -cf - crates) | tar -xf - -C "$scratch"
for crate; do
  cp -r "$here/edits/$crate" "$scratch/crates/$crate/must-fail"
done
cd "$scratch"
rt must-fail "$@"
