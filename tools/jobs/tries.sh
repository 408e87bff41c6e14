#!/usr/bin/env bash
# Runs a sample of jobs by `rt try`, compiled with checks and, where it can, on the interpreter: tries.sh [COUNT [SEED]].
# It works in a copy of the crates, where page_cases has other jobs. Exit status 1 if one answer isn't the model's.
set -euo pipefail

here=$(cd "$(dirname "${BASH_SOURCE[0]}")" && pwd)
top=$(cd "$here/../.." && pwd)
copy=$(mktemp -d)
trap 'rm -rf "$copy"' EXIT
cp "$top/crates.txt" "$copy"
(cd "$top" && tar --exclude=out/incremental --exclude=must-fail -cf - crates) | tar -xf - -C "$copy"
python3 "$here/tries.py" "$copy" "${1:-200}" "${2:-1}"
