#!/usr/bin/env bash
# Proves and builds the program of a crate, and prints the program's path alone on standard output: program.sh NAME.
#
# `rt run` also runs it, here on empty input. Where the crate and those below it have not changed, nothing is proved again.
set -euo pipefail

crate=$(cd "$(dirname "${BASH_SOURCE[0]}")/../crates/$1" && pwd)
(cd "$crate" && rt run </dev/null) >&2
echo "$crate/out/$1"
