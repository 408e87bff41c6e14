#!/usr/bin/env bash
# Compares the Rust with the model on problems made at random: compare.sh SHAPE COUNT SEED, the shape being small, large or wide.
# Its last line counts the differences. What build.sh of the oracle needs must be there.
set -euo pipefail

here=$(cd "$(dirname "${BASH_SOURCE[0]}")" && pwd)
oracle=$("$here/../oracle/build.sh")
exec python3 "$here/compare.py" "$oracle" "$@"
