#!/usr/bin/env bash
# Makes the fixed list that the gate replays, crates/replay/stdin and crates/replay/stdout, from the Rust's answers.
#
# crates/replay isn't run. The list is the same on every run, so afterwards git shows whether it was in step. What build.sh needs must be there.
set -euo pipefail

here=$(cd "$(dirname "${BASH_SOURCE[0]}")" && pwd)
oracle=$("$here/build.sh")
PYTHONDONTWRITEBYTECODE=1 exec python3 "$here/replay_list.py" "$oracle" "$here/../../crates"
