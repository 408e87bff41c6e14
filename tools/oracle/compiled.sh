#!/usr/bin/env bash
# Sends the same calls to the proved `compile`, by way of crates/replay, and to the Rust, and compares everything; its last line counts them.
#
# --quick compares one piece of twenty. A run that was stopped goes on where it was: COMPILED_DIR names the folder that remembers this;
# without it, jambtulip-compiled below TMPDIR. REPLAY_PROGRAM names another program that reads and writes the same lines; without it, rt
# proves and builds crates/replay. What build.sh needs must be there.
set -euo pipefail

here=$(cd "$(dirname "${BASH_SOURCE[0]}")" && pwd)
state=${COMPILED_DIR:-${TMPDIR:-/tmp}/jambtulip-compiled}
program=${REPLAY_PROGRAM:-}

if [ -z "$program" ]; then
  program=$("$here/../program.sh" replay)
fi
oracle=$("$here/build.sh")
mkdir -p "$state"
PYTHONDONTWRITEBYTECODE=1 exec python3 "$here/compiled.py" "$oracle" "$program" "$state" "$@"
