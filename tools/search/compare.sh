#!/usr/bin/env bash
# Holds the proved start and pick against the model, by way of the program search_replay: compare.sh [COUNT [SEED]] makes that many searches.
# Its last line counts the calls that agree and those that differ. SEARCH_REPLAY_PROGRAM names another program with the same lines; without it, rt
# proves and builds crates/search_replay.
set -euo pipefail

here=$(cd "$(dirname "${BASH_SOURCE[0]}")" && pwd)
program=${SEARCH_REPLAY_PROGRAM:-}

if [ -z "$program" ]; then
  program=$("$here/../program.sh" search_replay)
fi
exec python3 "$here/compare.py" "$program" "${1:-1000}" "${2:-1}"
