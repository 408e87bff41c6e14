#!/usr/bin/env bash
# Makes the list of calls of start and pick that the gate replays, with the model's answers: crates/search_replay/stdin and stdout.
set -euo pipefail

here=$(cd "$(dirname "${BASH_SOURCE[0]}")" && pwd)
python3 "$here/search.py"
exec python3 "$here/replay_list.py" "$here/../../crates"
