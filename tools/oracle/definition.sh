#!/usr/bin/env bash
# Holds antt's definition of `compile` against the Rust, in a scratch repository outside this one; its last line counts the statements.
#
# With --with-edit FILE... it makes each edit in the copied definitions, one at a time, and each must be refused instead.
# DEFINITION_DIR names the scratch repository; without it, jambtulip-definition below TMPDIR. Beside what build.sh needs, rt must be there.
set -euo pipefail

here=$(cd "$(dirname "${BASH_SOURCE[0]}")" && pwd)
scratch=${DEFINITION_DIR:-${TMPDIR:-/tmp}/jambtulip-definition}

oracle=$("$here/build.sh")
mkdir -p "$scratch"
exec python3 "$here/definition.py" "$oracle" "$here/../../crates" "$scratch" "$@"
