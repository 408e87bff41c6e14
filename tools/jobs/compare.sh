#!/usr/bin/env bash
# Holds the proved job program against the model: compare.sh [COUNT [SEED]] makes that many texts, each run twice, from a file and from standard input.
# Its last line counts the jobs that agree and those that differ. JOB_PROGRAM names another program; without it, rt proves and builds crates/page.
set -euo pipefail

here=$(cd "$(dirname "${BASH_SOURCE[0]}")" && pwd)
program=${JOB_PROGRAM:-}

if [ -z "$program" ]; then
  program=$("$here/../program.sh" page)
fi
python3 "$here/job.py"
exec python3 "$here/compare.py" "$program" "${1:-2000}" "${2:-1}"
