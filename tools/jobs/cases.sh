#!/usr/bin/env bash
# Makes the job files that the gate runs, with the model's answers: data, args and stdout of crates/page, crates/large_page and crates/page_cases.
set -euo pipefail

here=$(cd "$(dirname "${BASH_SOURCE[0]}")" && pwd)
python3 "$here/job.py"
exec python3 "$here/cases.py" "$here/../../crates"
