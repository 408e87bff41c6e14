#!/usr/bin/env bash
# Fuzzes the proved programs in every build: run.sh [SECONDS [SEED]] spends that many seconds, a third on job texts, on compile requests and on pick sequences each.
#
# The last line is 'no findings', or says where they are kept. FUZZ_DIR names the folder for builds and findings; without it, jambtulip-fuzz below TMPDIR.
set -euo pipefail

here=$(cd "$(dirname "${BASH_SOURCE[0]}")" && pwd)
folder=${FUZZ_DIR:-${TMPDIR:-/tmp}/jambtulip-fuzz}
third=$((${1:-600} / 3))
seed=${2:-1}
found=0

part() { # SCRIPT [WORDS...]
    local script=$1
    shift
    echo "$script, seed $seed:"
    PYTHONDONTWRITEBYTECODE=1 python3 "$here/$script.py" "$folder/builds" "$third" "$seed" "$folder/findings/$script" "$@" || found=1
}

rm -rf "$folder/findings"
"$here/builds.sh" "$folder/builds"
oracle=$("$here/../oracle/build.sh")
part jobs
part compiles "$oracle"
part picks
[ "$found" -eq 0 ] && echo "no findings" || echo "findings are in $folder/findings"
exit "$found"
