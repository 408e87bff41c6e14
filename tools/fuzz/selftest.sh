#!/usr/bin/env bash
# Shows that the fuzzers find what they are to find: selftest.sh puts programs that are wrong, that crash and that hang in the place of one build.
#
# Each of the three fuzzers must have findings with each of them. What run.sh has left in FUZZ_DIR is used; the last line is 'N passed, 0 failed'.
set -euo pipefail

here=$(cd "$(dirname "${BASH_SOURCE[0]}")" && pwd)
folder=${FUZZ_DIR:-${TMPDIR:-/tmp}/jambtulip-fuzz}
oracle=$("$here/../oracle/build.sh")
work=$(mktemp -d)
trap 'rm -rf "$work"' EXIT
passed=0 failed=0

# Stands for a build: its answer with the first 7 turned into an 8, a crash on an input that has a 7, or no end on such an input.
faulty() { # KIND BUILD
    local keep="cat >'$work/given.'\$\$; grep -q 7 '$work/given.'\$\$" go="exec '$2' <'$work/given.'\$\$"
    echo '#!/bin/sh'
    case $1 in
    wrong) echo "'$2' | sed 0,/7/s//8/" ;;
    crash) echo "$keep && kill -SEGV \$\$; $go" ;;
    hang) echo "$keep && exec sleep 60; $go" ;;
    esac
}

# Stands for a guided build: the answer 'x', a crash or no end on every input.
faulty_guided() { # KIND
    case $1 in
    wrong)
        cat <<'PROGRAM'
#!/usr/bin/env python3
import sys

while head := sys.stdin.buffer.read(3):
    sys.stdin.buffer.read(int.from_bytes(head, "big"))
    sys.stdout.buffer.write(b"\0\0\0\1x")
    sys.stdout.flush()
PROGRAM
        ;;
    crash) printf '#!/bin/sh\nkill -SEGV $$\n' ;;
    hang) printf '#!/bin/sh\nexec sleep 60\n' ;;
    esac
}

# The builds, but for one.
replace() { # KIND BUILD
    rm -rf "$work/builds"
    mkdir "$work/builds"
    ln -s "$folder/builds/"* "$work/builds"
    rm "$work/builds/$2"
    case $2 in
    *.guided) faulty_guided "$1" ;;
    *) faulty "$1" "$folder/builds/$2" ;;
    esac >"$work/builds/$2"
    chmod +x "$work/builds/$2"
}

try() { # SCRIPT BUILD [WORDS...]
    local script=$1 build=$2 kind
    shift 2
    for kind in wrong crash hang; do
        replace "$kind" "$build"
        if FUZZ_LIMIT=5 FUZZ_MOST=1 PYTHONDONTWRITEBYTECODE=1 python3 "$here/$script.py" "$work/builds" 1 1 "$work/findings" "$@" >"$work/said" 2>&1; then
            echo "$script: no finding with a $build of kind $kind"
            failed=$((failed + 1))
        elif grep -q "^FINDING $build-1: " "$work/said"; then
            passed=$((passed + 1))
        else
            cat "$work/said"
            failed=$((failed + 1))
        fi
    done
}

try jobs page.rattle
try jobs page.guided
try compiles replay.rattle "$oracle"
try compiles replay.guided "$oracle"
try picks search_replay.rattle
try picks search_replay.guided
echo "$passed passed, $failed failed"
[ "$failed" -eq 0 ]
