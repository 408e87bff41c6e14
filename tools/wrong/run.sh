#!/usr/bin/env bash
# Shows for each wrong definition beside this script (*.wrong) that demand 2 is false under it, and that the check refuses it.
# Each is tried in a scratch copy of the repository. First without the theorems: the prover shows that a statement of crates/demand2/specs is false
# there, from the run of one small input. Then with them, and without the figures of `diagram` and `calls`, which would be refused before: the lemmas that are refused.
# A file *.wrong has the edit, what it breaks and the refutation; head.txt is what every refutation begins with.
# Usage: tools/wrong/run.sh [NAME...]; exit status 0 if every statement is shown false and every check is refused.
set -uo pipefail
here=$(cd "$(dirname "${BASH_SOURCE[0]}")" && pwd)
repository=$(cd "$here/../.." && pwd)
scratch=$(mktemp -d)
trap 'rm -rf "$scratch"' EXIT
failed=0
below="words knapsack diagram layout theorems calls call_laws demand2" # demand2 with all that it leans on

# a copy with the wrong definition, without edits and figures
prepare() {
  rm -rf "$scratch/crates"
  for crate in $below; do
    mkdir -p "$scratch/crates/$crate"
    for part in src specs proofs; do
      [ ! -d "$repository/crates/$crate/$part" ] || cp -r "$repository/crates/$crate/$part" "$scratch/crates/$crate/"
    done
  done
  grep -E "^(${below// /|}):" "$repository/crates.txt" > "$scratch/crates.txt"
  rm -f "$scratch"/crates/diagram/proofs/{Starred,Traps}.antt "$scratch/crates/calls/proofs/Figures.antt"
  sed -i '/pub mod Starred/d; /pub mod Traps/d; /pub mod Figures/d' "$scratch"/crates/{diagram,calls}/proofs/Lib.antt
  python3 - "$1" "$scratch" <<'PYTHON'
import sys
for line in open(sys.argv[1]).read().split('\n\n')[0].splitlines():
    key, value = line.split(': ', 1)
    if key == 'file':
        file = f'{sys.argv[2]}/{value}'
    elif key == 'old':
        old = value
    elif key == 'new':
        text = open(file).read()
        assert text.count(old) == 1, f'{file} has {text.count(old)} places of: {old}'
        open(file, 'w').write(text.replace(old, value))
PYTHON
}

# the refutation in the place of all proofs that could be refused: those of demand 2, the theorems, the laws of the fast bound
only_the_refutation() {
  rm -rf "$scratch"/crates/{theorems,call_laws,demand2/proofs} "$scratch/crates/knapsack/proofs/FastBound.antt"
  sed -i '/pub mod FastBound/d' "$scratch/crates/knapsack/proofs/Lib.antt"
  grep -E '^(words|knapsack|diagram|layout|calls):' "$repository/crates.txt" > "$scratch/crates.txt"
  echo 'demand2: words knapsack diagram layout calls' >> "$scratch/crates.txt"
  mkdir "$scratch/crates/demand2/proofs"
  printf -- '-- A statement refuted.\npub mod Refuted\n' > "$scratch/crates/demand2/proofs/Lib.antt"
  { cat "$here/head.txt"; sed '1,/^$/d' "$1"; } > "$scratch/crates/demand2/proofs/Refuted.antt"
}

check() { (cd "$scratch/crates/demand2" && rt check > "$scratch/said" 2>&1); }

# the declarations that are refused, apart from those that only cite one, in the lowest crate that has any
refused() {
  local crate
  crate=$(sed -nE 's/^rt: the library (\w+) did not build.*/\1/p' "$scratch/said")
  sed -nE 's#^\./([^:]*):[0-9]+:[0-9]+: error: `([^`]*)`: .*#\1 \2#p' "$scratch/said" | sort -u |
    awk -v crate="${crate:-demand2}" '{ at[$1] = at[$1] " " $2 } END { for (file in at) print "  refused in " crate "/" file ":" at[file] }' | sort
}

names=("$@")
[ ${#names[@]} -gt 0 ] || names=($(cd "$here" && ls *.wrong | sed 's/\.wrong$//'))
for name in "${names[@]}"; do
  wrong="$here/$name.wrong"
  echo "$name: $(sed -n 's/^says: //p' "$wrong")"
  if prepare "$wrong" && only_the_refutation "$wrong" && check; then
    echo "  $(sed -n 's/^refutes: //p' "$wrong") is false: $(sed -n 's/^breaks: //p' "$wrong")"
  else
    echo "  NOT shown false"; tail -5 "$scratch/said" | sed 's/^/    /'; failed=1
  fi
  prepare "$wrong"
  if check; then echo "  NOT refused"; failed=1; else refused; fi
done
exit $failed
