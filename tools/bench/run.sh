#!/usr/bin/env bash
# Builds the benchmark outside the repository, runs it, and prints its two tables; README.md says how to read them.
#
# JAMBTULIP_LIB names the folder of libhost.a; without it, target/staticlib, and tools/hosts/archive.sh makes the archive if it isn't there.
# BENCH_DIR names the build folder; without it, jambtulip-bench below TMPDIR.
set -euo pipefail

tools=$(cd "$(dirname "${BASH_SOURCE[0]}")/.." && pwd)
root=$(cd "$tools/.." && pwd)
build=${BENCH_DIR:-${TMPDIR:-/tmp}/jambtulip-bench}
export JAMBTULIP_LIB=${JAMBTULIP_LIB:-$root/target/staticlib}

# The oracle's copies of clean.rs are made at build time, so all three packages are built where it is, side by side as they are in tools/.
copy_sources() {
  local package
  for package in host-rust bench; do
    rm -rf "${build:?}/$package"
    cp -R "$tools/$package" "$build/$package"
  done
}

main() {
  [ "$(uname -m)" = x86_64 ] || { echo "run.sh: a time says something only where x86-64 code runs natively" >&2; exit 2; }
  mkdir -p "$build"
  [ -f "$JAMBTULIP_LIB/libhost.a" ] || "$tools/hosts/archive.sh" "$JAMBTULIP_LIB"
  ORACLE_BUILD_DIR=$build/oracle "$tools/oracle/build.sh" >&2
  copy_sources
  cargo build --release --quiet --config "$build/oracle/.cargo/config.toml" --manifest-path "$build/bench/Cargo.toml" --target-dir "$build/target"
  echo "load before: $(cut -d ' ' -f 1-3 /proc/loadavg)" >&2
  "$build/target/release/bench"
  echo "load after: $(cut -d ' ' -f 1-3 /proc/loadavg)" >&2
}

main
