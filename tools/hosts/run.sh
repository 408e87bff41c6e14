#!/usr/bin/env bash
# Builds the hosts in C and Rust over libhost.a, runs them over the gate's jobs and compares their answers with the job program's.
#
# JAMBTULIP_LIB names the folder of libhost.a; without it, target/staticlib, and archive.sh makes the archive if it isn't there.
# HOSTS_DIR names the build folder; without it, jambtulip-hosts below TMPDIR. HOSTS_KIT=1 builds and runs C by the Rattle kit's own
# compiler, linker and C library. The archive is for x86-64, and so is this script.
set -euo pipefail

here=$(cd "$(dirname "${BASH_SOURCE[0]}")" && pwd)
root=$(cd "$here/../.." && pwd)
build=${HOSTS_DIR:-${TMPDIR:-/tmp}/jambtulip-hosts}
export JAMBTULIP_LIB=${JAMBTULIP_LIB:-$root/target/staticlib}
flags=(-std=c11 -O2 -Wall -Wextra -Wpedantic -Werror -I "$root/include")
hosts_c=$root/tools/host-c
started=() # the words that start a C program
status=0

make_archive() {
  [ -f "$JAMBTULIP_LIB/libhost.a" ] || "$here/archive.sh" "$JAMBTULIP_LIB"
}

# A failed comparison doesn't stop the next.
step() {
  "$@" || status=1
}

build_c() { # PROGRAM SOURCE..
  local program=$1
  shift
  cc "${flags[@]}" -o "$build/$program" "${@/#/$hosts_c/}" "$JAMBTULIP_LIB/libhost.a"
}

# The kit has a compiler without headers and a linker that knows its C library.
build_c_by_kit() { # PROGRAM SOURCE..
  local program=$1 source objects=() target=x86_64-unknown-linux-gnu
  shift
  for source; do
    "$kit/toolchain/bin/clang" "--target=$target" -fPIC "${flags[@]}" -isystem "$hosts_c/kit" -c -o "$build/$source.o" "$hosts_c/$source"
    objects+=("$build/$source.o")
  done
  "$kit/bin/rattle-link" --target "$target" --toolchain "$kit/toolchain" -o "$build/$program" "${objects[@]}" "$JAMBTULIP_LIB/libhost.a"
}

use_kit() {
  kit=$(dirname "$(rt doc)")
  started=("$kit/toolchain/lib/ld-linux-x86-64.so.2" --library-path "$kit/toolchain/lib")
}

test_c() { # BUILDER
  "$1" layout layout.c
  "$1" host-c main.c job.c
  step ${started[@]+"${started[@]}"} "$build/layout"
  step python3 "$here/compare.py" 'C, picks of its own' ${started[@]+"${started[@]}"} "$build/host-c"
  step python3 "$here/compare.py" 'C, run_job' ${started[@]+"${started[@]}"} "$build/host-c" --run-job
}

test_rust() {
  local cargo=(--release --offline --quiet --manifest-path "$root/tools/host-rust/Cargo.toml" --target-dir "$build/target")
  step cargo test "${cargo[@]}" --test case_h
  cargo build "${cargo[@]}"
  step python3 "$here/compare.py" 'Rust, picks of its own' "$build/target/release/host-rust"
  step python3 "$here/compare.py" 'Rust, run_job' "$build/target/release/host-rust" --run-job
}

main() {
  [ "$(uname -m)" = x86_64 ] || { echo "run.sh: libhost.a links into x86-64 programs alone" >&2; exit 2; }
  mkdir -p "$build"
  make_archive
  if [ -z "${HOSTS_KIT:-}" ]; then
    test_c build_c
  else
    use_kit
    test_c build_c_by_kit
  fi
  test_rust
  exit "$status"
}

main
