#!/usr/bin/env bash
# Proves and builds the library for C and Rust hosts, and leaves it as libhost.a: archive.sh [FOLDER], without a word in target/staticlib.
#
# `rt lib` makes the archive of the crate host_c, whose exports are the functions of include/jambtulip.h.
set -euo pipefail

root=$(cd "$(dirname "${BASH_SOURCE[0]}")/../.." && pwd)
folder=${1:-$root/target/staticlib}
(cd "$root/crates/host_c" && rt lib) >&2
mkdir -p "$folder"
cp "$root/crates/host_c/out/libhost_c.a" "$folder/libhost.a"
