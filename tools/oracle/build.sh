#!/usr/bin/env bash
# Builds the oracle outside the repository and prints the path of its program, alone on standard output.
#
# ORACLE_BUILD_DIR names the build folder; without it, jambtulip-oracle below TMPDIR. cargo and python3 must be there;
# Debian's crates are installed if they are missing, which needs root and a network.
set -euo pipefail

here=$(cd "$(dirname "${BASH_SOURCE[0]}")" && pwd)
build=${ORACLE_BUILD_DIR:-${TMPDIR:-/tmp}/jambtulip-oracle}
mkdir -p "$build"
build=$(cd "$build" && pwd)
registry=/usr/share/cargo/registry
packages=(librust-fxhash-dev librust-derive-builder-dev)

installed() {
  [ "$(dpkg-query --show --showformat='${db:Status-Status}' "$1" 2>/dev/null)" = installed ]
}

# What clean.rs uses beyond Rust's standard library, with all that this needs in turn.
install_crates() {
  local missing=() package
  for package in "${packages[@]}"; do
    installed "$package" || missing+=("$package")
  done
  [ ${#missing[@]} -eq 0 ] && return
  apt-get update
  DEBIAN_FRONTEND=noninteractive apt-get install --yes --no-install-recommends "${missing[@]}"
}

# Copies each file only if its content differs, so that cargo builds exactly what changed.
copy_sources() {
  local file
  (cd "$here" && find ddo support src Cargo.toml -type f) | while IFS= read -r file; do
    cmp -s "$here/$file" "$build/$file" || install -D -m 644 "$here/$file" "$build/$file"
  done
}

# The copy is what gets compiled, so the copy is what gets checked.
check_ddo() {
  (cd "$build/ddo" && sha256sum --check --strict --quiet SHA256SUMS)
}

# Lets cargo take Debian's crates for those of the usual registry.
write_cargo_config() {
  mkdir -p "$build/.cargo"
  cat >"$build/.cargo/config.toml" <<CONFIG
[source.crates-io]
replace-with = "debian"

[source.debian]
directory = "$registry"

[net]
offline = true
CONFIG
}

main() {
  local tool
  for tool in cargo python3; do
    command -v "$tool" >/dev/null || { echo "build.sh: $tool is needed"; exit 1; }
  done
  install_crates
  copy_sources
  check_ddo
  python3 "$here/patch.py" "$build/ddo/src/implementation/mdd/clean.rs" "$build/patched"
  write_cargo_config
  (cd "$build" && cargo build --release --quiet --target-dir "$build/target")
}

main >&2
echo "$build/target/release/oracle"
