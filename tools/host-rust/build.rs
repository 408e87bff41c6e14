//! Tells cargo where libhost.a is: in the folder that JAMBTULIP_LIB names, or where tools/hosts/archive.sh leaves it.

use std::env;
use std::path::PathBuf;

fn main() {
    println!("cargo::rerun-if-env-changed=JAMBTULIP_LIB");
    let here = PathBuf::from(env::var_os("CARGO_MANIFEST_DIR").expect("cargo names the package's folder"));
    let folder = env::var_os("JAMBTULIP_LIB").map_or(here.join("../../target/staticlib"), PathBuf::from);
    println!("cargo::rerun-if-changed={}", folder.join("libhost.a").display());
    println!("cargo::rustc-link-search=native={}", folder.display());
    println!("cargo::rustc-link-lib=static=host");
}
