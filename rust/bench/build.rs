//! With the feature `before`: links an earlier static library, whose functions
//! `rust/benchmark before` has renamed, from the folder MIRGUNETH_BEFORE.

use std::env;

fn main() {
    println!("cargo::rerun-if-env-changed=MIRGUNETH_BEFORE");
    if env::var_os("CARGO_FEATURE_BEFORE").is_none() {
        return;
    }
    let folder = env::var("MIRGUNETH_BEFORE").expect("MIRGUNETH_BEFORE names a folder");
    println!("cargo::rerun-if-changed={folder}/libbefore.a");
    println!("cargo::rustc-link-search=native={folder}");
    println!("cargo::rustc-link-lib=static=before");
}
