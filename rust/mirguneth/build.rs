//! Finds the static library: in the folder that MIRGUNETH_LIB names (an
//! absolute path), or where `rt lib` in `crates/exports` writes it.

use std::env;
use std::path::PathBuf;

fn main() {
    println!("cargo::rerun-if-env-changed=MIRGUNETH_LIB");
    let folder = match env::var_os("MIRGUNETH_LIB") {
        Some(folder) => PathBuf::from(folder),
        None => PathBuf::from(env::var_os("CARGO_MANIFEST_DIR").expect("cargo names the folder"))
            .join("../../crates/exports/out"),
    };
    let library = folder.join("libexports.a");
    println!("cargo::rerun-if-changed={}", library.display());
    if !library.is_file() {
        println!(
            "cargo::error={} is not there: run `rt lib` in crates/exports, or set MIRGUNETH_LIB",
            library.display()
        );
        return;
    }
    println!("cargo::rustc-link-search=native={}", folder.display());
    println!("cargo::rustc-link-lib=static=exports");
}
