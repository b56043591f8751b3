//! Tells the linker where the static library lies. `rt lib` in `crates/exports` makes it. It needs nothing but the C
//! library, which Rust links anyway.

use std::env;
use std::path::PathBuf;

fn main() {
    let package = PathBuf::from(env::var("CARGO_MANIFEST_DIR").expect("cargo names the package's folder"));
    let folder = package.join("../../crates/exports/out");
    let archive = folder.join("libexports.a");
    if !archive.exists() {
        eprintln!("{} is missing: run `rt lib` in crates/exports", archive.display());
        std::process::exit(1);
    }
    println!("cargo::rerun-if-changed={}", archive.display());
    println!("cargo::rustc-link-search=native={}", folder.display());
    println!("cargo::rustc-link-lib=static=exports");
}
