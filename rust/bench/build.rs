//! Links the search by id alone, where its archive stands beside the port's. `rust/test` makes it.

use std::env;
use std::path::PathBuf;

const VARIABLE: &str = "BRAIDHURDLE_ARCHIVE";

fn main() {
    println!("cargo::rustc-check-cfg=cfg(timed)");
    println!("cargo::rerun-if-env-changed={VARIABLE}");
    let here = PathBuf::from(env::var_os("CARGO_MANIFEST_DIR").expect("cargo sets it"));
    let own = here.join("../../target/staticlib");
    let folder = env::var_os(VARIABLE).map_or(own, PathBuf::from);
    let archive = folder.join("libindex_timed.a");
    println!("cargo::rerun-if-changed={}", archive.display());
    if archive.exists() {
        println!("cargo::rustc-cfg=timed");
        println!("cargo::rustc-link-search=native={}", folder.display());
        println!("cargo::rustc-link-lib=static=index_timed");
    }
}
