//! Links libmarket.a, from the folder that MARKET_DIR names, or from build/ of this repository.
use std::path::PathBuf;

fn main() {
    let usual = PathBuf::from(env!("CARGO_MANIFEST_DIR")).join("../../build");
    let folder = std::env::var("MARKET_DIR").map_or(usual, PathBuf::from);
    println!("cargo:rustc-link-search=native={}", folder.display());
    println!("cargo:rustc-link-lib=static=market");
    println!("cargo:rerun-if-env-changed=MARKET_DIR");
    println!("cargo:rerun-if-changed={}", folder.join("libmarket.a").display());
}
