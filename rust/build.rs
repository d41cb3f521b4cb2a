//! Links the proved archives, libtdisp.a and libtdisp_host.a in ../target/tdisp, which 'make lib' writes. TDISP_LIB_DIR names
//! another folder that holds them.

use std::env;
use std::path::{Path, PathBuf};

fn main() {
    let crate_dir = env::var_os("CARGO_MANIFEST_DIR").expect("cargo sets CARGO_MANIFEST_DIR");
    let dir = match env::var_os("TDISP_LIB_DIR") {
        Some(dir) => PathBuf::from(dir),
        None => Path::new(&crate_dir).join("../target/tdisp"),
    };
    println!("cargo::rerun-if-env-changed=TDISP_LIB_DIR");
    println!("cargo::rustc-link-search=native={}", dir.display());
    for name in ["tdisp", "tdisp_host"] {
        let archive = dir.join(format!("lib{name}.a"));
        println!("cargo::rerun-if-changed={}", archive.display());
        if !archive.is_file() {
            println!("cargo::error={} is missing: 'make lib' in the repository's root builds it", archive.display());
            return;
        }
        println!("cargo::rustc-link-lib=static={name}");
    }
}
