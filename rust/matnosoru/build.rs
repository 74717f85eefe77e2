//! Links the archive of the proved library for the target that cargo builds for: libmatnosoru.a of the folder MATNOSORU_LIB_DIR, or
//! of the place where tools/native puts it.

use std::env;
use std::path::PathBuf;

fn main() {
    println!("cargo::rerun-if-env-changed=MATNOSORU_LIB_DIR");
    let var = |name: &str| env::var(name).unwrap_or_else(|e| panic!("{name}: {e}"));
    let target = var("TARGET");
    let dir = env::var_os("MATNOSORU_LIB_DIR")
        .map_or_else(|| PathBuf::from(var("CARGO_MANIFEST_DIR")).join("../../target/native").join(&target), PathBuf::from);
    let archive = dir.join("libmatnosoru.a");
    println!("cargo::rerun-if-changed={}", archive.display());
    if !archive.is_file() {
        panic!(
            "there is no {}: run `tools/native matnosoru {target}` at the top of the repository first (`rt ci` removes what it wrote), \
             or name the archive's folder in MATNOSORU_LIB_DIR",
            archive.display()
        );
    }
    println!("cargo::rustc-link-search=native={}", dir.display());
    println!("cargo::rustc-link-lib=static=matnosoru");
}
