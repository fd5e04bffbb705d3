//! Finds the archive that the crate stands on: `libdilforec.a`, which bindings/python/link.py makes, or the file that
//! DILFOREC_ARCHIVE names, whatever its name is.
use std::env;
use std::fs;
use std::path::PathBuf;

fn main() {
    println!("cargo:rerun-if-env-changed=DILFOREC_ARCHIVE");
    let folder = |name: &str| PathBuf::from(env::var_os(name).expect("cargo names it"));
    let built = || folder("CARGO_MANIFEST_DIR").join("../out/libdilforec.a");
    let archive = env::var_os("DILFOREC_ARCHIVE").map_or_else(built, PathBuf::from);
    println!("cargo:rerun-if-changed={}", archive.display());
    assert!(archive.is_file(), "{} isn't there: run bindings/python/link.py", archive.display());
    // The linker looks for a name in folders, so a folder of the build has that file alone, by the name.
    let out = folder("OUT_DIR");
    fs::copy(&archive, out.join("libdilforec.a")).expect("the archive can be copied");
    println!("cargo:rustc-link-search=native={}", out.display());
    println!("cargo:rustc-link-lib=static=dilforec");
}
