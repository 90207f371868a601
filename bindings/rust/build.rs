//! Finds the static library `libexports.a`: in the folder that `JOINTRISE_LIB_DIR` names, or where `bash .ci/library` puts it.

use std::env;
use std::path::PathBuf;

fn main() {
    println!("cargo::rerun-if-env-changed=JOINTRISE_LIB_DIR");
    let folder = match env::var_os("JOINTRISE_LIB_DIR") {
        Some(folder) => PathBuf::from(folder),
        None => PathBuf::from(env::var_os("CARGO_MANIFEST_DIR").expect("cargo sets it"))
            .join("../../target/staticlib"),
    };
    let archive = folder.join("libexports.a");
    println!("cargo::rerun-if-changed={}", archive.display());
    if !archive.is_file() {
        println!(
            "cargo::error={} isn't there: make it by `bash .ci/library`, or name its folder in JOINTRISE_LIB_DIR",
            archive.display()
        );
        return;
    }
    println!("cargo::rustc-link-search=native={}", folder.display());
    println!("cargo::rustc-link-lib=static=exports");
}
