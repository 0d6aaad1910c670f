//! Links `libcap.a` from the folder in CAP_LIB_DIR, or from `target/staticlib` at the top of the project.

use std::env;
use std::path::PathBuf;

fn main() {
    println!("cargo::rerun-if-env-changed=CAP_LIB_DIR");
    let folder = match env::var_os("CAP_LIB_DIR") {
        Some(folder) => PathBuf::from(folder),
        None => manifest_folder().join("../../target/staticlib"),
    };
    println!(
        "cargo::rerun-if-changed={}",
        folder.join("libcap.a").display()
    );
    println!("cargo::rustc-link-search=native={}", folder.display());
    println!("cargo::rustc-link-lib=static=cap");
}

/// The folder of this package's manifest.
fn manifest_folder() -> PathBuf {
    PathBuf::from(env::var_os("CARGO_MANIFEST_DIR").expect("cargo names the manifest's folder"))
}
