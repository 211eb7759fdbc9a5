//! Links the archive: the one in the folder that DESK_LIB names, else in target/staticlib, where link/lib puts what `rt lib`
//! in crates/desk_c builds.

use std::env;
use std::path::PathBuf;

fn main() {
    println!("cargo:rerun-if-env-changed=DESK_LIB");
    let named = env::var_os("DESK_LIB").filter(|folder| !folder.is_empty());
    let folder = match named {
        Some(folder) => PathBuf::from(folder),
        None => PathBuf::from(env::var_os("CARGO_MANIFEST_DIR").expect("a manifest folder"))
            .join("../../target/staticlib"),
    };
    let archive = folder.join("libdesk.a");
    if !archive.exists() {
        println!(
            "cargo:warning=no {}: what links it fails",
            archive.display()
        );
    }
    println!("cargo:rerun-if-changed={}", archive.display());
    println!("cargo:rustc-link-search=native={}", folder.display());
    println!("cargo:rustc-link-lib=static=desk");
}
