//! Links librds: the archive in the folder that RDS_LIB_DIR names, or else what pkg-config finds. A relative folder is taken from where
//! cargo was called.

use std::env::{current_dir, var};
use std::path::PathBuf;
use std::process::Command;

/// The folder that RDS_LIB_DIR names.
fn library_folder() -> Option<PathBuf> {
    let called_from = var("PWD").map(PathBuf::from).or_else(|_| current_dir());
    Some(called_from.ok()?.join(var("RDS_LIB_DIR").ok()?))
}

fn main() {
    println!("cargo:rerun-if-env-changed=RDS_LIB_DIR");
    if let Some(folder) = library_folder() {
        let archive = folder.join("librds.a");
        assert!(archive.exists(), "{} is not there: `make lib` builds it", archive.display());
        println!("cargo:rustc-link-search=native={}", folder.display());
        println!("cargo:rustc-link-lib=static=rds");
        println!("cargo:rerun-if-changed={}", archive.display());
        return;
    }
    let found = Command::new("pkg-config").args(["--keep-system-libs", "--libs-only-L", "--libs-only-l", "rds"]).output();
    let Some(found) = found.ok().filter(|it| it.status.success()) else {
        // `cargo doc` and `cargo check` need no library; a program is not linked without it.
        println!("cargo:warning=librds was not found: install it, or name its folder in RDS_LIB_DIR");
        println!("cargo:rustc-link-lib=dylib=rds");
        return;
    };
    for word in String::from_utf8_lossy(&found.stdout).split_whitespace() {
        if let Some(folder) = word.strip_prefix("-L") {
            println!("cargo:rustc-link-search=native={folder}");
        } else if let Some(name) = word.strip_prefix("-l") {
            println!("cargo:rustc-link-lib=dylib={name}");
        }
    }
}
