//! Where the library is: the folder that WARPLADLE_LIB names, or what pkg-config says of an installed one.
use std::path::Path;
use std::process::{exit, Command};

fn main() {
    println!("cargo:rerun-if-env-changed=WARPLADLE_LIB");
    println!("cargo:rerun-if-env-changed=PKG_CONFIG_PATH");
    match std::env::var("WARPLADLE_LIB").ok().or_else(installed) {
        Some(folder) => link(Path::new(&folder)),
        None => {
            eprintln!("warpladle-sys: there is no libwarpladle: install it (make install), or name its folder in WARPLADLE_LIB");
            exit(1);
        }
    }
}

/// The folder of an installed library.
fn installed() -> Option<String> {
    let said = Command::new("pkg-config").args(["--variable=libdir", "warpladle"]).output().ok()?;
    let folder = String::from_utf8(said.stdout).ok()?.trim().to_string();
    (said.status.success() && !folder.is_empty()).then_some(folder)
}

/// The archive where there is one, else the shared library.
fn link(folder: &Path) {
    let archive = folder.join("libwarpladle.a");
    let kind = if archive.exists() { "static" } else { "dylib" };
    println!("cargo:rerun-if-changed={}", archive.display());
    println!("cargo:rustc-link-search=native={}", folder.display());
    println!("cargo:rustc-link-lib={kind}=warpladle");
    println!("cargo:libdir={}", folder.display());
}
