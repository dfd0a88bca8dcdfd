//! Tells cargo where the C library is: in the folder that `MINORDER_LIB_DIR` names, else where
//! `pkg-config` finds it, else in the `lib/` of the repository.

use std::env;
use std::fs;
use std::os::unix::fs::symlink;
use std::path::{Path, PathBuf};
use std::process::{exit, Command};

fn main() {
    println!("cargo:rerun-if-changed=build.rs");
    println!("cargo:rerun-if-env-changed=MINORDER_LIB_DIR");
    println!("cargo:rerun-if-env-changed=PKG_CONFIG_PATH");
    let is_static = env::var_os("CARGO_FEATURE_STATIC").is_some();
    let (file, linked) = if is_static {
        ("libminorder.a", "static=minorder")
    } else {
        ("libminorder.so.1", "dylib:+verbatim=libminorder.so.1")
    };
    let found = folder_of(file).and_then(|folder| Ok((link_to(&folder, file)?, folder)));
    let (links, folder) = found.unwrap_or_else(|why| {
        eprintln!("minorder: {why}");
        exit(1)
    });
    println!("cargo:rerun-if-changed={}", folder.join(file).display());
    println!("cargo:rustc-link-search=native={}", links.display());
    println!("cargo:rustc-link-lib={linked}");
    println!("cargo:lib_dir={}", folder.display());
}

/// The folder of the library's file, or why there is none.
fn folder_of(file: &str) -> Result<PathBuf, String> {
    if let Some(named) = env::var_os("MINORDER_LIB_DIR").filter(|named| !named.is_empty()) {
        let folder = PathBuf::from(named);
        return if !folder.is_absolute() {
            Err(format!("MINORDER_LIB_DIR: {} is no absolute path", folder.display()))
        } else if !folder.join(file).is_file() {
            Err(format!("MINORDER_LIB_DIR: {} has no {file}", folder.display()))
        } else {
            Ok(folder)
        };
    }
    let checkout = Path::new(env!("CARGO_MANIFEST_DIR")).join("../../lib");
    installed()
        .into_iter()
        .chain([checkout])
        .find(|folder| folder.join(file).is_file())
        .ok_or_else(|| format!("{file} isn't found: name its folder by MINORDER_LIB_DIR"))
}

/// The folder of an installed library, as pkg-config says it.
fn installed() -> Option<PathBuf> {
    let said = Command::new("pkg-config").args(["--variable=libdir", "minorder"]).output().ok()?;
    let folder = String::from_utf8(said.stdout).ok()?;
    said.status.success().then(|| PathBuf::from(folder.trim_end()))
}

/// A folder below `OUT_DIR` with nothing but a symbolic link to the library's file. `cargo run` and
/// `cargo test` let programs load libraries from there, as from no folder outside of `target/`.
fn link_to(folder: &Path, file: &str) -> Result<PathBuf, String> {
    let links = PathBuf::from(env::var_os("OUT_DIR").ok_or("OUT_DIR isn't set")?);
    let link = links.join(file);
    if link.is_symlink() {
        fs::remove_file(&link).map_err(|why| format!("{}: {why}", link.display()))?;
    }
    symlink(folder.join(file), &link).map_err(|why| format!("{}: {why}", link.display()))?;
    Ok(links)
}
