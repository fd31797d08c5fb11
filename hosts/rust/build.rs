//! Links the proved library. In the repository that is `target/staticlib/libexports.a`, which is made first where it is
//! missing; anywhere else it is the installed library that `pkg-config` knows.

use std::env;
use std::fs;
use std::path::{Path, PathBuf};
use std::process::Command;
use std::time::SystemTime;

/// The version of this package, and the oldest of the library.
const VERSION: &str = env!("CARGO_PKG_VERSION");

fn main() {
    let package = PathBuf::from(env::var_os("CARGO_MANIFEST_DIR").expect("Cargo gives the package's folder"));
    let root = package.join("../..");
    if package.ends_with("hosts/rust") && root.join("crates/exports").exists() {
        link_built(&root);
    } else {
        link_installed();
    }
}

/// Links the archive of the repository. Warns where it is older than the crates.
fn link_built(root: &Path) {
    let folder = root.join("target/staticlib");
    let archive = folder.join("libexports.a");
    if !archive.exists() {
        make_archive(root);
    } else if newest(&root.join("crates")) > changed(&archive) {
        println!("cargo:warning=crates are newer than target/staticlib/libexports.a: run `hosts/built exports`");
    }
    println!("cargo:rerun-if-changed={}", archive.display());
    println!("cargo:rerun-if-changed={}", root.join("crates").display());
    println!("cargo:rustc-link-search=native={}", folder.display());
    println!("cargo:rustc-link-lib=static=exports");
}

/// Links the installed archive, which may not be older than this package.
fn link_installed() {
    for variable in ["PKG_CONFIG_PATH", "PKG_CONFIG_LIBDIR"] {
        println!("cargo:rerun-if-env-changed={variable}");
    }
    pkg_config(&format!("--atleast-version={VERSION}"));
    // In a folder that was moved, pkg-config quotes spaces.
    let folder = pkg_config("--variable=libdir").replace("\\ ", " ");
    println!("cargo:rustc-link-search=native={}", folder.trim_end());
    println!("cargo:rustc-link-lib=static=tickdrizzle");
}

/// What `pkg-config` says of the library.
fn pkg_config(asked: &str) -> String {
    let output = Command::new("pkg-config").args([asked, "tickdrizzle"]).output();
    let output = output.expect("pkg-config is not installed: install Debian's package pkg-config");
    let known = output.status.success();
    assert!(known, "pkg-config knows no tickdrizzle {VERSION} or newer: install it, or set PKG_CONFIG_PATH to where tickdrizzle.pc is");
    String::from_utf8(output.stdout).expect("the folder's name is UTF-8")
}

/// When the newest source below a folder was changed.
fn newest(folder: &Path) -> Option<SystemTime> {
    let entries = fs::read_dir(folder).ok()?.filter_map(Result::ok).map(|entry| entry.path());
    let of_entry = |path: PathBuf| match path.extension() {
        // What rt builds of a crate holds copies of its sources.
        _ if path.ends_with("out") => None,
        _ if path.is_dir() => newest(&path),
        Some(ending) if ending == "rt" || ending == "antt" => changed(&path),
        _ => None,
    };
    entries.filter_map(of_entry).max()
}

/// When a file was changed.
fn changed(path: &Path) -> Option<SystemTime> {
    path.metadata().and_then(|data| data.modified()).ok()
}

/// Proves the library and writes its archive, which takes some minutes.
fn make_archive(root: &Path) {
    let done = Command::new(root.join("hosts/built")).arg("exports").status();
    let made = done.is_ok_and(|status| status.success());
    assert!(made, "target/staticlib/libexports.a is missing: run `hosts/built exports` in the root of the repository");
}
