//! Links the proved static library: where REDUCER_LIB_DIR says it is, else that of the repository, else an installed one.

use std::path::{Path, PathBuf};
use std::process::{exit, Command};

const ARCHIVE: &str = "libreducer.a";

/// Where pkg-config says that the library is installed.
fn installed() -> Option<PathBuf> {
    let folder = |name: &str| {
        let output = Command::new("pkg-config").args(["--variable=libdir", name]).output().ok()?;
        let path = String::from_utf8(output.stdout).ok().filter(|_| output.status.success())?;
        Some(PathBuf::from(path.trim())).filter(|folder| folder.join(ARCHIVE).exists())
    };
    ["panjerov", "reducer"].into_iter().find_map(folder)
}

fn folder() -> Option<PathBuf> {
    if let Some(named) = std::env::var_os("REDUCER_LIB_DIR") {
        return Some(named.into());
    }
    let here = std::env::var("CARGO_MANIFEST_DIR").expect("cargo sets it");
    let own = Path::new(&here).join("../../crates/reducer/out");
    // Told also where it is not there yet, so that cargo looks again once it is.
    println!("cargo:rerun-if-changed={}", own.join(ARCHIVE).display());
    if own.join(ARCHIVE).exists() {
        return Some(own);
    }
    installed()
}

fn main() {
    println!("cargo:rerun-if-env-changed=REDUCER_LIB_DIR");
    println!("cargo:rerun-if-env-changed=PKG_CONFIG_PATH");
    let Some(folder) = folder().filter(|folder| folder.join(ARCHIVE).exists()) else {
        eprintln!(
            "there is no {ARCHIVE}: run `rt lib` in the repository's crates/reducer, or say by REDUCER_LIB_DIR in which folder it is"
        );
        exit(1);
    };
    println!("cargo:rerun-if-changed={}", folder.join(ARCHIVE).display());
    println!("cargo:rustc-link-search=native={}", folder.display());
    println!("cargo:rustc-link-lib=static=reducer");
}
