//! For the bin `against` alone: a library with tables of literals, named by OLD_LIBRARY, its symbols put behind `old_`.

use std::path::Path;
use std::process::Command;

const PREFIX: &str = "old_";
/// What the library may ask of the C library.
const OF_C: [&str; 4] = ["memset", "memcpy", "memmove", "memcmp"];

fn objcopy(arguments: &[&str]) {
    let done = Command::new("objcopy").args(arguments).status().expect("objcopy, of binutils, is not there");
    assert!(done.success(), "objcopy failed");
}

fn main() {
    println!("cargo:rustc-check-cfg=cfg(old_library)");
    println!("cargo:rerun-if-env-changed=OLD_LIBRARY");
    let Ok(old) = std::env::var("OLD_LIBRARY") else { return };
    println!("cargo:rerun-if-changed={old}");
    let out = std::env::var("OUT_DIR").expect("cargo sets it");
    let renamed = Path::new(&out).join("libold.a");
    let renamed = renamed.to_str().expect("a path of text");
    objcopy(&["--prefix-symbols", PREFIX, &old, renamed]);
    for name in OF_C {
        objcopy(&["--redefine-sym", &format!("{PREFIX}{name}={name}"), renamed]);
    }
    println!("cargo:rustc-cfg=old_library");
    println!("cargo:rustc-link-arg-bin=against={renamed}");
}
