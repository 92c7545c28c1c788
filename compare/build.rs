//! Links the proved archive, and tells whether the source that the library is held against is at hand; if it is, links limit.c too.

use std::path::{Path, PathBuf};
use std::process::Command;

/// Compiles limit.c, optimised as this program is. A `switch` by a table of jumps is slower here: the computer mispredicts it.
fn limit(here: &Path) {
    let source = here.join("limit.c");
    let object = PathBuf::from(std::env::var("OUT_DIR").unwrap()).join("limit.o");
    let cc = std::env::var("CC").unwrap_or_else(|_| "cc".to_string());
    let compiled = Command::new(&cc).args(["-std=gnu11", "-O3", "-fPIE", "-fno-jump-tables", "-Wall", "-Wextra", "-c"]).arg(&source).arg("-o").arg(&object).status();
    assert!(compiled.is_ok_and(|status| status.success()), "{cc} does not compile {}", source.display());
    println!("cargo:rustc-link-arg={}", object.display());
    println!("cargo:rerun-if-changed={}", source.display());
    println!("cargo:rerun-if-env-changed=CC");
}

fn main() {
    let here = PathBuf::from(std::env::var("CARGO_MANIFEST_DIR").unwrap());
    let archive = here.join("../target/staticlib");
    println!("cargo:rustc-link-search=native={}", archive.display());
    println!("cargo:rustc-link-lib=static=ffi");
    println!("cargo:rerun-if-changed={}", archive.join("libffi.a").display());

    // FLUX_SOURCE names the folder of the source's files, by a whole path; `upstream` compiles them.
    println!("cargo:rustc-check-cfg=cfg(flux_source)");
    println!("cargo:rerun-if-env-changed=FLUX_SOURCE");
    if std::env::var("FLUX_SOURCE").is_ok() {
        println!("cargo:rustc-cfg=flux_source");
        limit(&here);
    }
}
