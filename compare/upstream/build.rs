//! Finds the source's files, if they are at hand.

use std::path::PathBuf;

const FILES: [(&str, &str); 3] = [("SEXP_RS", "sexp.rs"), ("PARSER_RS", "parser.rs"), ("CONSTRAINT_RS", "constraint.rs")];

fn main() {
    // FLUX_SOURCE names the folder of the source's files, by a whole path.
    println!("cargo:rustc-check-cfg=cfg(flux_source)");
    println!("cargo:rerun-if-env-changed=FLUX_SOURCE");
    let Ok(source) = std::env::var("FLUX_SOURCE") else { return };
    println!("cargo:rustc-cfg=flux_source");
    let folder = PathBuf::from(source);
    for (name, file) in FILES {
        let path = folder.join(file).canonicalize().unwrap_or_else(|e| panic!("FLUX_SOURCE: {file}: {e}"));
        println!("cargo:rustc-env={name}={}", path.display());
        println!("cargo:rerun-if-changed={}", path.display());
    }
}
