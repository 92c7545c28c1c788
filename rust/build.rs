//! Links the proved archive, `libpinhkray.a`. PINHKRAY_LIB names another folder that holds it, by a whole path.

use std::path::PathBuf;

fn main() {
    println!("cargo:rerun-if-env-changed=PINHKRAY_LIB");
    let folder = match std::env::var_os("PINHKRAY_LIB") {
        Some(folder) => PathBuf::from(folder),
        None => PathBuf::from(env!("CARGO_MANIFEST_DIR")).join("../target/pinhkray"),
    };
    if !folder.is_absolute() {
        fail(format!(
            "PINHKRAY_LIB is {:?}, and no whole path",
            folder.display().to_string()
        ));
    }
    let archive = folder.join("libpinhkray.a");
    println!("cargo:rerun-if-changed={}", archive.display());
    if !archive.is_file() {
        fail(format!("there is no {}", archive.display()));
    }
    println!("cargo:rustc-link-search=native={}", folder.display());
    println!("cargo:rustc-link-lib=static=pinhkray");
}

fn fail(why: String) -> ! {
    eprintln!("pinhkray: {why}");
    eprintln!("pinhkray: run ./bindings first, which makes target/pinhkray, or let PINHKRAY_LIB name the folder of libpinhkray.a by a whole path");
    std::process::exit(1);
}
