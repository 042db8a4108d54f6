//! Links the proved code: libdreichnook.a of `scripts/native dreichnook`.

use std::env::var_os;
use std::path::PathBuf;
use std::process::exit;

/// The folder of the archive, where it isn't the default.
const FOLDER: &str = "DREICHNOOK_NATIVE";

fn main() {
    let here = PathBuf::from(var_os("CARGO_MANIFEST_DIR").unwrap_or_default());
    let folder = here.join(var_os(FOLDER).unwrap_or_else(|| "../../target/native".into()));
    let archive = folder.join("libdreichnook.a");
    println!("cargo:rerun-if-env-changed={FOLDER}");
    println!("cargo:rerun-if-changed={}", archive.display());
    if !archive.is_file() {
        eprintln!("There is no {}.", archive.display());
        eprintln!("Make it at the root of the repository with: scripts/native dreichnook");
        eprintln!("Or name the folder of another libdreichnook.a in {FOLDER}.");
        exit(1);
    }
    println!("cargo:rustc-link-search=native={}", folder.display());
    println!("cargo:rustc-link-lib=static=dreichnook");
}
