//! Links the proved code: libtrial.a and libdreichnook.a, of `scripts/native`. Both have the same functions inside, which don't
//! clash: an archive shows only the calls that it lends.

use std::env::var_os;
use std::path::PathBuf;
use std::process::exit;

/// The folder of the archives, where it isn't the default.
const FOLDER: &str = "DREICHNOOK_NATIVE";

fn main() {
    let here = PathBuf::from(var_os("CARGO_MANIFEST_DIR").unwrap_or_default());
    let folder = here.join(var_os(FOLDER).unwrap_or_else(|| "../../target/native".into()));
    println!("cargo:rerun-if-env-changed={FOLDER}");
    println!("cargo:rustc-link-search=native={}", folder.display());
    for name in ["trial", "dreichnook"] {
        let archive = folder.join(format!("lib{name}.a"));
        println!("cargo:rerun-if-changed={}", archive.display());
        if !archive.is_file() {
            eprintln!("There is no {}.", archive.display());
            eprintln!("Make it at the root of the repository with: scripts/native {name}");
            eprintln!("Or name the folder of another lib{name}.a in {FOLDER}.");
            exit(1);
        }
        println!("cargo:rustc-link-lib=static={name}");
    }
}
