//! Links the archive that `rt lib` makes of crates/capi.

use std::env;
use std::path::{Path, PathBuf};
use std::process::ExitCode;

/// Overrides the folder of the archive.
const FOLDER: &str = "LITRES_ARCHIVE_DIR";

fn main() -> ExitCode {
    println!("cargo::rerun-if-env-changed={FOLDER}");
    let folder = archive_folder();
    let archive = folder.join("libcapi.a");
    println!("cargo::rerun-if-changed={}", archive.display());
    if !archive.is_file() {
        println!(
            "cargo::error=there is no {}: run `rt lib` in crates/capi first, \
             or name the archive's folder in {FOLDER}",
            archive.display()
        );
        return ExitCode::FAILURE;
    }
    // The compiler runs in another folder than this program.
    let folder = folder.canonicalize().expect("the folder of a file has a full path");
    println!("cargo::rustc-link-search=native={}", folder.display());
    println!("cargo::rustc-link-lib=static=capi");
    ExitCode::SUCCESS
}

fn archive_folder() -> PathBuf {
    let usual = || {
        let manifest = env::var_os("CARGO_MANIFEST_DIR").expect("cargo names the crate's folder");
        Path::new(&manifest).join("../../crates/capi/out")
    };
    env::var_os(FOLDER).map_or_else(usual, PathBuf::from)
}
