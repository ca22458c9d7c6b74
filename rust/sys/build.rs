//! Finds the proved library and says so to the linker.

use std::{env, path::PathBuf, process::ExitCode};

/// The name that the linker is given, and the file that it then looks for.
const NAME: &str = "inscjarol";
const FILE: &str = "libinscjarol.a";

/// The folder of the library: `INSCJAROL_LIB`, or where `tools/libraries` writes it.
fn folder() -> PathBuf {
    match env::var_os("INSCJAROL_LIB") {
        Some(folder) => PathBuf::from(folder),
        None => {
            let here = env::var_os("CARGO_MANIFEST_DIR").unwrap_or_default();
            PathBuf::from(here).join("../../target/staticlib")
        }
    }
}

fn main() -> ExitCode {
    let folder = folder();
    let file = folder.join(FILE);
    println!("cargo:rerun-if-env-changed=INSCJAROL_LIB");
    println!("cargo:rerun-if-changed={}", file.display());
    println!("cargo:rerun-if-changed=build.rs");
    if !file.is_file() {
        eprintln!(
            "{} is not there: run `tools/libraries` in the repository's folder, which proves and writes it, or set \
             INSCJAROL_LIB to the folder that has {FILE}",
            file.display()
        );
        return ExitCode::FAILURE;
    }
    let folder = folder.canonicalize().unwrap_or(folder);
    println!("cargo:rustc-link-search=native={}", folder.display());
    println!("cargo:rustc-link-lib=static={NAME}");
    ExitCode::SUCCESS
}
