//! Links the proved library. It is looked for where `rt lib` in `crates/ffi` writes it, or in the
//! folder that the environment variable FINCHCHAISE_LIB names.

use std::path::{Path, PathBuf};
use std::{env, fs};

const WRITTEN_TO: &str = "../../crates/ffi/out";
const ARCHIVE: &str = "libffi.a";

fn main() {
    println!("cargo::rerun-if-env-changed=FINCHCHAISE_LIB");
    let archive = folder().join(ARCHIVE);
    println!("cargo::rerun-if-changed={}", archive.display());
    if archive.is_file() {
        link(&archive);
    } else {
        println!(
            "cargo::error=the proved library is missing: run `rt lib` in crates/ffi, which writes \
             crates/ffi/out/{ARCHIVE}, or set FINCHCHAISE_LIB to the folder that holds it \
             (looked for {})",
            archive.display()
        );
    }
}

fn folder() -> PathBuf {
    match env::var_os("FINCHCHAISE_LIB") {
        Some(folder) => PathBuf::from(folder),
        None => Path::new(env!("CARGO_MANIFEST_DIR")).join(WRITTEN_TO),
    }
}

/// Under a name of its own: many systems have another library that is called ffi.
fn link(archive: &Path) {
    let folder = PathBuf::from(env::var_os("OUT_DIR").expect("cargo names a folder for output"));
    match fs::copy(archive, folder.join("libfinchchaise.a")) {
        Ok(_) => {
            println!("cargo::rustc-link-search=native={}", folder.display());
            println!("cargo::rustc-link-lib=static=finchchaise");
        }
        Err(error) => println!("cargo::error=cannot copy {}: {error}", archive.display()),
    }
}
