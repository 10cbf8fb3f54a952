//! Finds the archive of the proved index and says how to link it.

use std::path::{Path, PathBuf};
use std::{env, process};

/// Where `tools/archive` writes the archive, seen from this package.
const DEFAULT: &str = "../../target/staticlib/libamiqsovik.a";

fn main() {
    println!("cargo:rerun-if-env-changed=AMIQSOVIK_ARCHIVE");
    let archive = archive();
    println!("cargo:rerun-if-changed={}", archive.display());
    let (Some(folder), Some(name)) = (archive.parent(), library(&archive)) else {
        stop(&archive);
    };
    if !archive.is_file() {
        stop(&archive);
    }
    println!("cargo:rustc-link-search=native={}", folder.display());
    println!("cargo:rustc-link-lib=static={name}");
}

fn archive() -> PathBuf {
    match env::var_os("AMIQSOVIK_ARCHIVE") {
        Some(path) => PathBuf::from(path),
        None => Path::new(&env::var_os("CARGO_MANIFEST_DIR").unwrap_or_default()).join(DEFAULT),
    }
}

/// The name of the library `libNAME.a`.
fn library(archive: &Path) -> Option<&str> {
    archive.file_name()?.to_str()?.strip_prefix("lib")?.strip_suffix(".a")
}

fn stop(archive: &Path) -> ! {
    eprintln!("There is no archive of the proved index at {}.", archive.display());
    eprintln!("Make it with `tools/archive` at the top of the repository,");
    eprintln!("or set AMIQSOVIK_ARCHIVE to the full path of a file libNAME.a that holds it.");
    process::exit(1);
}
