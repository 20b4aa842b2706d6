//! Puts the hash of the library's archive into the program, which names it in its reports.
#[path = "src/sha256.rs"]
mod sha256;

use std::env;
use std::fs;
use std::path::PathBuf;

fn main() {
    let archive = archive();
    println!("cargo::rerun-if-env-changed=WINNATHEY_LIB");
    println!("cargo::rerun-if-changed={}", archive.display());
    println!("cargo::rerun-if-changed=src/sha256.rs");
    // If it is missing, the crate that links it says so.
    let hash = fs::read(&archive).map_or("unknown".to_string(), |bytes| sha256::hex(&bytes));
    println!("cargo::rustc-env=WINNATHEY_ARCHIVE_SHA256={hash}");
}

/// The archive that is linked: the one that the crate's build script names, or else where it looks for one.
fn archive() -> PathBuf {
    if let Some(path) = env::var_os("DEP_WINNATHEY_ARCHIVE").or_else(|| env::var_os("WINNATHEY_LIB")) {
        return PathBuf::from(path);
    }
    let here = PathBuf::from(env::var_os("CARGO_MANIFEST_DIR").expect("cargo sets it"));
    here.join("../target/staticlib/libc_api.a")
}
