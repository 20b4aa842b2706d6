//! Links the proved library. It is looked for at the path in `WINNATHEY_LIB`, where `packaging/module` writes it in this
//! repository, and by pkg-config; what was looked at is reported if there is none. What is no archive, or one for
//! another machine or system, is an error here and not in the linker.
use std::env;
use std::fs;
use std::path::{Path, PathBuf};
use std::process::Command;

fn main() {
    println!("cargo::rerun-if-env-changed=WINNATHEY_LIB");
    println!("cargo::rerun-if-env-changed=PKG_CONFIG_PATH");
    match found().and_then(|archive| fitting(&archive).map(|()| archive)) {
        Ok(archive) => link(&archive),
        Err(reason) => println!("cargo::error={reason}"),
    }
}

/// The archive: the one that is named, or else the one of this repository, or else the installed one.
fn found() -> Result<PathBuf, String> {
    if let Some(named) = env::var_os("WINNATHEY_LIB") {
        let named = PathBuf::from(named);
        return named.canonicalize().map_err(|error| format!("WINNATHEY_LIB is {}: {error}", named.display()));
    }
    let here = PathBuf::from(env::var_os("CARGO_MANIFEST_DIR").expect("cargo sets it"));
    let built = here.join("../../target/staticlib/libc_api.a");
    println!("cargo::rerun-if-changed={}", built.display());
    built.canonicalize().ok().or_else(installed).ok_or_else(|| {
        "the library was not found: set WINNATHEY_LIB to libwinnathey.a, or install the package so that pkg-config knows \
         winnathey, or run `make` in the repository"
            .to_string()
    })
}

/// The archive of the installed package.
fn installed() -> Option<PathBuf> {
    let told = Command::new("pkg-config").args(["--variable=libdir", "winnathey"]).output().ok()?;
    let folder = String::from_utf8(told.stdout).ok().filter(|_| told.status.success())?;
    // It writes a backslash before a space.
    Path::new(&folder.trim().replace("\\ ", " ")).join("libwinnathey.a").canonicalize().ok()
}

/// Whether the archive's objects are for the machine and the system that the crate is built for: the machine's number
/// stands 18 bytes after the name of the format, `\x7fELF`.
fn fitting(archive: &Path) -> Result<(), String> {
    let bytes = fs::read(archive).map_err(|error| format!("{}: {error}", archive.display()))?;
    if !bytes.starts_with(b"!<arch>\n") {
        return Err(format!("{} is no archive: libwinnathey.a is wanted", archive.display()));
    }
    let Some(object) = bytes.windows(4).position(|part| part == b"\x7fELF") else {
        return Err(format!("{} holds no object file for Linux", archive.display()));
    };
    let machine = bytes.get(object + 18).copied().unwrap_or(0);
    let wanted = env::var("CARGO_CFG_TARGET_ARCH").unwrap_or_default();
    let name = match machine {
        62 => "x86_64",
        183 => "aarch64",
        _ => "another machine",
    };
    if name != wanted {
        return Err(format!("{} is for {name}, and the crate is built for {wanted}", archive.display()));
    }
    let system = env::var("CARGO_CFG_TARGET_OS").unwrap_or_default();
    if matches!(&*system, "windows" | "macos" | "ios") {
        return Err(format!("{} is for Linux, and the crate is built for {system}", archive.display()));
    }
    Ok(())
}

fn link(archive: &Path) {
    let folder = archive.parent().expect("a file has a folder");
    let name = archive.file_name().and_then(|name| name.to_str()).expect("a name in UTF-8");
    println!("cargo::rerun-if-changed={}", archive.display());
    println!("cargo::metadata=archive={}", archive.display());
    println!("cargo::rustc-link-search=native={}", folder.display());
    println!("cargo::rustc-link-lib=static:+verbatim={name}");
}
