//! The build script: which library it links, and what it reports if there is none that fits.
use std::env;
use std::fs;
use std::path::{Path, PathBuf};
use std::process::Command;

/// The build script as a program in a folder of its own.
fn script() -> (PathBuf, PathBuf) {
    let folder = Path::new(env!("CARGO_TARGET_TMPDIR")).join("build_script");
    fs::create_dir_all(&folder).unwrap();
    let program = folder.join("script");
    let source = Path::new(env!("CARGO_MANIFEST_DIR")).join("build.rs");
    let compiler = env::var_os("RUSTC").unwrap_or_else(|| "rustc".into());
    let compiled =
        Command::new(compiler).args(["--edition", "2024", "-o"]).arg(&program).arg(source).status().expect("rustc");
    assert!(compiled.success());
    (folder, program)
}

/// An archive with the front of an object for this machine, by its number.
fn archive(machine: u8) -> Vec<u8> {
    let mut bytes = b"!<arch>\n\x7fELF".to_vec();
    bytes.extend([0; 14]);
    bytes.extend([machine, 0]);
    bytes
}

#[test]
fn what_does_not_fit_is_reported() {
    let (folder, program) = script();
    let said = |archive: &Path, system: &str| {
        let output = Command::new(&program)
            .env("WINNATHEY_LIB", archive)
            .env("CARGO_CFG_TARGET_ARCH", "x86_64")
            .env("CARGO_CFG_TARGET_OS", system)
            .output()
            .unwrap();
        String::from_utf8(output.stdout).unwrap()
    };
    let written = |name: &str, bytes: &[u8]| {
        let path = folder.join(name);
        fs::write(&path, bytes).unwrap();
        path.canonicalize().unwrap()
    };

    let right = written("right.a", &archive(62));
    let linked = said(&right, "linux");
    assert!(linked.contains("cargo::rustc-link-lib=static:+verbatim=right.a"), "{linked}");
    assert!(!linked.contains("cargo::error"), "{linked}");

    let refused = |path: &Path, system: &str, reason: &str| {
        let said = said(path, system);
        let expected = format!("cargo::error={}{reason}\n", path.display());
        assert!(said.contains(&expected) && !said.contains("rustc-link-lib"), "{said}");
    };
    refused(&right, "windows", " is for Linux, and the crate is built for windows");
    refused(&written("arm.a", &archive(183)), "linux", " is for aarch64, and the crate is built for x86_64");
    refused(&written("other.a", &archive(3)), "linux", " is for another machine, and the crate is built for x86_64");
    refused(&written("wasm.a", b"!<arch>\n\0asm"), "linux", " holds no object file for Linux");
    refused(&written("shared.so", &archive(62)[8..]), "linux", " is no archive: libwinnathey.a is wanted");

    let none = folder.join("none.a");
    let said = said(&none, "linux");
    assert!(said.contains(&format!("cargo::error=WINNATHEY_LIB is {}: ", none.display())), "{said}");
}
