//! Compiles `src/straight.cpp` with the C++ compiler, `c++` or what `CXX` names, at -O2. If `WINNATHEY_BEFORE` names a
//! clone of the repository at an earlier commit in which `make` was run, its archive is linked as well, under
//! names that begin with `before_`, with its own Rust interface. If `WINNATHEY_ORDER` is a number, all functions are laid
//! out in the order that the linker, lld, makes of that number.
use std::env;
use std::fs;
use std::path::{Path, PathBuf};
use std::process::Command;

fn run(command: &mut Command) {
    let status = command.status();
    assert!(status.as_ref().is_ok_and(|status| status.success()), "{command:?}: {status:?}");
}

fn main() {
    println!("cargo::rustc-check-cfg=cfg(before)");
    println!("cargo::rerun-if-changed=src/straight.cpp");
    println!("cargo::rerun-if-env-changed=CXX");
    println!("cargo::rerun-if-env-changed=WINNATHEY_BEFORE");
    println!("cargo::rerun-if-env-changed=WINNATHEY_ORDER");
    let folder = PathBuf::from(env::var_os("OUT_DIR").expect("cargo sets it"));
    println!("cargo::rustc-link-search=native={}", folder.display());
    compile(&folder);
    match env::var_os("WINNATHEY_BEFORE") {
        Some(clone) => link_before(&PathBuf::from(clone), &folder),
        None => println!("cargo::rustc-env=WINNATHEY_COMMIT_BEFORE="),
    }
    if let Ok(order) = env::var("WINNATHEY_ORDER") {
        println!("cargo::rustc-link-arg-bins=-Wl,--shuffle-sections=.text*={order}");
    }
}

fn compile(folder: &Path) {
    let (object, archive) = (folder.join("straight.o"), folder.join("libstraight.a"));
    let compiler = env::var_os("CXX").unwrap_or("c++".into());
    run(Command::new(compiler)
        .args(["-std=c++11", "-O2", "-fPIC", "-ffunction-sections", "-c", "src/straight.cpp", "-o"])
        .arg(&object));
    run(Command::new("ar").arg("crs").arg(&archive).arg(&object));
    println!("cargo::rustc-link-lib=static=straight");
    println!("cargo::rustc-link-lib=dylib=stdc++");
}

fn link_before(clone: &Path, folder: &Path) {
    let (from, to) = (clone.join("target/staticlib/libc_api.a"), folder.join("libbefore.a"));
    let folders = ["bindings/rust", "outside/winnathey"]; // the second until 0.9.0
    let interface = folders.map(|folder| clone.join(folder).join("src/raw.rs")).into_iter().find(|file| file.exists());
    let interface = interface.unwrap_or_else(|| panic!("{} has no src/raw.rs in {folders:?}", clone.display()));
    println!("cargo::rerun-if-changed={}", from.display());
    println!("cargo::rerun-if-changed={}", interface.display());
    run(Command::new("objcopy").arg("--prefix-symbols=before_").arg(&from).arg(&to));
    // What the archive takes from the C library keeps its name.
    let shared = ["memcpy", "memmove", "memset", "memcmp", "bcmp"];
    run(Command::new("objcopy").args(shared.map(|name| format!("--redefine-sym=before_{name}={name}"))).arg(&to));
    let text = fs::read_to_string(&interface).unwrap_or_else(|error| panic!("{}: {error}", interface.display()));
    let lines: Vec<&str> = text.lines().filter(|line| !line.starts_with("//!")).collect();
    fs::write(folder.join("before.rs"), lines.join("\n").replace("winnathey_", "before_winnathey_"))
        .expect("cargo's folder can be written");
    let commit = Command::new("git").arg("-C").arg(clone).args(["rev-parse", "--short", "HEAD"]).output();
    let commit = commit.ok().and_then(|output| String::from_utf8(output.stdout).ok()).unwrap_or_default();
    println!("cargo::rustc-env=WINNATHEY_COMMIT_BEFORE={}", commit.trim());
    println!("cargo::rustc-cfg=before");
    println!("cargo::rustc-link-lib=static=before");
}
