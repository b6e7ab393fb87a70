//! What the build of a linked library does: has the toolchain prove it and write its archive.

use std::path::PathBuf;
use std::process::Command;

/// Links the archive `libNAME.a` of the static library `exporting`.
pub fn link(exporting: &str, name: &str) {
    let manifest = std::env::var_os("CARGO_MANIFEST_DIR").expect("cargo sets it");
    let root = PathBuf::from(manifest).join("../..");
    for source in ["crates.txt", "rust/staticlib.rs"] {
        println!("cargo:rerun-if-changed={}", root.join(source).display());
    }
    // Beside these a crate's folder has what the toolchain keeps, which changes at every run.
    for part in ["src", "specs", "proofs"] {
        for each in std::fs::read_dir(root.join("crates")).expect("the crates are there") {
            let folder = each.expect("a crate").path().join(part);
            if folder.is_dir() {
                println!("cargo:rerun-if-changed={}", folder.display());
            }
        }
    }
    println!("cargo:rerun-if-changed=build.rs");
    let exports = root.join("crates").join(exporting);
    let output = Command::new("rt")
        .arg("lib")
        .current_dir(&exports)
        .output()
        .unwrap_or_else(|e| panic!("the Rattle toolchain's `rt` cannot be run: {e}"));
    assert!(
        output.status.success(),
        "`rt lib` of {exporting} failed:\n{}{}",
        String::from_utf8_lossy(&output.stdout),
        String::from_utf8_lossy(&output.stderr)
    );
    let folder = root.join("target/staticlib");
    let made = exports.join(format!("out/lib{exporting}.a"));
    let kept = folder.join(format!("lib{name}.a"));
    std::fs::create_dir_all(&folder)
        .and_then(|()| std::fs::copy(&made, &kept))
        .unwrap_or_else(|e| panic!("{} cannot be kept: {e}", made.display()));
    println!("cargo:rustc-link-search=native={}", folder.display());
    println!("cargo:rustc-link-lib=static={name}");
}
