//! Tells the linker where the proved library is that `scripts/install` has put under a prefix: pkg-config knows.

use std::process::Command;

fn main() {
    println!("cargo:rerun-if-env-changed=PKG_CONFIG_PATH");
    let folder = installed().expect(
        "pkg-config knows no zemrukste: run scripts/install PREFIX and set PKG_CONFIG_PATH to PREFIX/lib/pkgconfig",
    );
    println!("cargo:rerun-if-changed={folder}/libzemrukste.a");
    println!("cargo:rustc-link-search=native={folder}");
    println!("cargo:rustc-link-lib=static=zemrukste");
}

/// The folder of the installed library.
fn installed() -> Option<String> {
    let asked = Command::new("pkg-config").args(["--variable=libdir", "zemrukste"]).output().ok()?;
    let folder = String::from_utf8(asked.stdout).ok()?.trim().to_string();
    (asked.status.success() && !folder.is_empty()).then_some(folder)
}
