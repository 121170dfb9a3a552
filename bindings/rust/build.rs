// SPDX-License-Identifier: MIT OR Apache-2.0
//! Finds the archive: in `$SOFA_LIB_DIR`, or where the repository writes it for the target. A build script that depends on the crate is told
//! of its folder as `DEP_SOFA_ROOT` and of the header's as `DEP_SOFA_INCLUDE`.
//!
//! Where there is no archive for the target that is a warning, and `DEP_SOFA_ROOT` is the folder where it was looked for: documentation and
//! checks go on without one, and what has to link stops, since the archive is then not found.
use std::env;
use std::path::{Path, PathBuf};

fn main() {
    println!("cargo:rerun-if-env-changed=SOFA_LIB_DIR");
    let repository = Path::new(&env::var_os("CARGO_MANIFEST_DIR").unwrap_or_default()).join("../..");
    let machine = target("ARCH");
    let given = env::var_os("SOFA_LIB_DIR").map(PathBuf::from);
    let dir = given.unwrap_or_else(|| repository.join("target/lib").join(&machine));
    let dir = dir.canonicalize().unwrap_or(dir);
    let archive = dir.join("libsofa.a");
    println!("cargo:rerun-if-changed={}", archive.display());
    println!("cargo:root={}", dir.display());
    if let Some(include) = header(&dir, &repository) {
        println!("cargo:include={}", include.display());
    }
    if !is_built_for() {
        println!("cargo:warning=libsofa.a is for Linux on x86_64 or aarch64, not for {}", env::var("TARGET").unwrap_or_default());
    } else if !archive.is_file() {
        let ways = format!("run `bin/archive {machine}`, or set SOFA_LIB_DIR; nothing will link");
        println!("cargo:warning={} is not there: {ways}", archive.display());
    } else {
        println!("cargo:rustc-link-search=native={}", dir.display());
    }
    println!("cargo:rustc-link-lib=static=sofa");
}

/// What cargo says of the target.
fn target(key: &str) -> String {
    env::var(format!("CARGO_CFG_TARGET_{key}")).unwrap_or_default()
}

/// Whether `bin/archive MACHINE` writes an archive for the target.
fn is_built_for() -> bool {
    let known = ["x86_64", "aarch64"].contains(&target("ARCH").as_str());
    known && [("OS", "linux"), ("POINTER_WIDTH", "64"), ("ENDIAN", "little")].iter().all(|(key, is)| target(key) == *is)
}

/// The folder of the header: where `make install` puts it beside the archive, or the repository's.
fn header(dir: &Path, repository: &Path) -> Option<PathBuf> {
    let places = [dir.join("../../include/bondaskrig"), dir.join("../include"), repository.join("include")];
    places.iter().find(|place| place.join("sofa.h").is_file())?.canonicalize().ok()
}
