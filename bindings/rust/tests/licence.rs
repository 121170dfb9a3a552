// SPDX-License-Identifier: MIT OR Apache-2.0
//! What a host takes into its own tree names the licence, and a packed crate has its words and the notices along.
use std::fs;
use std::path::Path;
use std::process::Command;

const CRATE: &str = env!("CARGO_MANIFEST_DIR");

#[test]
fn each_file_names_it() {
    let kinds = [("include", "h"), ("examples", "c"), ("tests", "c"), ("install", "in"), ("bindings/rust/src", "rs")];
    for (folder, kind) in kinds {
        let files = fs::read_dir(Path::new(CRATE).join("../..").join(folder)).unwrap().map(|entry| entry.unwrap().path());
        let files: Vec<_> = files.filter(|path| path.extension().is_some_and(|e| e == kind)).collect();
        assert!(!files.is_empty(), "{folder}");
        for file in files {
            let text = fs::read_to_string(&file).unwrap();
            let first = text.lines().next().unwrap_or_default();
            assert!(first.contains("SPDX-License-Identifier: MIT OR Apache-2.0"), "{}: {first}", file.display());
        }
    }
}

#[test]
fn the_packed_crate_has_its_words() {
    let manifest = format!("{CRATE}/Cargo.toml");
    let packed =
        Command::new(env!("CARGO")).args(["package", "--list", "--offline", "--allow-dirty", "--manifest-path", &manifest]).output().unwrap();
    let packed = String::from_utf8(packed.stdout).unwrap();
    for name in ["LICENSE-MIT", "LICENSE-APACHE", "NOTICE"] {
        assert!(packed.lines().any(|line| line == name), "{name} is not among {packed}");
        assert_eq!(fs::read(format!("{CRATE}/{name}")).unwrap(), fs::read(format!("{CRATE}/../../{name}")).unwrap());
    }
}
