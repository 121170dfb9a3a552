// SPDX-License-Identifier: MIT OR Apache-2.0
//! The folders of the archive and of the header are handed on: those that the test wants.
use std::{env, path::PathBuf};

fn main() {
    for key in ["ROOT", "INCLUDE"] {
        println!("cargo:rerun-if-env-changed=WANTED_{key}");
        let folder = |name: String| PathBuf::from(env::var_os(&name).unwrap_or_else(|| panic!("{name} is not said")));
        let (told, wanted) = (folder(format!("DEP_SOFA_{key}")), folder(format!("WANTED_{key}")));
        assert_eq!(told, wanted.canonicalize().unwrap_or(wanted), "DEP_SOFA_{key}");
    }
}
