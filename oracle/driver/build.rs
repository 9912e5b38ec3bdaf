// SPDX-FileCopyrightText: 2026 The PPVM Authors
// SPDX-License-Identifier: Apache-2.0

//! Links the port's static library into the driver: the one that PEBBLELINEN_LIB names, or else the
//! one that the repository builds.

use std::path::{Path, PathBuf};

fn main() {
    println!("cargo::rerun-if-env-changed=PEBBLELINEN_LIB");
    let library = match std::env::var_os("PEBBLELINEN_LIB") {
        Some(path) => PathBuf::from(path),
        None => Path::new(env!("CARGO_MANIFEST_DIR")).join("../../target/shared/libpebblelinen.a"),
    };
    let library = library.canonicalize().unwrap_or_else(|error| {
        panic!("the port's library {}: {error}", library.display());
    });
    let folder = library.parent().expect("a file has a folder");
    let file = library.file_name().expect("a file has a name");
    println!("cargo::rerun-if-changed={}", library.display());
    println!("cargo::rustc-link-search=native={}", folder.display());
    println!("cargo::rustc-link-lib=static:+verbatim={}", file.display());
}
