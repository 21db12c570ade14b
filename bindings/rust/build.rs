//! Finds the archive that `rt lib` makes of the crate `foreign` and has it linked.
//!
//! The archive `libforeign.a` is looked for in the folder that the environment
//! variable ENDRUSP_LIB names, or else in `../../crates/foreign/out`. A path that
//! is not absolute starts at the folder of this crate. Without the feature
//! `linked` nothing is looked for and nothing is linked.

use std::env;
use std::path::{Path, PathBuf};

fn main() {
    println!("cargo::rerun-if-changed=build.rs");
    println!("cargo::rerun-if-env-changed=ENDRUSP_LIB");
    if env::var_os("CARGO_FEATURE_LINKED").is_none() {
        return;
    }

    let named = env::var_os("ENDRUSP_LIB").filter(|folder| !folder.is_empty());
    let folder = named.map_or_else(|| PathBuf::from("../../crates/foreign/out"), PathBuf::from);
    let crate_folder = env::var_os("CARGO_MANIFEST_DIR").unwrap_or_default();
    let folder = Path::new(&crate_folder).join(folder);
    let archive = folder.join("libforeign.a");

    println!("cargo::rerun-if-changed={}", archive.display());
    if !archive.is_file() {
        for line in [
            format!("there is no archive {}", archive.display()),
            "`rt lib`, run in the product's folder crates/foreign, makes it".to_string(),
            "or set ENDRUSP_LIB to the folder that holds libforeign.a".to_string(),
            "or build the model alone, which links nothing: --no-default-features".to_string(),
        ] {
            println!("cargo::error={line}");
        }
        return;
    }
    println!("cargo::rustc-link-search=native={}", folder.display());
    println!("cargo::rustc-link-lib=static=foreign");
}
