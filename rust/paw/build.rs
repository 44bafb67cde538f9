//! Links `libpaw.a`: the one in the folder that `PAW_LIB_DIR` names, an absolute path, or else the
//! one that `tools/library` has written in this repository.

use std::env;
use std::fs;
use std::path::{Path, PathBuf};

const OVERRIDE: &str = "PAW_LIB_DIR";

fn main() {
    println!("cargo::rerun-if-changed=build.rs");
    println!("cargo::rerun-if-env-changed={OVERRIDE}");
    let archive = archive();
    println!("cargo::rerun-if-changed={}", archive.display());
    if let Err(reason) = link(&archive) {
        println!("cargo::error={reason}");
    }
}

/// Where the library should be. Cargo runs this in the crate's folder, so the path into the
/// repository is relative: a copy of the repository finds its own library.
fn archive() -> PathBuf {
    let folder = env::var_os(OVERRIDE).filter(|name| !name.is_empty());
    folder.map_or("../../target/staticlib".into(), PathBuf::from).join("libpaw.a")
}

/// Links a copy in Cargo's own folder, whose place Cargo knows also where that folder was moved.
fn link(archive: &Path) -> Result<(), String> {
    let set = env::var_os(OVERRIDE).is_some_and(|name| !name.is_empty());
    if set && archive.is_relative() {
        return Err(format!("{OVERRIDE} must be an absolute path"));
    }
    let out = env::var("OUT_DIR").map_err(|error| format!("OUT_DIR: {error}"))?;
    fs::copy(archive, Path::new(&out).join("libpaw.a")).map_err(|error| {
        let advice = if set {
            format!("{OVERRIDE} must name the folder that has it")
        } else {
            format!("run `tools/library` at the root of the repository, or set {OVERRIDE}")
        };
        format!("cannot read {}: {error}; {advice}", archive.display())
    })?;
    println!("cargo::rustc-link-search=native={out}");
    println!("cargo::rustc-link-lib=static=paw");
    Ok(())
}
