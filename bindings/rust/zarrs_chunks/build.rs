//! Finds `libzarrs_chunks.a`, and tells the compiler to link it.

use std::env;
use std::path::{Path, PathBuf};
use std::process;

const DIRECTORY: &str = "ZARRS_CHUNKS_LIB_DIR";
const ARCHIVE: &str = "libzarrs_chunks.a";
/// Where the archive lies beside the crate: in a release, and in the repository.
const BESIDE: [&str; 2] = ["../../lib", "../../out/llvm"];

fn main() {
    println!("cargo:rerun-if-changed=build.rs");
    println!("cargo:rerun-if-env-changed={DIRECTORY}");
    match target().and_then(|()| directory()) {
        Ok(directory) => {
            println!("cargo:rerun-if-changed={}", directory.join(ARCHIVE).display());
            println!("cargo:rustc-link-search=native={}", directory.display());
            println!("cargo:rustc-link-lib=static=zarrs_chunks");
        }
        Err(words) => {
            eprintln!("error: {words}");
            process::exit(1);
        }
    }
}

/// The library is built for one target.
fn target() -> Result<(), String> {
    let told = |name: &str| env::var(name).unwrap_or_default();
    let is_fit = told("CARGO_CFG_TARGET_ARCH") == "x86_64"
        && told("CARGO_CFG_TARGET_POINTER_WIDTH") == "64"
        && told("CARGO_CFG_TARGET_OS") == "linux";
    if is_fit {
        return Ok(());
    }
    Err(format!(
        "zarrs_chunks is for 64-bit Linux on x86-64 alone, and the target is {}",
        told("TARGET")
    ))
}

/// The folder that has the archive: the one that is named, or one beside the crate.
fn directory() -> Result<PathBuf, String> {
    if let Some(named) = env::var_os(DIRECTORY) {
        let named = PathBuf::from(named);
        // A relative path would begin at the crate's folder, and not where cargo was called.
        if named.is_absolute() && named.join(ARCHIVE).is_file() {
            return Ok(named);
        }
        return Err(format!(
            "{DIRECTORY} is set to {}, which is no absolute path or has no {ARCHIVE}: \
             set it to the absolute path of the folder that has it",
            named.display()
        ));
    }
    let own = env::var_os("CARGO_MANIFEST_DIR").unwrap_or_default();
    let beside = BESIDE.map(|folder| Path::new(&own).join(folder));
    for folder in &beside {
        if folder.join(ARCHIVE).is_file() {
            return Ok(folder.clone());
        }
    }
    let [release, built] = beside;
    Err(format!(
        "there is no {ARCHIVE} in {} and none in {}: \
         set {DIRECTORY} to the folder that has it, or build it by bindings/build.py",
        release.display(),
        built.display()
    ))
}
