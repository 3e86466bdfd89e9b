//! Links `liblocal_statistics.a` from the folder that the environment variable `LOCAL_STATISTICS_DIR` names, or else from `dist/` of the repository.

use std::env;
use std::path::{Path, PathBuf};

const VARIABLE: &str = "LOCAL_STATISTICS_DIR";
const ARCHIVE: &str = "liblocal_statistics.a";

fn main() {
    let folder = match env::var_os(VARIABLE) {
        Some(folder) => PathBuf::from(folder),
        None => Path::new(env!("CARGO_MANIFEST_DIR")).join("../../dist"),
    };
    let archive = folder.join(ARCHIVE);
    println!("cargo:rerun-if-env-changed={VARIABLE}");
    println!("cargo:rerun-if-changed={}", archive.display());
    let target = |part| env::var(format!("CARGO_CFG_TARGET_{part}")).unwrap_or_default();
    let (processor, system) = (target("ARCH"), target("OS"));
    // Checking the crate and its documentation need no archive; a program that is linked without it lacks the functions ls_..
    if (processor.as_str(), system.as_str()) != ("x86_64", "linux") {
        println!("cargo:warning=the library is for Linux on x86-64: there is none for {system} on {processor}, so no program can be linked");
    } else if !archive.is_file() {
        println!("cargo:warning=there is no {}, so no program can be linked", archive.display());
        println!("cargo:warning=run ./build at the top of the repository, or set {VARIABLE} to the folder that has {ARCHIVE}");
    } else {
        println!("cargo:rustc-link-search=native={}", folder.display());
        println!("cargo:rustc-link-lib=static=local_statistics");
    }
}
