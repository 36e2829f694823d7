//! Links the archive of the proved functions, which `scripts/archive` writes. GINTUBALOS_ABI is the folder that has it;
//! its default is target/staticlib of the repository.

use std::{env, path::PathBuf, process::exit};

fn main() {
    println!("cargo:rerun-if-changed=build.rs");
    println!("cargo:rerun-if-env-changed=GINTUBALOS_ABI");
    let here = PathBuf::from(env::var("CARGO_MANIFEST_DIR").expect("cargo sets it"));
    // A path that is not absolute is seen from the crate: the linker has another folder.
    let folder = here.join(env::var_os("GINTUBALOS_ABI").unwrap_or("../../target/staticlib".into()));
    let archive = folder.join("libabi.a");
    println!("cargo:rerun-if-changed={}", archive.display());
    if !archive.is_file() {
        println!("cargo:warning=no {}: run `scripts/archive` first, or set GINTUBALOS_ABI", archive.display());
        exit(1);
    }
    // For the test that links it to a C program.
    println!("cargo:rustc-env=GINTUBALOS_ARCHIVE={}", archive.display());
    println!("cargo:rustc-link-search=native={}", folder.display());
    println!("cargo:rustc-link-lib=static=abi");
}
