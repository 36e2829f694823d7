//! What `--version` says: the commit, the kit that proved the library, and the archive's hash.

use std::{env, path::PathBuf, process::Command};

/// The first line that a command prints, or a word where it can't be had.
fn said(program: &str, words: &[&str]) -> String {
    let output = Command::new(program).args(words).output().ok().filter(|output| output.status.success());
    let text = output.and_then(|output| String::from_utf8(output.stdout).ok());
    text.and_then(|text| text.lines().next().map(str::to_owned)).unwrap_or_else(|| "unknown".to_owned())
}

fn main() {
    println!("cargo:rerun-if-changed=build.rs");
    println!("cargo:rerun-if-changed=src");
    println!("cargo:rerun-if-env-changed=GINTUBALOS_ABI");
    let here = PathBuf::from(env::var("CARGO_MANIFEST_DIR").expect("cargo sets it"));
    let folder = here.join(env::var_os("GINTUBALOS_ABI").unwrap_or("../../target/staticlib".into()));
    let archive = folder.join("libabi.a");
    println!("cargo:rerun-if-changed={}", archive.display());
    println!("cargo:rustc-env=GINTUBALOS_COMMIT={}", said("git", &["rev-parse", "--short=12", "HEAD"]));
    println!("cargo:rustc-env=GINTUBALOS_KIT={}", said("rt", &["version"]));
    let hash = said("sha256sum", &[&archive.to_string_lossy()]);
    println!("cargo:rustc-env=GINTUBALOS_HASH={}", hash.split(' ').next().unwrap_or("unknown"));
}
