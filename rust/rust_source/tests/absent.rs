//! Where the Rust's source is not at hand, what is written over it is built all the same, and says so.

use std::{
    env,
    path::Path,
    process::{Command, Stdio},
};

#[test]
fn without_the_source() {
    let folder = Path::new(env!("CARGO_TARGET_TMPDIR"));
    let status = Command::new(env::var_os("CARGO").unwrap_or("cargo".into()))
        .args(["check", "--quiet", "--offline", "--locked", "--workspace", "--all-targets"])
        .current_dir(Path::new(env!("CARGO_MANIFEST_DIR")).join(".."))
        .env("GINTUBALOS_RUST_SOURCE", folder.join("no-source"))
        .env("CARGO_TARGET_DIR", folder.join("absent"))
        .stdout(Stdio::null())
        .status();
    assert!(status.expect("cargo starts").success());
}
