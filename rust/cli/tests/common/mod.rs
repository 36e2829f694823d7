//! What the tests of the program share; each of their files uses some of it.

#![allow(dead_code)]

use std::{
    fs,
    io::Write,
    path::PathBuf,
    process::{Command, Output, Stdio},
};

pub fn program() -> Command {
    Command::new(env!("CARGO_BIN_EXE_gintubalos"))
}

/// Status, standard output and standard error.
pub fn results(output: Output) -> (i32, String, String) {
    let Output { status, stdout, stderr } = output;
    let text = |bytes| String::from_utf8(bytes).expect("text");
    (status.code().expect("a status"), text(stdout), text(stderr))
}

pub fn output(words: &[&str]) -> (i32, String, String) {
    results(program().args(words).output().expect("the program starts"))
}

/// The same with bytes on standard input.
pub fn output_of(words: &[&str], input: &[u8]) -> (i32, String, String) {
    let piped = Stdio::piped;
    let started = program().args(words).stdin(piped()).stdout(piped()).stderr(piped()).spawn();
    let mut child = started.expect("the program starts");
    child.stdin.take().expect("a pipe").write_all(input).expect("written");
    results(child.wait_with_output().expect("the program ends"))
}

pub fn words(line: &str) -> Vec<&str> {
    line.split_whitespace().collect()
}

/// A place for a file that no other test has; it is not there yet.
pub fn place(name: &str) -> PathBuf {
    let path = PathBuf::from(env!("CARGO_TARGET_TMPDIR")).join(name);
    let _ = fs::remove_file(&path);
    path
}

pub fn record(floats: [f64; 4], limit: u8, kind: u8) -> [u8; 64] {
    let mut record = [0; 64];
    for (i, x) in floats.iter().enumerate() {
        record[8 * i..8 * i + 8].copy_from_slice(&x.to_le_bytes());
    }
    (record[40], record[48]) = (limit, kind);
    record
}
