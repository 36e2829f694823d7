//! The scripts at the repository's root, in a tree in which nothing is built: what they say without building.

use std::{
    fs,
    os::unix::fs::symlink,
    path::{Path, PathBuf},
    process::Command,
};

const HELP: &str = include_str!("../src/help.txt");

/// A copy of the scripts and what they read, in a folder of its own.
fn tree(name: &str) -> PathBuf {
    let tree = PathBuf::from(env!("CARGO_TARGET_TMPDIR")).join(name);
    let root = Path::new(env!("CARGO_MANIFEST_DIR")).join("../..");
    let _ = fs::remove_dir_all(&tree);
    for file in ["gintubalos", "relist", "test", "scripts/build", "rust/Cargo.toml", "rust/cli/src/help.txt"] {
        let place = tree.join(file);
        fs::create_dir_all(place.parent().expect("a folder")).expect("made");
        fs::copy(root.join(file), place).expect("copied");
    }
    tree
}

/// Status, standard output and standard error of a line of the shell in the tree.
fn shell(tree: &Path, line: &str) -> (i32, String, String) {
    let output = Command::new("bash").args(["-c", line]).current_dir(tree).output().expect("bash starts");
    let text = |bytes| String::from_utf8(bytes).expect("text");
    (output.status.code().expect("a status"), text(output.stdout), text(output.stderr))
}

#[test]
fn help_and_version_build_nothing() {
    let tree = tree("help");
    for line in ["./gintubalos --help", "./gintubalos -h", "./gintubalos help", "./gintubalos solve --help"] {
        assert_eq!(shell(&tree, line), (0, HELP.to_owned(), String::new()), "{line}");
    }
    let (status, out, _) = shell(&tree, "./gintubalos --version");
    assert!(status == 0 && out.starts_with("gintubalos 0."), "{out}");
    assert!(out.contains("\ncommit   ") && out.contains("\nkit      "), "{out}");
    assert!(out.ends_with("\narchive  not built yet\n"), "{out}");
    assert!(shell(&tree, "./relist --help").1.starts_with("relist [FILE]\n"));
    assert!(shell(&tree, "./test --help").1.starts_with("test [--quick]\n"));
    assert!(!tree.join("target").exists() && !tree.join("rust/target").exists());
}

#[test]
fn wrong_lines_build_nothing() {
    let tree = tree("wrong");
    for line in [
        "./gintubalos",
        "./gintubalos price",
        "./gintubalos solve 1 1 1 1",
        "./gintubalos solve 1 1 1 1 put 1",
        "./gintubalos solve 1 1 1 1 put --trail",
        "./gintubalos solve 1 1 1 1 put --limit",
        "./gintubalos range 1 1 1 1 put",
        "./gintubalos range 1 1 1 1 1 put 1",
        "./gintubalos range 1 1 1 1 1 put --all",
        "./gintubalos range 1 1 1 1 1 put --limit",
        "./gintubalos black 1 1 1 1 put --limit 2",
        "./gintubalos solve 1 1 1 1 put --rules",
        "./gintubalos black 1 1 1 1 put --rules 1",
        "./gintubalos file --repair book --rules 0",
        "./gintubalos list book --rules=0",
        "./gintubalos file --repair book --limit 2",
        "./gintubalos list book --all",
        "./gintubalos demo now",
        "./gintubalos --version now",
        "./gintubalos file --repair",
        "./gintubalos recheck --jobs 2",
        "./gintubalos show -- --repair",
        "./gintubalos board now",
        "./gintubalos board --all",
        "./gintubalos packed",
        "./gintubalos packed read",
        "./gintubalos packed write",
        "./gintubalos packed write --",
        "./gintubalos packed reed 000000000125000C",
        "./gintubalos packed 12.5",
        "./gintubalos packed 12.5 write",
        "./gintubalos packed '' 12.5",
        "./gintubalos packed write 12.5 --bits",
        "./gintubalos packed write --12.5",
        "./gintubalos sqrt",
        "./gintubalos sqrt 2 3",
        "./gintubalos sqrt 2 --bits",
        "./gintubalos sqrt 2 --steps=9",
        "./gintubalos black 1 1 1 1 put --steps",
        "./relist one two",
        "./relist --all",
        "./test --fast",
        "./test --quick --quick",
    ] {
        let (status, out, err) = shell(&tree, line);
        assert_eq!((status, &*out), (64, ""), "{line}");
        assert!(err.contains("--help"), "{line}: {err}");
    }
    for (line, expected) in [
        ("./relist missing", 1),
        ("./relist -- --missing", 1),
        ("./relist scripts", 1),
        ("./relist --help >/dev/full", 1),
        ("./test --help >/dev/full", 1),
        ("./gintubalos --help >/dev/full", 74),
        ("./gintubalos --version >/dev/full", 74),
        ("./gintubalos --help >&-", 74),
        ("./gintubalos list - <&-", 74),
        ("./gintubalos board <&-", 74),
    ] {
        let (status, out, err) = shell(&tree, line);
        assert!(status == expected && out.is_empty() && !err.is_empty(), "{line}: {status} {err}");
    }
    assert!(!tree.join("target").exists() && !tree.join("rust/target").exists());
}

/// A link to a script finds what stands beside the script.
#[test]
fn links() {
    let tree = tree("links");
    let elsewhere = tree.join("elsewhere");
    fs::create_dir(&elsewhere).expect("made");
    symlink("../gintubalos", elsewhere.join("volatility")).expect("linked");
    assert_eq!(shell(&elsewhere, "./volatility --help"), (0, HELP.to_owned(), String::new()));
}

/// relist's statuses, with small programs in the place of the proved one.
#[test]
fn statuses_of_relist() {
    let tree = tree("relist");
    for (program, line, expected) in [
        ("cat", "./relist relist", (0, "")),
        ("cat", "./relist - < relist", (0, "")),
        ("echo problem >&2", "./relist relist", (1, "problem\n")),
        ("yes", "./relist relist | true; exit ${PIPESTATUS[0]}", (1, "")),
    ] {
        let made = [
            "mkdir -p target/bin crates/{elementary,prices,solver,relist}/src",
            &format!("printf '#!/bin/sh\\n{program}\\n' > target/bin/relist"),
            "chmod +x target/bin/relist",
        ];
        assert_eq!(shell(&tree, &made.join(" && ")).0, 0);
        let (status, _, err) = shell(&tree, line);
        assert_eq!((status, &*err), expected, "{program}: {line}");
    }
}

/// A right command line goes on to build, which without Rattle's kit and cargo is told and nothing more.
#[test]
fn right_lines_build() {
    let tree = tree("right");
    // What the script needs, and neither rt nor cargo.
    let tools = "mkdir tools; for t in bash cat dirname env find grep mkdir readlink tail tee; do \
                 ln -s \"$(command -v $t)\" tools/$t; done";
    assert_eq!(shell(&tree, tools).0, 0);
    for line in [
        "demo",
        "solve 10 100 95 1 call --limit 10 --steps",
        "solve -- 10 100 95 1 call",
        "range 9.5 10.5 100 95 1 call",
        "range --limit=10 9.5 10.5 100 95 1 call --steps --bits",
        "range --limit 10 9.5 10.5 100 95 1 put",
        "black 100 95 0.2 1 put",
        "solve 120 200 100 1 call --rules 1",
        "range --rules=1 99 120 200 100 1 call",
        "file book --rules 1 120 200 100 1 call --limit 9",
        "recheck book --rules 1",
        "file book --limit=1 10 100 95 1 call",
        "file --repair book",
        "recheck one two three --jobs 1 --all",
        "list -",
        "show book 1",
        "board",
        "packed read 000000000125000C",
        "packed read 000000000125000C 000000000125000D one",
        "packed write -12.5",
        "packed write 12.5 -inf 0x3FF0000000000000 4",
        "packed write -- -12.5",
        "packed -- write 12.5",
        "sqrt 2",
        "sqrt -2 --steps",
        "sqrt --steps -- -inf",
    ] {
        let (status, out, err) = shell(&tree, &format!("PATH=$PWD/tools bash ./gintubalos {line}"));
        assert_eq!((status, &*out), (74, ""), "{line}: {err}");
        assert!(err.starts_with("gintubalos: proving and building the library"), "{line}: {err}");
    }
}
