//! The school's program as a project of its own, which has the crate as a git dependency: what changes in it, and that it
//! builds and prints what it did.

use std::{
    env,
    ffi::OsStr,
    fs,
    io::{stderr, Write},
    path::{Path, PathBuf},
    process::{self, Command},
};

const BEFORE: &str = include_str!("school/before.rs");
const AFTER: &str = include_str!("school/after.rs");

/// The `use` line in its first word, and a `?` at each of two calls.
#[test]
fn what_changes() {
    assert_eq!(BEFORE.lines().count(), AFTER.lines().count());
    let changed: Vec<_> = BEFORE.lines().zip(AFTER.lines()).filter(|(before, after)| before != after).collect();
    let [(original, ours), calls @ ..] = &changed[..] else { panic!("no line changes") };
    assert_eq!((*original, *ours), ("use blackscholes::{", "use gintubalos::{"));
    assert_eq!(calls.len(), 2);
    for (before, after) in calls {
        assert_eq!(before.replace(");", ")?;"), *after);
    }
}

/// A folder that goes away with its owner.
struct Folder(PathBuf);

impl Drop for Folder {
    fn drop(&mut self) {
        // What can't be removed is left: there is nobody to tell.
        let _ = fs::remove_dir_all(&self.0);
    }
}

/// A command in a folder, without what this test's own cargo, git or user has set for it.
fn command(program: &OsStr, folder: &Path) -> Command {
    let mut command = Command::new(program);
    for (name, _) in env::vars_os() {
        if ["CARGO", "GIT_", "GINTUBALOS_"].iter().any(|start| name.as_encoded_bytes().starts_with(start.as_bytes())) {
            command.env_remove(name);
        }
    }
    command.env("GIT_CONFIG_GLOBAL", "/dev/null").env("GIT_CONFIG_NOSYSTEM", "1").current_dir(folder);
    command
}

fn output(command: &mut Command) -> String {
    let output = command.output().expect("it starts");
    assert!(output.status.success(), "{command:?}: {}", String::from_utf8_lossy(&output.stderr));
    String::from_utf8(output.stdout).expect("text")
}

/// Whether a program can be started.
fn at_hand(program: &OsStr) -> bool {
    let starts = Command::new(program).arg("--version").output().is_ok_and(|output| output.status.success());
    if !starts {
        // Past the test's own capture, so that it is seen.
        writeln!(stderr(), "no {} is at hand: no git dependency was tried", program.display()).expect("written");
    }
    starts
}

/// Copies a folder, without what cargo builds there.
fn copy(from: &Path, to: &Path) {
    fs::create_dir_all(to).expect("made");
    for entry in fs::read_dir(from).expect("a folder") {
        let entry = entry.expect("an entry");
        let place = to.join(entry.file_name());
        if !entry.file_type().expect("a type").is_dir() {
            fs::copy(entry.path(), place).expect("copied");
        } else if entry.file_name() != "target" {
            copy(&entry.path(), &place);
        }
    }
}

/// The .cargo/config.toml of the crate's first page, with the folder of the archive that this test is linked with.
fn config() -> String {
    let page = include_str!("../src/lib.rs");
    let (text, _) = page.split_once("```toml\n").and_then(|(_, rest)| rest.split_once("//! ```")).expect("an example");
    let archive = Path::new(env!("GINTUBALOS_ARCHIVE")).canonicalize().expect("the archive");
    let folder = archive.parent().and_then(Path::to_str).expect("its folder");
    assert!(text.contains("/where/libabi.a/is"));
    text.replace("//! ", "").replace("/where/libabi.a/is", folder)
}

fn write(place: PathBuf, text: &str) {
    fs::create_dir_all(place.parent().expect("a folder")).expect("made");
    fs::write(place, text).expect("written");
}

#[test]
fn git_dependency() {
    let (git, cargo) = (OsStr::new("git"), env::var_os("CARGO").unwrap_or("cargo".into()));
    if !at_hand(git) || !at_hand(&cargo) {
        return;
    }
    let folder = Folder(env::temp_dir().join(format!("gintubalos-school-{}", process::id())));
    let (repository, program) = (folder.0.join("repository"), folder.0.join("program"));
    copy(&Path::new(env!("CARGO_MANIFEST_DIR")).join(".."), &repository.join("rust"));
    let author = ["-c", "user.name=school", "-c", "user.email=school@localhost"];
    for words in [&["init", "--quiet"][..], &["add", "--force", "."], &["commit", "--quiet", "-m", "The crate"]] {
        output(command(git, &repository).args(author).args(words));
    }

    let dependency = format!("gintubalos = {{ git = \"file://{}\" }}", repository.display());
    let package = "[package]\nname = \"school\"\nversion = \"1.0.0\"\nedition = \"2021\"\n\n[dependencies]\n";
    write(program.join("Cargo.toml"), &format!("{package}{dependency}\n"));
    write(program.join("src/main.rs"), AFTER);
    write(program.join(".cargo/config.toml"), &config());
    let home = folder.0.join("home");
    output(command(&cargo, &program).arg("build").env("CARGO_HOME", home));
    let printed = output(&mut command(program.join("target/debug/school").as_os_str(), &program));
    assert_eq!(printed, include_str!("school/printed.txt"));
}
