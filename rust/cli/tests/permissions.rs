//! Files that may not be read or written, and folders that may not be entered or added to. Nothing is closed to root:
//! where root runs this test, another user runs the program.

mod common;

use common::{program, results, words};
use std::{
    env,
    fs::{self, Permissions},
    io::{stderr, Write},
    os::unix::{
        fs::{MetadataExt, PermissionsExt},
        process::CommandExt,
    },
    path::{Path, PathBuf},
    process::{self, Command},
};

/// The user and the group that own nothing.
const NOBODY: u32 = 65534;

const FILE: &str = "file BOOK 10 100 95 1 call";

fn allow(path: &Path, mode: u32) {
    fs::set_permissions(path, Permissions::from_mode(mode)).expect("an owner");
}

/// A folder with a copy of the program, a book and a folder with that book in it; it goes away with its owner.
struct Folder(PathBuf);

impl Folder {
    fn new() -> Folder {
        let folder = Folder(env::temp_dir().join(format!("gintubalos-permissions-{}", process::id())));
        fs::create_dir_all(folder.inner()).expect("made");
        allow(&folder.0, 0o755);
        fs::copy(env!("CARGO_BIN_EXE_gintubalos"), folder.program()).expect("copied");
        allow(&folder.program(), 0o755);
        for book in [folder.0.join("book"), folder.inner().join("book")] {
            let filed = program().arg("file").arg(&book).args(["10", "100", "95", "1", "call"]).output();
            assert!(filed.expect("the program starts").status.success());
        }
        folder
    }

    fn inner(&self) -> PathBuf {
        self.0.join("inner")
    }

    fn program(&self) -> PathBuf {
        self.0.join("gintubalos")
    }

    /// The program, run by a user to whom something can be closed.
    fn command(&self, words: &[&str]) -> Command {
        let mut command = Command::new(self.program());
        if fs::metadata("/proc/self").expect("a process").uid() == 0 {
            command.uid(NOBODY).gid(NOBODY);
        }
        command.args(words);
        command
    }

    /// Where the status is 74, the message names the book and the cause, and there is no more.
    fn status(&self, line: &str, book: &Path) -> i32 {
        let name = book.to_str().expect("text");
        let words: Vec<&str> = words(line).into_iter().map(|word| if word == "BOOK" { name } else { word }).collect();
        let (status, out, err) = results(self.command(&words).output().expect("the program starts"));
        if status == 74 {
            let message = format!("gintubalos: {name}: Permission denied (os error 13)\n");
            assert_eq!((out, err), (String::new(), message), "{line}");
        }
        status
    }

    /// Of three commands that read and two that write.
    fn statuses(&self, book: &Path) -> [i32; 5] {
        ["recheck BOOK", "list BOOK", "show BOOK 0", FILE, "file --repair BOOK"].map(|line| self.status(line, book))
    }
}

impl Drop for Folder {
    fn drop(&mut self) {
        // What can't be removed is left: there is nobody to tell.
        let _ = fs::set_permissions(self.inner(), Permissions::from_mode(0o755));
        let _ = fs::remove_dir_all(&self.0);
    }
}

#[test]
fn no_permission() {
    let folder = Folder::new();
    if let Err(error) = folder.command(&["--version"]).output() {
        // Past the test's own capture, so that it is seen.
        writeln!(stderr(), "no other user can run the program here, {error}: nothing was closed").expect("written");
        return;
    }
    let (book, inner) = (folder.0.join("book"), folder.inner().join("book"));
    let bytes = fs::read(&book).expect("a book");
    for (mode, statuses) in [(0, [74; 5]), (0o222, [74; 5]), (0o444, [0, 0, 0, 74, 74])] {
        allow(&book, mode);
        assert_eq!(folder.statuses(&book), statuses, "{mode:o}");
    }
    // A folder that may not be entered, and one that may not be added to.
    allow(&folder.inner(), 0);
    assert_eq!(folder.statuses(&inner), [74; 5]);
    allow(&folder.inner(), 0o555);
    assert_eq!(folder.status(FILE, &folder.inner().join("new")), 74);
    assert_eq!(fs::read_dir(folder.inner()).expect("a folder").count(), 1);
    assert_eq!([book, inner].map(|book| fs::read(book).expect("a book")), [&bytes[..]; 2]);
}
