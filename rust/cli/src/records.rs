//! The records of a file, or of standard input, which is called `-`.

use crate::{
    book_file::{BookFile, RECORD},
    failure::Failure,
};
use std::{
    fs::{self, File},
    io::{self, Read},
    os::fd::AsFd,
    path::{Path, PathBuf},
};

/// So many records are read at a time.
pub const BLOCK: usize = 256;

pub struct Records {
    path: PathBuf,
    source: Box<dyn Read + Send>,
    /// The number of the next record.
    next: u64,
}

/// Some records in a row, and the number of the first. The last one of a file may be a part.
pub struct Block {
    pub first: u64,
    pub bytes: Vec<u8>,
}

impl Block {
    /// Each record with its number, and a last part as it is.
    pub fn records(&self) -> impl Iterator<Item = (u64, &[u8])> {
        (self.first..).zip(self.bytes.chunks(RECORD as usize))
    }
}

pub fn is_input(path: &Path) -> bool {
    path == Path::new("-")
}

/// Standard input as a file: std's own takes one that is not open for reading for one that is empty.
pub fn input() -> io::Result<File> {
    io::stdin().as_fd().try_clone_to_owned().map(File::from)
}

/// How a file is named to the user.
pub fn name(path: &Path) -> String {
    if is_input(path) {
        "standard input".to_owned()
    } else {
        path.display().to_string()
    }
}

/// The file's records, a part among them; 0 where that isn't known.
pub fn count(path: &Path) -> u64 {
    if is_input(path) {
        return 0;
    }
    fs::metadata(path).map_or(0, |metadata| metadata.len().div_ceil(RECORD))
}

impl Records {
    pub fn open(path: &Path) -> Result<Records, Failure> {
        let source: Box<dyn Read + Send> = if is_input(path) {
            Box::new(input().map_err(Failure::file(name(path)))?)
        } else {
            Box::new(BookFile::to_read(path)?)
        };
        Ok(Records { path: name(path).into(), source, next: 0 })
    }

    /// Of a book in memory.
    pub fn of(book: &'static [u8]) -> Records {
        Records { path: "the book".into(), source: Box::new(book), next: 0 }
    }

    /// The next records, none at the end.
    pub fn block(&mut self) -> Result<Option<Block>, Failure> {
        let mut bytes = Vec::with_capacity(BLOCK * RECORD as usize);
        let most = BLOCK as u64 * RECORD;
        self.source.by_ref().take(most).read_to_end(&mut bytes).map_err(Failure::file(&self.path))?;
        if bytes.is_empty() {
            return Ok(None);
        }
        let first = self.next;
        self.next += BLOCK as u64;
        Ok(Some(Block { first, bytes }))
    }
}
