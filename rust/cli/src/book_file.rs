//! A book on disk. Whoever adds to it has it alone, whoever reads it keeps those who add away: the operating system's
//! advisory lock. A file is never cut below what another program may have written.

use crate::failure::Failure;
use gintubalos::RECORD_BYTES;
use std::{
    fs::{File, Metadata, OpenOptions, TryLockError},
    io::{self, ErrorKind, Read, Seek, SeekFrom, Write},
    os::unix::fs::MetadataExt,
    path::{Path, PathBuf},
};

/// The bytes of a record, as a file's length counts them.
pub const RECORD: u64 = RECORD_BYTES as u64;

pub struct BookFile {
    path: PathBuf,
    file: File,
}

impl BookFile {
    /// A book to add to, alone; none where there is none and it is not to be made.
    pub fn to_add(path: &Path, make: bool) -> Result<Option<BookFile>, Failure> {
        loop {
            let file = match OpenOptions::new().read(true).append(true).create(make).open(path) {
                Err(error) if error.kind() == ErrorKind::NotFound && !make => return Ok(None),
                file => file.map_err(Failure::file(path))?,
            };
            lock(&file, path, File::try_lock, File::lock).map_err(Failure::file(path))?;
            // While it waited, another program may have put another file in its place.
            let same = |other: Metadata, own: Metadata| (other.dev(), other.ino()) == (own.dev(), own.ino());
            let own = file.metadata().map_err(Failure::file(path))?;
            if path.metadata().is_ok_and(|other| same(other, own)) {
                return Ok(Some(BookFile { path: path.to_owned(), file }));
            }
        }
    }

    /// A book to read, to which nobody adds meanwhile.
    pub fn to_read(path: &Path) -> Result<BookFile, Failure> {
        let file = File::open(path).map_err(Failure::file(path))?;
        match lock(&file, path, File::try_lock_shared, File::lock_shared) {
            // Where the file system has no locks, nothing is harmed by reading.
            Err(error) if error.kind() == ErrorKind::Unsupported => {}
            locked => locked.map_err(Failure::file(path))?,
        }
        Ok(BookFile { path: path.to_owned(), file })
    }

    pub fn length(&self) -> Result<u64, Failure> {
        Ok(self.file.metadata().map_err(Failure::file(&self.path))?.len())
    }

    /// Adds a record at the end, in one write, and waits until it is on the disk. Where that fails the book is as it was.
    pub fn append(&mut self, record: &[u8; RECORD_BYTES]) -> Result<(), Failure> {
        let before = self.length()?;
        let (written, result) = match self.write_once(record) {
            Ok(RECORD_BYTES) => (RECORD_BYTES, self.file.sync_all()),
            Ok(bytes) => {
                (bytes, Err(io::Error::other(format!("only {bytes} of a record's 64 bytes could be written"))))
            }
            Err(error) => (0, Err(error)),
        };
        if let Err(error) = result {
            self.take_back(before, written as u64);
            return Err(Failure::file(&self.path)(error));
        }
        if before == 0 {
            self.sync_folder();
        }
        Ok(())
    }

    fn write_once(&mut self, record: &[u8; RECORD_BYTES]) -> io::Result<usize> {
        loop {
            match self.file.write(record) {
                Err(error) if error.kind() == ErrorKind::Interrupted => {}
                written => return written,
            }
        }
    }

    /// Takes this program's own bytes off the end again, and only if they still are the end: a program that does not lock
    /// may have written more. Where it fails, the part stays, and the next `file` names it.
    fn take_back(&self, before: u64, written: u64) {
        if self.file.metadata().is_ok_and(|now| now.len() == before + written) {
            let _ = self.file.set_len(before).and_then(|()| self.file.sync_all());
        }
    }

    /// A new file's name is on the disk once its folder is. A folder that can't be synced loses nothing that is written.
    fn sync_folder(&self) {
        let folder = match self.path.parent() {
            Some(parent) if parent != Path::new("") => parent,
            _ => Path::new("."),
        };
        let _ = File::open(folder).and_then(|folder| folder.sync_all());
    }

    /// Takes away a part of a record at the end, and answers its bytes.
    pub fn take_part_away(&mut self) -> Result<Vec<u8>, Failure> {
        let part = self.length()? % RECORD;
        let mut bytes = Vec::new();
        self.file
            .seek(SeekFrom::End(-(part as i64)))
            .and_then(|_| (&self.file).take(part).read_to_end(&mut bytes))
            .map_err(Failure::file(&self.path))?;
        if part > 0 {
            let whole = self.length()? - part;
            self.file.set_len(whole).and_then(|()| self.file.sync_all()).map_err(Failure::file(&self.path))?;
        }
        Ok(bytes)
    }
}

impl Read for BookFile {
    fn read(&mut self, buffer: &mut [u8]) -> io::Result<usize> {
        self.file.read(buffer)
    }
}

impl Seek for BookFile {
    fn seek(&mut self, to: SeekFrom) -> io::Result<u64> {
        self.file.seek(to)
    }
}

/// Takes a lock, and says so where it has to be waited for.
fn lock(
    file: &File,
    path: &Path,
    try_it: impl Fn(&File) -> Result<(), TryLockError>,
    wait: impl Fn(&File) -> io::Result<()>,
) -> io::Result<()> {
    loop {
        let result = match try_it(file) {
            Ok(()) => return Ok(()),
            Err(TryLockError::WouldBlock) => {
                let _ = writeln!(io::stderr(), "gintubalos: {}: waiting for another program", path.display());
                wait(file)
            }
            Err(TryLockError::Error(error)) => Err(error),
        };
        match result {
            Err(error) if error.kind() == ErrorKind::Interrupted => {}
            result => return result,
        }
    }
}
