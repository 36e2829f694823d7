//! Why a command gives no answer, and the status that says so.

use crate::output::counted;
use gintubalos::{Refusal, RuleSet};
use std::{fmt, io, path::PathBuf};

/// The status of a command line that is none of the program's, and of a board where a line was no call. Like the next it is
/// no refusal's number.
pub const USAGE: u8 = 64;

/// The status where a file or standard output could not be read or written.
pub const IO_ERROR: u8 = 74;

#[derive(Debug)]
pub enum Failure {
    Usage {
        message: String,
    },
    Refusal(Refusal),
    /// 32.
    UnknownRules(Refusal),
    /// 23, since the file ends in so many bytes that are no whole record.
    Part {
        refusal: Refusal,
        path: PathBuf,
        bytes: u64,
    },
    /// 23, since the file has no whole record k.
    NoRecord {
        refusal: Refusal,
        path: PathBuf,
        k: u64,
    },
    File {
        path: PathBuf,
        error: io::Error,
    },
    Output {
        error: io::Error,
    },
    /// No thread could be started.
    Thread {
        error: io::Error,
    },
    /// The book is changed, and standard output could not say so.
    Unshown {
        change: String,
        error: io::Error,
    },
}

impl Failure {
    pub fn usage(message: impl Into<String>) -> Failure {
        Failure::Usage { message: message.into() }
    }

    pub fn file(path: impl Into<PathBuf>) -> impl FnOnce(io::Error) -> Failure {
        let path = path.into();
        |error| Failure::File { path, error }
    }

    /// A file that should be there and is not.
    pub fn missing(path: impl Into<PathBuf>) -> Failure {
        Failure::file(path)(io::Error::new(io::ErrorKind::NotFound, "there is no such file"))
    }

    pub fn status(&self) -> u8 {
        match self {
            Failure::Usage { .. } => USAGE,
            Failure::Refusal(refusal)
            | Failure::UnknownRules(refusal)
            | Failure::Part { refusal, .. }
            | Failure::NoRecord { refusal, .. } => refusal.number,
            Failure::File { .. } | Failure::Output { .. } | Failure::Thread { .. } | Failure::Unshown { .. } => {
                IO_ERROR
            }
        }
    }
}

impl fmt::Display for Failure {
    fn fmt(&self, f: &mut fmt::Formatter) -> fmt::Result {
        match self {
            Failure::Usage { message } => write!(f, "{message}; see gintubalos --help"),
            Failure::Refusal(refusal) => write!(f, "{refusal}"),
            Failure::UnknownRules(refusal) => {
                let known: Vec<String> = RuleSet::ALL.iter().map(|rules| rules.number().to_string()).collect();
                write!(f, "{refusal}: there are {}", known.join(" and "))
            }
            Failure::Part { refusal, path, bytes } => {
                let path = path.display();
                let bytes = counted(*bytes, "byte");
                write!(f, "{refusal}: {path} ends in a part of {bytes}, which file --repair {path} takes away")
            }
            Failure::NoRecord { refusal, path, k } => {
                write!(f, "{refusal}: {} has no whole record {k}", path.display())
            }
            Failure::File { path, error } => write!(f, "{}: {error}", path.display()),
            Failure::Output { error } => write!(f, "standard output: {error}"),
            Failure::Thread { error } => write!(f, "no thread could be started: {error}"),
            Failure::Unshown { change, error } => write!(f, "standard output: {error}; but {change}"),
        }
    }
}

impl From<Refusal> for Failure {
    fn from(refusal: Refusal) -> Failure {
        Failure::Refusal(refusal)
    }
}

/// An error that no file is named with is one of standard output.
impl From<io::Error> for Failure {
    fn from(error: io::Error) -> Failure {
        Failure::Output { error }
    }
}
