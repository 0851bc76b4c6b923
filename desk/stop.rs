//! Why a command ends without having done what it was asked, and the exit status that says so.

use std::fmt::Display;
use std::path::Path;

pub const DONE: u8 = 0;
/// `why`: the packet is dropped; `diff`: something differs.
pub const OTHERWISE: u8 = 1;

#[derive(Debug)]
pub enum Stop {
    /// The text cannot be read as rules; each line of the message names file, line and column.
    Text(String),
    /// The library refused.
    Refused(String),
    /// The words of the command line.
    Usage(String),
    /// A file cannot be read or written, or is not what it has to be.
    Files(String),
    /// The command that loads a list failed.
    Load(String),
}

impl Stop {
    pub fn status(&self) -> u8 {
        match self {
            Stop::Text(_) => 2,
            Stop::Refused(_) => 3,
            Stop::Usage(_) => 4,
            Stop::Files(_) => 5,
            Stop::Load(_) => 6,
        }
    }

    pub fn message(&self) -> &str {
        match self {
            Stop::Text(message)
            | Stop::Refused(message)
            | Stop::Usage(message)
            | Stop::Files(message)
            | Stop::Load(message) => message,
        }
    }

    pub fn file(path: &Path, error: impl Display) -> Stop {
        Stop::Files(format!("{}: {error}", path.display()))
    }
}

pub type Result<T> = std::result::Result<T, Stop>;
