//! Why a command did not do what was asked, and the exit code that says so.

use std::io;

/// What went wrong, in words.
#[derive(Debug)]
pub enum Failure {
    /// The keeper refused: exit code 1. No words where all was said.
    Refused(String),
    /// Something cannot be read, understood, used or written: exit code 2.
    Unusable(String),
    /// Whoever reads the output has gone: exit code 2, and nobody to tell.
    Closed,
}

impl Failure {
    /// A failure with these words.
    pub fn unusable(words: impl Into<String>) -> Failure {
        Failure::Unusable(words.into())
    }

    /// The exit code.
    pub fn code(&self) -> u8 {
        match self {
            Failure::Refused(_) => 1,
            Failure::Unusable(_) | Failure::Closed => 2,
        }
    }

    /// What to tell, if anything.
    pub fn words(&self) -> Option<&str> {
        match self {
            Failure::Refused(words) | Failure::Unusable(words) => {
                Some(words.as_str()).filter(|words| !words.is_empty())
            }
            Failure::Closed => None,
        }
    }
}

/// The output could not be written.
impl From<io::Error> for Failure {
    fn from(error: io::Error) -> Failure {
        match error.kind() {
            io::ErrorKind::BrokenPipe => Failure::Closed,
            _ => Failure::Unusable(format!("the output cannot be written: {error}")),
        }
    }
}
