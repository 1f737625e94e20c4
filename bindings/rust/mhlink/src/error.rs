//! Errors of the library.

use crate::raw::read_text;
use mhlink_sys as sys;
use std::{error, fmt};

/// A status of the library other than `MHLINK_OK`. `Display` writes the text of the status, as the
/// program `mhlink` prints it.
#[derive(Clone, Copy, Debug, PartialEq, Eq)]
pub struct Error {
    status: u32,
    part: u64,
}

impl Error {
    /// Returns the status: a constant of [`crate::sys`], such as `MHLINK_NO_SITE`.
    pub fn status(self) -> u32 {
        self.status
    }

    /// Returns what the status leaves open: the number of the fault's cause, of the checker's test
    /// that failed, or of the newest plan; 0 if there is none.
    pub fn part(self) -> u64 {
        self.part
    }

    /// Returns the error of a status, unless it is `MHLINK_OK`.
    pub(crate) fn check(status: u32) -> Result<(), Error> {
        Error::check_part(status, 0)
    }

    /// Returns the error of a status with its part, unless it is `MHLINK_OK`.
    pub(crate) fn check_part(status: u32, part: u64) -> Result<(), Error> {
        match status {
            sys::MHLINK_OK => Ok(()),
            status => Err(Error { status, part }),
        }
    }
}

impl fmt::Display for Error {
    fn fmt(&self, f: &mut fmt::Formatter<'_>) -> fmt::Result {
        // SAFETY: the buffer and the length are those of `read_text`.
        let text = read_text(|buffer, capacity, length| unsafe {
            sys::mhlink_fault_text(self.status, self.part, buffer, capacity, length)
        });
        match text {
            Ok(text) => write!(f, "{text} (status {})", self.status),
            Err(_) => write!(f, "status {}", self.status),
        }
    }
}

impl error::Error for Error {}
