//! What crosses the boundary to C.

use crate::error::Error;
use mhlink_sys as sys;

/// Reads a text that a function copies into a buffer: asks for its length first. Every text of the
/// library is ASCII.
pub(crate) fn read_text(
    mut copy: impl FnMut(*mut u8, usize, *mut usize) -> u32,
) -> Result<String, Error> {
    let mut length = 0;
    match copy([].as_mut_ptr(), 0, &mut length) {
        sys::MHLINK_SHORT => {}
        status => Error::check(status)?,
    }
    let mut buffer = vec![0; length];
    Error::check(copy(buffer.as_mut_ptr(), buffer.len(), &mut length))?;
    buffer.truncate(length);
    Ok(String::from_utf8_lossy(&buffer).into_owned())
}

/// Returns a number that a function stores.
pub(crate) fn read_number(store: impl FnOnce(*mut u64) -> u32) -> Result<u64, Error> {
    let mut number = 0;
    Error::check(store(&mut number))?;
    Ok(number)
}

/// Calls a function that tells the part of its status.
pub(crate) fn with_part(call: impl FnOnce(*mut u64) -> u32) -> Result<(), Error> {
    let mut part = 0;
    let status = call(&mut part);
    Error::check_part(status, part)
}
