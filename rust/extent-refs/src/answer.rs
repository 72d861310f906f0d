//! From codes and lent outputs to `Result` and `Vec`.
use crate::error::{Error, Result};

/// Accepted, or neither accepted nor refused: absent and remove.
pub fn accepted(code: u32) -> Result<bool> {
    match code {
        0 => Ok(true),
        100 | 101 => Ok(false),
        number => Err(Error { number }),
    }
}

/// A call that lends one output of `room` bytes; `None` for absent and remove.
pub fn edited(
    room: usize,
    call: impl FnOnce(&mut [u8], &mut u64) -> u32,
) -> Result<Option<Vec<u8>>> {
    let mut out = vec![0; room];
    let mut len = 0;
    let there = accepted(call(&mut out, &mut len))?;
    out.truncate(len as usize);
    Ok(there.then_some(out))
}

/// The same for a call that is never absent.
pub fn written(room: usize, call: impl FnOnce(&mut [u8], &mut u64) -> u32) -> Result<Vec<u8>> {
    Ok(edited(room, call)?.unwrap_or_default())
}

/// A call that lends one number.
pub fn number(call: impl FnOnce(&mut u64) -> u32) -> Result<u64> {
    let mut value = 0;
    accepted(call(&mut value))?;
    Ok(value)
}

/// A call that lends a slice for item numbers or positions.
pub fn cuts(room: usize, call: impl FnOnce(&mut [u16], &mut u64) -> u32) -> Result<Vec<u16>> {
    let mut out = vec![0; room];
    let mut count = 0;
    accepted(call(&mut out, &mut count))?;
    out.truncate(count as usize);
    Ok(out)
}
