//! Calls that answer yes or no, or that they are out of memory.

use crate::errors::OutOfMemory;

const NO: u8 = 0;
const YES: u8 = 1;

/// A check of a text: its bytes, and how many there are.
pub(crate) type Check = unsafe extern "C" fn(*const u8, usize) -> u8;

/// What a call of the library answers of a text.
pub(crate) fn decided(check: Check, text: &str) -> Result<bool, OutOfMemory> {
    // A slice leads to as many bytes as it counts, and the call keeps none of them.
    match unsafe { check(text.as_ptr(), text.len()) } {
        NO => Ok(false),
        YES => Ok(true),
        _ => Err(OutOfMemory),
    }
}
