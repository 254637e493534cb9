//! Patterns. A schema object knows them as a format where its options say so.

use crate::decisions::decided;
use crate::errors::OutOfMemory;

/// Whether a text is a pattern of the whole of ECMA-262 in Unicode mode: ECMA-262 2024, section 22.2.1. The keyword
/// `pattern` does not take all of them, and takes others with escapes such as `\_`. The error is that it is out of
/// memory.
pub fn is_regex(text: &str) -> Result<bool, OutOfMemory> {
    decided(strkw_sys::strkw_is_regex, text)
}
