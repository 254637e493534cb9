//! Requests and their answers.

use crate::buffers::written;
use crate::errors::OutOfMemory;
use strkw_sys::{strkw_answer, STRKW_DONE};

/// The answers to requests, one a line, as the program `strkw` gives them. Its patterns are literal ones alone.
///
/// ```
/// let answers = strkw::answer(br#"{"draft":7,"schema":{"maxLength":1},"instance":"a"}"#)?;
/// assert_eq!(answers, b"valid\nend\n");
/// # Ok::<(), strkw::OutOfMemory>(())
/// ```
pub fn answer(requests: &[u8]) -> Result<Vec<u8>, OutOfMemory> {
    // The requests, the buffer and the count lie apart, and each leads to as much as it counts.
    let call = |out, room, count| unsafe { strkw_answer(requests.as_ptr(), requests.len(), out, room, count) };
    match written(call) {
        (STRKW_DONE, answers) => Ok(answers),
        _ => Err(OutOfMemory),
    }
}
