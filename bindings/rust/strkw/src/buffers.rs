//! Calls that write into a buffer.

use strkw_sys::STRKW_NO_ROOM;

const FIRST_ROOM: usize = 256;

/// The status of a call and what it writes, with as much room as it needs. The call is given the buffer, its room, and
/// where the count of the bytes goes.
pub(crate) fn written(call: impl Fn(*mut u8, usize, *mut usize) -> u8) -> (u8, Vec<u8>) {
    let mut out = vec![0; FIRST_ROOM];
    loop {
        let mut count = 0;
        match call(out.as_mut_ptr(), out.len(), &mut count) {
            STRKW_NO_ROOM => out.resize(count, 0),
            status => {
                out.truncate(count);
                return (status, out);
            }
        }
    }
}

/// Bytes that the library says are UTF-8, as text.
pub(crate) fn text_of(bytes: Vec<u8>) -> String {
    String::from_utf8(bytes).unwrap_or_else(|error| String::from_utf8_lossy(error.as_bytes()).into_owned())
}
