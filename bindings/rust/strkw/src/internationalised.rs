//! Internationalised mail addresses and host names. A schema object knows them as formats where its options say so.

use crate::decisions::decided;
use crate::errors::OutOfMemory;

/// Whether a text is an internationalised mail address: `Mailbox` as RFC 6531, section 3.3, extends it. The error is
/// that it is out of memory.
pub fn is_idn_email(text: &str) -> Result<bool, OutOfMemory> {
    decided(strkw_sys::strkw_is_idn_email, text)
}

/// Whether a text is an internationalised host name, by RFC 5890 to 5893 and Unicode 18.0. The error is that it is out
/// of memory.
pub fn is_idn_hostname(text: &str) -> Result<bool, OutOfMemory> {
    decided(strkw_sys::strkw_is_idn_hostname, text)
}
