//! One text by an encoding.

use crate::decisions::{decided, Check};
use crate::errors::OutOfMemory;
use crate::names::kinds;

kinds! {
    /// An encoding of RFC 4648, or JSON.
    Encoding Check, called "The name of the encoding, as `base64url`.";
    /// Base 64, section 4.
    Base64 "base64" strkw_is_base64,
    /// Base 64 for URLs and file names, section 5.
    Base64Url "base64url" strkw_is_base64url,
    /// Base 32, section 6.
    Base32 "base32" strkw_is_base32,
    /// Base 32 of the extended hex alphabet, section 7.
    Base32Hex "base32hex" strkw_is_base32hex,
    /// Base 16, section 8.
    Base16 "base16" strkw_is_base16,
    /// JSON, RFC 8259.
    Json "json" strkw_is_json,
}

impl Encoding {
    /// Whether a text is encoded so. The error is that it is out of memory.
    pub fn is_valid(self, text: &str) -> Result<bool, OutOfMemory> {
        decided(self.check(), text)
    }
}
