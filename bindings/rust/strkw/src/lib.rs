#![doc = include_str!("../README.md")]
#![warn(missing_docs)]

mod answers;
mod buffers;
mod decisions;
mod encoding;
mod errors;
mod format;
mod internationalised;
mod names;
mod options;
mod patterns;
mod schema;

pub use answers::answer;
pub use encoding::Encoding;
pub use errors::{CompileError, OutOfMemory, UnknownName, ValidationError};
pub use format::Format;
pub use internationalised::{is_idn_email, is_idn_hostname};
pub use options::{Draft, Options};
pub use patterns::is_regex;
pub use schema::{Report, Schema};
