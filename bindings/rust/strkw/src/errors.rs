//! What goes wrong.

use std::error::Error;
use std::fmt;

/// A call was out of memory.
#[derive(Clone, Copy, Debug, PartialEq, Eq)]
pub struct OutOfMemory;

impl fmt::Display for OutOfMemory {
    fn fmt(&self, f: &mut fmt::Formatter<'_>) -> fmt::Result {
        f.write_str("out of memory")
    }
}

impl Error for OutOfMemory {}

/// No format, or no encoding, has this name.
#[derive(Clone, Debug, PartialEq, Eq)]
pub struct UnknownName(pub String);

impl fmt::Display for UnknownName {
    fn fmt(&self, f: &mut fmt::Formatter<'_>) -> fmt::Result {
        write!(f, "unknown name {:?}", self.0)
    }
}

impl Error for UnknownName {}

/// Why a schema object is not compiled.
#[derive(Clone, Debug, PartialEq, Eq)]
pub enum CompileError {
    /// The text is no JSON object.
    NoObject,
    /// The object is refused: the place of the first keyword that is, a colon, and why.
    Refused(String),
    /// The call was out of memory.
    OutOfMemory,
}

impl fmt::Display for CompileError {
    fn fmt(&self, f: &mut fmt::Formatter<'_>) -> fmt::Result {
        match self {
            CompileError::NoObject => f.write_str("the schema is no JSON object"),
            CompileError::Refused(why) => write!(f, "the schema object is refused at {why}"),
            CompileError::OutOfMemory => OutOfMemory.fmt(f),
        }
    }
}

impl Error for CompileError {}

/// What is wrong with a text, as a keyword of a schema object has it.
#[derive(Clone, Debug, PartialEq, Eq)]
pub struct ValidationError {
    /// The keyword, as `format`.
    pub keyword: String,
    /// What is wrong, as `"2023-02-29" is not a "date"`.
    pub message: String,
}

impl fmt::Display for ValidationError {
    fn fmt(&self, f: &mut fmt::Formatter<'_>) -> fmt::Result {
        write!(f, "/{}: {}", self.keyword, self.message)
    }
}

impl Error for ValidationError {}
