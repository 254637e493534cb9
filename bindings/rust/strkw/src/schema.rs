//! Texts by a schema object.

use crate::buffers::{text_of, written};
use crate::errors::{CompileError, OutOfMemory, ValidationError};
use crate::options::{Draft, Options};
use std::ptr::{null_mut, NonNull};
use strkw_sys::*;

const VALID: u8 = 1;

/// A schema object of one draft, and the texts that are checked by it.
///
/// Threads may share one. The object is compiled once; of more than 16 calls at once, the others compile it again.
#[derive(Debug)]
pub struct Schema {
    kept: NonNull<strkw_schema>,
}

// A call takes what is compiled by an atomic exchange, so that no other call has it, and there is no other state.
unsafe impl Send for Schema {}
unsafe impl Sync for Schema {}

/// What a schema object says of one text.
#[derive(Clone, Debug, Default, PartialEq, Eq)]
pub struct Report {
    /// What is wrong with it; it is valid where there is nothing.
    pub errors: Vec<ValidationError>,
    /// What the object notes of it: a keyword, and its value as JSON.
    pub notes: Vec<(String, String)>,
}

impl Schema {
    /// Compiles a schema object, which is JSON.
    ///
    /// The errors say that the text is no JSON object, why the object is refused, or that it is out of memory:
    ///
    /// ```
    /// use strkw::{Draft, Options, Schema};
    /// let refused = Schema::compile(Draft::Draft7, Options::default(), r#"{"pattern": "a{5001}"}"#).unwrap_err();
    /// let told = concat!(
    ///     r#"the schema object is refused at /pattern: the pattern "a{5001}" is not taken: "#,
    ///     "it has a count above 5000",
    /// );
    /// assert_eq!(refused.to_string(), told);
    /// ```
    pub fn compile(draft: Draft, options: Options, object: &str) -> Result<Schema, CompileError> {
        let (number, bits) = (draft.number(), options.bits());
        let mut made = null_mut();
        // The object leads to as many bytes as it counts, and `made` to room for a pointer.
        let status = unsafe { strkw_schema_compile(number, bits, object.as_ptr(), object.len(), &mut made) };
        match (status, NonNull::new(made)) {
            (STRKW_DONE, Some(kept)) => Ok(Schema { kept }),
            (STRKW_NO_SCHEMA, _) => Err(CompileError::NoObject),
            (STRKW_REFUSED, _) => Err(refusal(number, bits, object)),
            _ => Err(CompileError::OutOfMemory),
        }
    }

    /// Whether a text is valid.
    pub fn is_valid(&self, text: &str) -> Result<bool, OutOfMemory> {
        Ok(self.are_valid(&[text])? == [true])
    }

    /// Whether each text is valid, in one call.
    pub fn are_valid<T: AsRef<str>>(&self, texts: &[T]) -> Result<Vec<bool>, OutOfMemory> {
        let joined: String = texts.iter().map(AsRef::as_ref).collect();
        let ends: Vec<usize> = texts
            .iter()
            .scan(0, |end, text| {
                *end += text.as_ref().len();
                Some(*end)
            })
            .collect();
        let mut verdicts = vec![0; ends.len()];
        // Each slice leads to as much as it counts, and the verdicts overlap nothing.
        let status = unsafe {
            strkw_schema_check(
                self.kept.as_ptr(),
                joined.as_ptr(),
                joined.len(),
                ends.as_ptr(),
                ends.len(),
                verdicts.as_mut_ptr(),
                verdicts.len(),
            )
        };
        match status {
            STRKW_DONE => Ok(verdicts.into_iter().map(|verdict| verdict == VALID).collect()),
            _ => Err(OutOfMemory),
        }
    }

    /// The errors of a text, keyword by keyword.
    pub fn errors(&self, text: &str) -> Result<Vec<ValidationError>, OutOfMemory> {
        Ok(self.report(text)?.errors)
    }

    /// The errors of a text, and what the object notes of it.
    pub fn report(&self, text: &str) -> Result<Report, OutOfMemory> {
        // The text, the buffer and the count lie apart, and each leads to as much as it counts.
        let call = |out, room, count| unsafe {
            strkw_schema_errors(self.kept.as_ptr(), text.as_ptr(), text.len(), out, room, count)
        };
        match written(call) {
            (STRKW_DONE, lines) => Ok(report_of(&text_of(lines))),
            _ => Err(OutOfMemory),
        }
    }
}

impl Drop for Schema {
    fn drop(&mut self) {
        // The library made it, and nothing has it any more.
        unsafe { strkw_schema_free(self.kept.as_ptr()) }
    }
}

/// Why a schema object is refused.
fn refusal(number: u32, bits: u32, object: &str) -> CompileError {
    // The object, the buffer and the count lie apart, and each leads to as much as it counts.
    let call = |out, room, count| unsafe {
        strkw_refusal(number, bits, object.as_ptr(), object.len(), out, room, count)
    };
    match written(call) {
        (STRKW_REFUSED, why) => CompileError::Refused(text_of(why)),
        _ => CompileError::OutOfMemory,
    }
}

/// The lines `error /KEYWORD: TEXT` and `note /KEYWORD: VALUE`.
fn report_of(lines: &str) -> Report {
    let mut report = Report::default();
    for (kind, rest) in lines.split('\n').filter_map(|line| line.split_once(" /")) {
        let Some((keyword, told)) = rest.split_once(": ") else { continue };
        let (keyword, told) = (keyword.to_owned(), told.to_owned());
        if kind == "error" {
            report.errors.push(ValidationError { keyword, message: told });
        } else {
            report.notes.push((keyword, told));
        }
    }
    report
}
