//! The drafts, and how formats are checked.

use strkw_sys::{STRKW_COMPANION_FORMATS, STRKW_FORMATS_AS_DRAFT, STRKW_IGNORE_UNKNOWN_FORMATS};

/// A draft of JSON Schema.
#[derive(Clone, Copy, Debug, PartialEq, Eq, Hash)]
pub enum Draft {
    /// Draft 4.
    Draft4,
    /// Draft 6.
    Draft6,
    /// Draft 7.
    Draft7,
    /// Draft 2019-09.
    Draft201909,
    /// Draft 2020-12.
    Draft202012,
}

impl Draft {
    /// The number by which the library knows it.
    pub(crate) fn number(self) -> u32 {
        match self {
            Draft::Draft4 => 4,
            Draft::Draft6 => 6,
            Draft::Draft7 => 7,
            Draft::Draft201909 => 201909,
            Draft::Draft202012 => 202012,
        }
    }
}

/// How formats are checked. By default they are in every draft, and an unknown one is refused.
#[derive(Clone, Copy, Debug, Default, PartialEq, Eq)]
pub struct Options {
    /// Drafts 4, 6 and 7 check formats, and drafts 2019-09 and 2020-12 do not.
    pub formats_as_draft: bool,
    /// A format that is not known lets every text pass.
    pub ignore_unknown_formats: bool,
    /// `email` and `regex` are known, and from draft 7 on `idn-email` and `idn-hostname`.
    pub companion_formats: bool,
}

impl Options {
    /// The bits by which the library knows them.
    pub(crate) fn bits(self) -> u32 {
        let as_draft = if self.formats_as_draft { STRKW_FORMATS_AS_DRAFT } else { 0 };
        let ignoring = if self.ignore_unknown_formats { STRKW_IGNORE_UNKNOWN_FORMATS } else { 0 };
        let companions = if self.companion_formats { STRKW_COMPANION_FORMATS } else { 0 };
        as_draft | ignoring | companions
    }
}
