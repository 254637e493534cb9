//! The functions of `strkw.h`, as they are: the header says what each answers and what it wants of its pointers. The
//! crate `strkw` calls them, and its callers need no `unsafe`.
#![no_std]

/// A schema object that the library keeps.
#[repr(C)]
pub struct strkw_schema {
    _private: [u8; 0],
}

/// The statuses.
pub const STRKW_DONE: u8 = 0;
pub const STRKW_OUT_OF_MEMORY: u8 = 1;
pub const STRKW_NO_ROOM: u8 = 2;
pub const STRKW_NO_DRAFT: u8 = 3;
pub const STRKW_NO_SCHEMA: u8 = 4;
pub const STRKW_REFUSED: u8 = 5;
pub const STRKW_NO_OPTION: u8 = 6;
pub const STRKW_NULL: u8 = 7;
pub const STRKW_NOT_UTF8: u8 = 8;

/// The options.
pub const STRKW_FORMATS_AS_DRAFT: u32 = 1;
pub const STRKW_IGNORE_UNKNOWN_FORMATS: u32 = 2;
pub const STRKW_COMPANION_FORMATS: u32 = 4;

macro_rules! judges {
    ($answer:ty: $($name:ident),* $(,)?) => {
        extern "C" {
            $(pub fn $name(text: *const u8, count: usize) -> $answer;)*
        }
    };
}

judges! {
    bool: strkw_is_date, strkw_is_date_time, strkw_is_duration, strkw_is_email, strkw_is_hostname,
    strkw_is_hostname_draft4, strkw_is_ipv4, strkw_is_ipv6, strkw_is_iri, strkw_is_iri_reference,
    strkw_is_json_pointer, strkw_is_relative_json_pointer, strkw_is_time, strkw_is_uri, strkw_is_uri_reference,
    strkw_is_uri_template, strkw_is_uuid,
}

judges! {
    u8: strkw_is_base64, strkw_is_base64url, strkw_is_base32, strkw_is_base32hex, strkw_is_base16, strkw_is_json,
    strkw_is_idn_email, strkw_is_idn_hostname, strkw_is_regex,
}

extern "C" {
    pub fn strkw_answer(requests: *const u8, count: usize, out: *mut u8, room: usize, written: *mut usize) -> u8;
    pub fn strkw_check(
        draft: u32,
        options: u32,
        schema: *const u8,
        schema_count: usize,
        texts: *const u8,
        texts_count: usize,
        ends: *const usize,
        ends_count: usize,
        verdicts: *mut u8,
        room: usize,
    ) -> u8;
    pub fn strkw_check_offsets(
        draft: u32,
        options: u32,
        schema: *const u8,
        schema_count: usize,
        texts: *const u8,
        texts_count: usize,
        offsets: *const usize,
        offsets_count: usize,
        verdicts: *mut u8,
        room: usize,
    ) -> u8;
    pub fn strkw_check_offsets32(
        draft: u32,
        options: u32,
        schema: *const u8,
        schema_count: usize,
        texts: *const u8,
        texts_count: usize,
        offsets: *const u32,
        offsets_count: usize,
        verdicts: *mut u8,
        room: usize,
    ) -> u8;
    pub fn strkw_refusal(
        draft: u32,
        options: u32,
        schema: *const u8,
        schema_count: usize,
        out: *mut u8,
        room: usize,
        written: *mut usize,
    ) -> u8;
    pub fn strkw_errors(
        draft: u32,
        options: u32,
        schema: *const u8,
        schema_count: usize,
        text: *const u8,
        text_count: usize,
        out: *mut u8,
        room: usize,
        written: *mut usize,
    ) -> u8;
    pub fn strkw_schema_compile(
        draft: u32,
        options: u32,
        schema: *const u8,
        schema_count: usize,
        made: *mut *mut strkw_schema,
    ) -> u8;
    pub fn strkw_schema_check(
        schema: *const strkw_schema,
        texts: *const u8,
        texts_count: usize,
        ends: *const usize,
        ends_count: usize,
        verdicts: *mut u8,
        room: usize,
    ) -> u8;
    pub fn strkw_schema_errors(
        schema: *const strkw_schema,
        text: *const u8,
        text_count: usize,
        out: *mut u8,
        room: usize,
        written: *mut usize,
    ) -> u8;
    pub fn strkw_schema_free(schema: *mut strkw_schema);
}
