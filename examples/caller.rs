//! Calls the library from Rust: every row of a table, a file of requests against its stored answers, texts by one
//! schema, and why a schema is refused.
//! caller FORMATS REQUESTS ANSWERS; it panics where something is not as it is stored.

use std::{env, fs};

/// A safe face of the C library. A slice is a pointer that is not null, and a count.
mod strkw {
    type FormatCheck = unsafe extern "C" fn(*const u8, usize) -> bool;
    type Decision = unsafe extern "C" fn(*const u8, usize) -> u8;

    macro_rules! declare {
        ($($name:literal $format:ident,)*; $($decision_name:literal $decision:ident,)*) => {
            #[link(name = "strkw", kind = "static")]
            unsafe extern "C" {
                $(fn $format(text: *const u8, count: usize) -> bool;)*
                $(fn $decision(text: *const u8, count: usize) -> u8;)*
                fn strkw_answer(
                    requests: *const u8, count: usize, out: *mut u8, room: usize, written: *mut usize,
                ) -> u8;
                fn strkw_check(
                    draft: u32, options: u32, schema: *const u8, schema_count: usize,
                    texts: *const u8, texts_count: usize,
                    ends: *const usize, ends_count: usize, verdicts: *mut u8, room: usize,
                ) -> u8;
                fn strkw_refusal(
                    draft: u32, options: u32, schema: *const u8, schema_count: usize,
                    out: *mut u8, room: usize, written: *mut usize,
                ) -> u8;
            }
            const FORMATS: &[(&str, FormatCheck)] = &[$(($name, $format)),*];
            const DECISIONS: &[(&str, Decision)] = &[$(($decision_name, $decision)),*];
        };
    }

    declare! {
        "date" strkw_is_date,
        "date-time" strkw_is_date_time,
        "duration" strkw_is_duration,
        "hostname" strkw_is_hostname,
        "hostname-draft4" strkw_is_hostname_draft4,
        "ipv4" strkw_is_ipv4,
        "ipv6" strkw_is_ipv6,
        "iri" strkw_is_iri,
        "iri-reference" strkw_is_iri_reference,
        "json-pointer" strkw_is_json_pointer,
        "relative-json-pointer" strkw_is_relative_json_pointer,
        "time" strkw_is_time,
        "uri" strkw_is_uri,
        "uri-reference" strkw_is_uri_reference,
        "uri-template" strkw_is_uri_template,
        "uuid" strkw_is_uuid,
        "email" strkw_is_email,
        ;
        "base64" strkw_is_base64,
        "base64url" strkw_is_base64url,
        "base32" strkw_is_base32,
        "base32hex" strkw_is_base32hex,
        "base16" strkw_is_base16,
        "json" strkw_is_json,
        "idn-email" strkw_is_idn_email,
        "idn-hostname" strkw_is_idn_hostname,
        "regex" strkw_is_regex,
    }

    /// Whether the bytes are of a format; `None` for a name that is none.
    pub fn is_format(name: &str, text: &[u8]) -> Option<bool> {
        let (_, check) = FORMATS.iter().find(|row| row.0 == name)?;
        Some(unsafe { check(text.as_ptr(), text.len()) })
    }

    /// Whether the bytes are of a format or an encoding that takes memory; `None` for a name that is none, or where
    /// memory is out.
    pub fn is_decided(name: &str, text: &[u8]) -> Option<bool> {
        let (_, check) = DECISIONS.iter().find(|row| row.0 == name)?;
        match unsafe { check(text.as_ptr(), text.len()) } {
            0 => Some(false),
            1 => Some(true),
            _ => None,
        }
    }

    // The status of a call, and what it writes, with as much room as it needs.
    fn written(call: impl Fn(*mut u8, usize, &mut usize) -> u8) -> (u8, Vec<u8>) {
        let mut out = vec![0; 256];
        loop {
            let mut count = 0;
            match call(out.as_mut_ptr(), out.len(), &mut count) {
                2 => out.resize(count, 0),
                status => {
                    out.truncate(count);
                    return (status, out);
                }
            }
        }
    }

    /// The answers to requests, one a line; `None` where it is out of memory.
    pub fn answer(requests: &[u8]) -> Option<Vec<u8>> {
        let call = |out, room, count: &mut usize| unsafe {
            strkw_answer(requests.as_ptr(), requests.len(), out, room, count)
        };
        match written(call) {
            (0, answers) => Some(answers),
            _ => None,
        }
    }

    /// Formats are checked as the draft says, unknown ones let every text pass, and the companions are known.
    pub const FORMATS_AS_DRAFT: u32 = 1;
    pub const IGNORE_UNKNOWN_FORMATS: u32 = 2;
    pub const COMPANION_FORMATS: u32 = 4;

    /// Why a schema object is refused, or `None` where it is not; or the status of the library.
    pub fn refusal(draft: u32, options: u32, schema: &[u8]) -> Result<Option<String>, u8> {
        let call = |out, room, count: &mut usize| unsafe {
            strkw_refusal(draft, options, schema.as_ptr(), schema.len(), out, room, count)
        };
        match written(call) {
            (0, _) => Ok(None),
            (5, text) => Ok(String::from_utf8(text).ok()),
            (status, _) => Err(status),
        }
    }

    /// The verdicts on texts by a schema object: 1 valid, 0 not valid, 2 not UTF-8; or the status of the library.
    pub fn check(draft: u32, options: u32, schema: &[u8], texts: &[&[u8]]) -> Result<Vec<u8>, u8> {
        let bytes = texts.concat();
        let ends: Vec<usize> = texts.iter().scan(0, |end, text| { *end += text.len(); Some(*end) }).collect();
        let mut verdicts = vec![7; ends.len()];
        let status = unsafe {
            strkw_check(
                draft, options, schema.as_ptr(), schema.len(), bytes.as_ptr(), bytes.len(),
                ends.as_ptr(), ends.len(), verdicts.as_mut_ptr(), verdicts.len(),
            )
        };
        if status == 0 { Ok(verdicts) } else { Err(status) }
    }
}

fn main() {
    let paths: Vec<String> = env::args().skip(1).collect();
    assert_eq!(paths.len(), 3, "caller FORMATS REQUESTS ANSWERS");
    let table = fs::read_to_string(&paths[0]).expect("the table of rows");
    let mut rows = 0;
    for row in table.lines() {
        let mut parts = row.splitn(3, '\t');
        let (name, want, text) = (parts.next().unwrap(), parts.next().unwrap(), parts.next().unwrap());
        let found = strkw::is_format(name, text.as_bytes()).or_else(|| strkw::is_decided(name, text.as_bytes()));
        assert_eq!(found, Some(want == "yes"), "{row}");
        rows += 1;
    }
    assert_eq!(strkw::is_format("iri", b"a:\xC3\x28"), Some(false));
    assert_eq!(strkw::is_format("json-pointer", b""), Some(true));
    let requests = fs::read(&paths[1]).expect("the requests");
    let answers = fs::read(&paths[2]).expect("the answers");
    assert_eq!(strkw::answer(&requests), Some(answers));
    let texts: [&[u8]; 4] = [b"2024-02-29", b"2023-02-29", b"\xFF", b""];
    let date = br#"{"format":"date"}"#;
    assert_eq!(strkw::check(7, 0, date, &texts), Ok(vec![1, 0, 2, 0]));
    assert_eq!(strkw::check(202012, 0, date, &texts), Ok(vec![1, 0, 2, 0]));
    assert_eq!(strkw::check(202012, strkw::FORMATS_AS_DRAFT, date, &texts), Ok(vec![1, 1, 2, 1]));
    assert_eq!(strkw::check(7, 0, date, &[]), Ok(vec![]));
    assert_eq!(strkw::check(5, 0, date, &texts), Err(3));
    assert_eq!(strkw::check(7, 8, date, &texts), Err(6));
    assert_eq!(strkw::check(7, 0, b"[]", &texts), Err(4));
    assert_eq!(strkw::check(7, 0, br#"{"maxLength":-1}"#, &texts), Err(5));
    let mail = br#"{"format":"email"}"#;
    let unknown = "/format: Unknown format: 'email'. Adjust configuration to ignore unrecognized formats";
    assert_eq!(strkw::check(7, 0, mail, &texts), Err(5));
    assert_eq!(strkw::refusal(7, 0, mail), Ok(Some(unknown.to_string())));
    assert_eq!(strkw::refusal(7, strkw::IGNORE_UNKNOWN_FORMATS, mail), Ok(None));
    assert_eq!(strkw::check(7, strkw::IGNORE_UNKNOWN_FORMATS, mail, &texts), Ok(vec![1, 1, 2, 1]));
    assert_eq!(strkw::check(7, strkw::COMPANION_FORMATS, mail, &texts), Ok(vec![0, 0, 2, 0]));
    let mail_of_all = br#"{"format":"idn-email"}"#;
    assert_eq!(strkw::check(6, strkw::COMPANION_FORMATS, mail_of_all, &texts), Err(5));
    assert_eq!(strkw::check(7, strkw::COMPANION_FORMATS, mail_of_all, &texts), Ok(vec![0, 0, 2, 0]));
    assert_eq!(strkw::refusal(7, 8, mail), Err(6));
    println!("caller.rs: {rows} rows");
}
