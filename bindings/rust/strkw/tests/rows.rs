//! The library by this crate: the stored rows of formats and of requests, schema objects, refusals, and threads.

use std::fs;
use std::path::PathBuf;
use std::thread;
use strkw::{
    answer, is_idn_email, is_idn_hostname, is_regex, CompileError, Draft, Encoding, Format, Options, OutOfMemory,
    Schema, UnknownName, ValidationError,
};

fn stored(name: &str) -> String {
    let folder = PathBuf::from(env!("CARGO_MANIFEST_DIR")).join("../../../examples");
    fs::read_to_string(folder.join(name)).expect("a stored file of examples/")
}

fn schema(draft: Draft, object: &str) -> Schema {
    Schema::compile(draft, Options::default(), object).expect("a schema object")
}

#[test]
fn formats_and_encodings_answer_as_the_stored_rows() {
    for row in stored("formats.tsv").split('\n').filter(|row| !row.is_empty()) {
        let mut parts = row.splitn(3, '\t');
        let (name, wanted, text) = (parts.next().unwrap(), parts.next().unwrap(), parts.next().unwrap());
        let found = match (name, name.parse::<Encoding>()) {
            ("idn-email", _) => is_idn_email(text).unwrap(),
            ("idn-hostname", _) => is_idn_hostname(text).unwrap(),
            ("regex", _) => is_regex(text).unwrap(),
            (_, Ok(encoding)) => encoding.is_valid(text).unwrap(),
            _ => name.parse::<Format>().unwrap().is_valid(text),
        };
        assert_eq!(found, wanted == "yes", "{row}");
    }
}

#[test]
fn names_lead_to_formats_and_back() {
    for format in Format::ALL {
        assert_eq!(format.name().parse(), Ok(*format));
    }
    for encoding in Encoding::ALL {
        assert_eq!(encoding.name().parse(), Ok(*encoding));
    }
    for name in ["regex", "Date", "DATE", " date", "date ", ""] {
        assert_eq!(name.parse::<Format>(), Err(UnknownName(name.to_owned())));
    }
    for name in ["BASE64", "Json", "base-64", "base64 ", ""] {
        assert_eq!(name.parse::<Encoding>(), Err(UnknownName(name.to_owned())));
    }
}

#[test]
fn names_are_compared_as_they_stand() {
    let names: Vec<&str> =
        Format::ALL.iter().map(|it| it.name()).chain(Encoding::ALL.iter().map(|it| it.name())).collect();
    let formats = [
        "date", "date-time", "duration", "email", "hostname", "hostname-draft4", "ipv4", "ipv6", "iri", "iri-reference",
        "json-pointer", "relative-json-pointer", "time", "uri", "uri-reference", "uri-template", "uuid",
    ];
    assert_eq!(names[..formats.len()], formats);
    assert_eq!(names[formats.len()..], ["base64", "base64url", "base32", "base32hex", "base16", "json"]);
    for name in &names {
        let mut others: Vec<String> = ["_", "", " "].map(|joiner| name.replace('-', joiner)).into();
        others.push(name.to_uppercase());
        others.extend(["\n", "\0", "\0a", "\u{301}", "s", ";", "?", "\""].map(|sign| format!("{name}{sign}")));
        let fronts = ["\t", "\0", "\u{feff}", "\u{200b}", "x-", "is-", "/", "#", "\""];
        others.extend(fronts.map(|sign| format!("{sign}{name}")));
        others.push(format!("%{:02x}{}", name.as_bytes()[0], &name[1..]));
        others.push(name.replace('s', "\u{17f}"));
        for other in others.iter().filter(|other| !names.contains(&other.as_str())) {
            assert_eq!(other.parse::<Format>(), Err(UnknownName(other.clone())));
            assert_eq!(other.parse::<Encoding>(), Err(UnknownName(other.clone())));
        }
        // A name of one kind is none of the other.
        assert_ne!(name.parse::<Format>().is_ok(), name.parse::<Encoding>().is_ok(), "{name}");
    }
}

#[test]
fn each_name_has_a_check_of_its_own() {
    // A text, and the names that say yes of it: all others say no.
    let rows = [
        ("ab--c", "hostname-draft4 iri-reference uri-reference uri-template"),
        ("2001:db8::1", "ipv6 uri-template"),
        ("/r\u{e9}sum\u{e9}", "iri-reference json-pointer uri-template"),
        ("/{var}{?q*}", "json-pointer uri-template"),
        ("0#", "iri-reference relative-json-pointer uri-reference uri-template"),
        ("ftp://ftp.is.co.za/rfc/rfc1808.txt", "iri iri-reference uri uri-reference uri-template"),
        ("1985-04-12T23:20:50.52Z", "date-time uri-template"),
        ("23:20:50Z", "time uri-template"),
        ("a.b@example.com", "email iri-reference uri-reference uri-template"),
        ("/+8=", "iri-reference json-pointer uri-reference uri-template base64"),
        ("_-8=", "iri-reference uri-reference uri-template base64url"),
        ("MZXW6YQ=", "iri-reference uri-reference uri-template base64 base64url base32"),
        ("CPNMUOG=", "iri-reference uri-reference uri-template base32hex"),
        ("{\"a\":1}", "json"),
        ("", "iri-reference json-pointer uri-reference uri-template base64 base64url base32 base32hex base16"),
        ("2024-02-29\0", ""),
        ("2024-02-29 ", ""),
        (" 2024-02-29", ""),
        ("2024-02-29\n", ""),
        ("\u{feff}2024-02-29", "iri-reference uri-template"),
        ("192.0.2.1\0", ""),
        ("/a\0b", "json-pointer"),
        ("Zm9vYg==\n", ""),
        (" Zm9vYg==", ""),
        ("666F6F62\0", ""),
        ("\u{a0}1", "iri-reference uri-template"),
        (" null\n", "json"),
    ];
    for (text, yes) in rows {
        let yes: Vec<&str> = yes.split(' ').collect();
        for format in Format::ALL {
            assert_eq!(format.is_valid(text), yes.contains(&format.name()), "{} of {text:?}", format.name());
        }
        for encoding in Encoding::ALL {
            assert_eq!(encoding.is_valid(text), Ok(yes.contains(&encoding.name())), "{} of {text:?}", encoding.name());
        }
    }
    for (text, is_mail, is_host, is_pattern) in [
        ("\u{e9}@b", true, false, true),
        ("a@b", true, false, true),
        ("b\u{fc}cher", false, true, true),
        (" a@b", false, false, true),
        ("a@b\n", false, false, true),
        ("b\u{fc}cher\0", false, false, true),
        (" b\u{fc}cher", false, false, true),
        ("a\u{308}", false, false, true),
        ("(", false, false, false),
        (" (", false, false, false),
        ("(\0)", false, false, true),
        ("", false, false, true),
    ] {
        assert_eq!(is_idn_email(text), Ok(is_mail), "{text:?}");
        assert_eq!(is_idn_hostname(text), Ok(is_host), "{text:?}");
        assert_eq!(is_regex(text), Ok(is_pattern), "{text:?}");
    }
}

#[test]
fn requests_have_the_stored_answers() {
    let answers = answer(stored("requests.jsonl").as_bytes()).unwrap();
    assert_eq!(String::from_utf8(answers).unwrap(), stored("answers.txt"));
    assert_eq!(answer(b"").unwrap(), b"");
    // A zero byte ends no line, and the last line may have no line feed.
    let request = r#"{"draft":7,"schema":{},"instance":0}"#;
    for (requests, answers) in [
        (request.to_owned(), "valid\nend\n".to_owned()),
        (format!("{request}\n\0\n{request}"), "valid\nend\nbad request\nend\nvalid\nend\n".to_owned()),
        (format!("{request}\0\n{request}\n"), "bad request\nend\nvalid\nend\n".to_owned()),
        ("\n".repeat(100), "bad request\nend\n".repeat(100)),
    ] {
        assert_eq!(String::from_utf8(answer(requests.as_bytes()).unwrap()).unwrap(), answers, "{requests:?}");
    }
}

#[test]
fn texts_are_valid_or_not() {
    let date = schema(Draft::Draft7, r#"{"format": "date"}"#);
    assert_eq!(date.are_valid(&["2024-02-29", "", "2023-02-29"]).unwrap(), [true, false, false]);
    assert_eq!(date.are_valid::<&str>(&[]).unwrap(), Vec::<bool>::new());
    assert!(schema(Draft::Draft4, r#"{"maxLength": 2}"#).is_valid("\u{e4}\0").unwrap());
    let wide = schema(Draft::Draft7, r#"{"pattern": "^(\u00e4\u20ac|b|\ud83d\ude00)$"}"#);
    let texts = ["\u{e4}\u{20ac}", "b", "", "\u{1f600}", "\u{e4}", "b"];
    assert_eq!(wide.are_valid(&texts).unwrap(), [true, true, false, true, false, true]);
    assert!(!schema(Draft::Draft6, r#"{"minLength": 400}"#).is_valid("a").unwrap());
}

#[test]
fn errors_and_notes_are_told() {
    let object = r#"{"format": "date", "maxLength": 5, "pattern": "^[0-9]+$"}"#;
    let report = schema(Draft::Draft202012, object).report("2023-02-29").unwrap();
    let told: Vec<String> = report.errors.iter().map(ToString::to_string).collect();
    let wanted = [
        r#"/format: "2023-02-29" is not a "date""#,
        r#"/maxLength: "2023-02-29" is longer than 5 characters"#,
        r#"/pattern: "2023-02-29" does not match "^[0-9]+$""#,
    ];
    assert_eq!(told, wanted);
    assert_eq!(report.notes, [("format".to_owned(), r#""date""#.to_owned())]);
    // Notes stand in the order of the keywords, beside errors too, and a value is JSON as it is noted.
    let object = r#"{"maxLength": 0, "format": "uuid", "contentSchema": {"a: b": [" /c: d"]},
        "contentEncoding": "\u0000", "contentMediaType": "a: /b\n"}"#;
    let (early, late) = (Draft::Draft201909, Draft::Draft202012);
    for (draft, text, count) in [(early, "a: /b", 2), (late, "", 1), (early, "\0", 2), (late, "error /a: b", 2)] {
        let report = schema(draft, object).report(text).unwrap();
        assert_eq!(report.errors.len(), count, "{text:?}");
        let notes: Vec<_> = report.notes.iter().map(|(keyword, value)| (keyword.as_str(), value.as_str())).collect();
        let wanted = [
            ("contentMediaType", r#""a: /b\n""#),
            ("contentEncoding", r#""\u0000""#),
            ("contentSchema", r#"{"a: b":[" /c: d"]}"#),
            ("format", r#""uuid""#),
        ];
        assert_eq!(notes, wanted);
    }
    // A text is asked whole, the empty one too.
    let date = schema(Draft::Draft7, r#"{"format": "date"}"#);
    for text in ["", "2024-02-29\0", "2024-02-29\n", " 2024-02-29", "\u{feff}2024-02-29", "2024-02-29 "] {
        assert!(!date.is_valid(text).unwrap(), "{text:?}");
        assert_eq!(date.are_valid(&["2024-02-29", text, "2024-02-29"]).unwrap(), [true, false, true]);
        assert_eq!(date.errors(text).unwrap().len(), 1, "{text:?}");
    }
    let longer = schema(Draft::Draft7, r#"{"maxLength": 1}"#);
    for text in ["a: b", "a: /b: c", "a\u{85}b", "a\u{2028}b", "a\u{b}b\u{c}c\r\n"] {
        let errors = longer.errors(text).unwrap();
        assert_eq!((errors.len(), errors[0].keyword.as_str()), (1, "maxLength"), "{text:?}");
    }
    assert_eq!(longer.errors("a: /b: c").unwrap()[0].message, r#""a: /b: c" is longer than 1 character"#);
    let long = "a".repeat(1000);
    let errors = schema(Draft::Draft7, r#"{"maxLength": 1}"#).errors(&long).unwrap();
    assert_eq!(errors[0].message, format!("\"{long}\" is longer than 1 character"));
}

#[test]
fn options_say_how_formats_are_checked() {
    let as_draft = Options { formats_as_draft: true, ..Options::default() };
    let date = Schema::compile(Draft::Draft202012, as_draft, r#"{"format": "date"}"#).unwrap();
    assert!(date.is_valid("nonsense").unwrap());
    let ignoring = Options { ignore_unknown_formats: true, ..Options::default() };
    let mail = Schema::compile(Draft::Draft7, ignoring, r#"{"format": "email"}"#).unwrap();
    assert!(mail.is_valid("nonsense").unwrap());
    let companions = Options { companion_formats: true, ..Options::default() };
    let mail = Schema::compile(Draft::Draft4, companions, r#"{"format": "email"}"#).unwrap();
    assert!(mail.is_valid("joe@example.com").unwrap() && !mail.is_valid("joe").unwrap());
    let pattern = Schema::compile(Draft::Draft4, companions, r#"{"format": "regex"}"#).unwrap();
    assert!(pattern.is_valid(r"([abc])+\s+$").unwrap() && !pattern.is_valid("^(abc]").unwrap());
    let mail = Schema::compile(Draft::Draft7, companions, r#"{"format": "idn-email"}"#).unwrap();
    assert!(mail.is_valid("j\u{fc}rgen@b\u{fc}cher.example").unwrap());
    assert!(!mail.is_valid("j\u{fc}rgen@B\u{fc}cher.example").unwrap());
}

#[test]
fn drafts_have_the_formats_and_the_content_keywords_that_they_name() {
    let drafts = [Draft::Draft4, Draft::Draft6, Draft::Draft7, Draft::Draft201909, Draft::Draft202012];
    // From which of the drafts on each is known.
    for (format, first) in [("date", 0), ("json-pointer", 1), ("iri", 2), ("uuid", 3)] {
        let object = format!(r#"{{"format": "{format}"}}"#);
        for (place, draft) in drafts.into_iter().enumerate() {
            let compiled = Schema::compile(draft, Options::default(), &object);
            assert_eq!(compiled.is_ok(), first <= place, "{format} of {draft:?}");
        }
    }
    // Draft 4 passes over it, drafts 6 and 7 check it, and the later ones note it.
    for (draft, told) in drafts.into_iter().zip([(0, 0), (1, 0), (1, 0), (0, 1), (0, 1)]) {
        let report = schema(draft, r#"{"contentEncoding": "base64"}"#).report("?").unwrap();
        assert_eq!((report.errors.len(), report.notes.len()), told, "{draft:?}");
    }
}

#[test]
fn options_stand_beside_one_another() {
    let unknown = r#"{"format": "no-format"}"#;
    for bits in 0..8 {
        let options = Options {
            formats_as_draft: bits & 1 != 0,
            ignore_unknown_formats: bits & 2 != 0,
            companion_formats: bits & 4 != 0,
        };
        // What is not checked is not refused.
        let is_taken = |draft| Schema::compile(draft, options, unknown).is_ok();
        assert_eq!(is_taken(Draft::Draft7), options.ignore_unknown_formats, "{options:?}");
        let passes = options.ignore_unknown_formats || options.formats_as_draft;
        assert_eq!(is_taken(Draft::Draft202012), passes, "{options:?}");
        let mail = Schema::compile(Draft::Draft7, options, r#"{"format": "email"}"#);
        let judged = mail.map(|schema| schema.is_valid("nonsense").unwrap());
        let passed = options.ignore_unknown_formats.then_some(true);
        assert_eq!(judged.ok(), if options.companion_formats { Some(false) } else { passed }, "{options:?}");
    }
}

#[test]
fn refusals_are_told() {
    let compile = |object| Schema::compile(Draft::Draft7, Options::default(), object).map(|_| ());
    for object in ["{}\0", "\u{feff}{}", "{},", "{}{}", " ", "null", "true", "\"{}\"", "{'a':1}", "{}\u{a0}", "[{}]"] {
        assert_eq!(compile(object), Err(CompileError::NoObject), "{object:?}");
    }
    assert_eq!(compile(" \t\r\n{} \n"), Ok(()));
    assert_eq!(compile("[]"), Err(CompileError::NoObject));
    assert_eq!(compile(""), Err(CompileError::NoObject));
    let refused = compile(r#"{"format": "uuid"}"#).unwrap_err().to_string();
    assert!(refused.starts_with("the schema object is refused at /format: Unknown format: 'uuid'"), "{refused}");
}

#[test]
fn errors_say_what_is_wrong() {
    let error = ValidationError { keyword: "format".to_owned(), message: "a: b".to_owned() };
    let told = [
        (error.to_string(), "/format: a: b"),
        (UnknownName("a\"b".to_owned()).to_string(), r#"unknown name "a\"b""#),
        (OutOfMemory.to_string(), "out of memory"),
        (CompileError::OutOfMemory.to_string(), "out of memory"),
        (CompileError::NoObject.to_string(), "the schema is no JSON object"),
        (CompileError::Refused("/a: b".to_owned()).to_string(), "the schema object is refused at /a: b"),
    ];
    for (found, wanted) in told {
        assert_eq!(found, wanted);
    }
}

#[test]
fn threads_share_a_schema() {
    let slug = schema(Draft::Draft7, r#"{"pattern": "^[a-z]+(-[a-z]+)*$"}"#);
    let ask = || (0..50).all(|_| slug.are_valid(&["a-b", "a--b"]).unwrap() == [true, false]);
    thread::scope(|scope| {
        let asked: Vec<_> = (0..8).map(|_| scope.spawn(ask)).collect();
        assert!(asked.into_iter().all(|thread| thread.join().unwrap()));
    });
}
