//! One text by a format.

use crate::names::kinds;

// A check of a text: its bytes, and how many there are.
type Check = unsafe extern "C" fn(*const u8, usize) -> bool;

kinds! {
    /// A format of texts.
    Format Check, called "The name of the format, as `date-time`.";
    /// `full-date` of RFC 3339.
    Date "date" strkw_is_date,
    /// `date-time` of RFC 3339.
    DateTime "date-time" strkw_is_date_time,
    /// `duration` of RFC 3339, appendix A.
    Duration "duration" strkw_is_duration,
    /// A mail address: `Mailbox` of RFC 5321, section 4.1.2. A schema object knows it where its options say so.
    Email "email" strkw_is_email,
    /// The host names of draft 7 and later.
    Hostname "hostname" strkw_is_hostname,
    /// The host names of drafts 4 and 6.
    HostnameDraft4 "hostname-draft4" strkw_is_hostname_draft4,
    /// `dotted-quad` of RFC 2673.
    Ipv4 "ipv4" strkw_is_ipv4,
    /// RFC 4291, section 2.2.
    Ipv6 "ipv6" strkw_is_ipv6,
    /// `IRI` of RFC 3987.
    Iri "iri" strkw_is_iri,
    /// `IRI-reference` of RFC 3987.
    IriReference "iri-reference" strkw_is_iri_reference,
    /// RFC 6901.
    JsonPointer "json-pointer" strkw_is_json_pointer,
    /// A relative JSON pointer.
    RelativeJsonPointer "relative-json-pointer" strkw_is_relative_json_pointer,
    /// `full-time` of RFC 3339.
    Time "time" strkw_is_time,
    /// `URI` of RFC 3986.
    Uri "uri" strkw_is_uri,
    /// `URI-reference` of RFC 3986.
    UriReference "uri-reference" strkw_is_uri_reference,
    /// RFC 6570.
    UriTemplate "uri-template" strkw_is_uri_template,
    /// RFC 4122.
    Uuid "uuid" strkw_is_uuid,
}

impl Format {
    /// Whether a text is of the format.
    pub fn is_valid(self, text: &str) -> bool {
        // A slice leads to as many bytes as it counts, and the call keeps none of them.
        unsafe { self.check()(text.as_ptr(), text.len()) }
    }
}
