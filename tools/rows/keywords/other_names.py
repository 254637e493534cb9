"""Names that no format, encoding or media type has."""

# Formats of drafts 3 to 2020-12 that are not built in, names that other validators and OpenAPI have, and names that no
# draft has. `uriref` is the name of `uri-reference` in draft 5.
UNKNOWN_FORMATS = ("email", "idn-email", "idn-hostname", "regex", "color", "host-name", "ip-address", "phone",
                   "utc-millisec", "style", "uriref", "url", "json-pointer-uri-fragment", "guid", "iso-time",
                   "iso-date-time", "byte", "binary", "password", "int32", "custom", "a'\"b", "")
# Names of formats in the registry of OpenAPI, in other validators, and of rules of the RFCs, which no draft has.
OTHER_FORMATS = (
    "datetime", "date_time", "dateTime", "DateTime", "timestamp", "date-time-local", "time-local", "local-time",
    "local-date", "local-date-time", "partial-time", "full-time", "full-date", "offset-date-time", "utc-date-time",
    "http-date", "rfc3339", "rfc3339-date-time", "iso8601", "iso-date", "isodate", "iso-duration", "isoduration",
    "year", "month", "year-month", "date-fullyear", "time-offset", "unixtime", "unix-time", "epoch", "period",
    "interval", "host", "domain", "domain-name", "hostname-port", "fqdn", "idn", "ascii-hostname", "ip", "ip4", "ip6",
    "ipv4-address", "ipv6-address", "ipv4address", "ipv6address", "IPv4address", "ipv4-cidr", "ipv6-cidr", "cidr",
    "ipvfuture", "ip-literal", "inet", "mac", "mac-address", "uuid1", "uuid4", "uuid5", "uuid7", "uuidv4", "uuid-urn",
    "ulid", "urn", "uri-ref", "iri-ref", "uriReference", "uri_template", "url-reference", "uri-relative-reference",
    "relative-uri", "relative-ref", "absolute-uri", "absolute-iri", "uri-absolute", "uri-fragment",
    "uri-template-level-4", "url-template", "iri-template", "jsonpointer", "jsonPointer", "json_pointer", "json-path",
    "jsonpath", "relative-jsonpointer", "relativejsonpointer", "json-pointer-fragment", "pointer", "json",
    "json-string", "base64", "base64url", "base32", "base16", "hex", "binary16", "char", "string", "text", "html",
    "commonmark", "markdown", "media-range", "media-type", "regexp", "ecma-262", "email-address", "mailbox",
    "idn_email", "int8", "int16", "int64", "uint8", "uint16", "uint32", "uint64", "float", "double", "double-int",
    "decimal", "decimal128", "sf-string", "sf-token", "sf-binary", "sf-integer", "sf-decimal", "sf-boolean", "sf-date",
    "alpha", "alphanumeric", "identifier", "isbn", "iban", "credit-card", "credit-card-number", "currency", "country",
    "country-code", "language", "locale", "language-tag", "bcp47", "semver", "version", "port", "path", "file",
    "filename", "objectid", "phone-number", "tel", "e164", "zip", "slug", "nonsense", "unknown", "none", "null", "true",
    "*", "date|time", "date,time", "date;x", "date#", "#date", "date\n", "date\0", "\ufeffdate", "d\u0430te",
    "date\u200b", "x-date", "vnd.date", "date()", "format", "date-", "-date", "uri:", "json-schema:date")
# Names that no codec has, one letter off and of RFC 2045.
UNKNOWN_CODECS = ("Base64", "BASE64", "base6", "base644", "ase64", "base64 ", " base64", "base-64", "base64Url",
                  "base64url ", "base64-url", "base16hex", "hex", "base16 ", "base32Hex", "base32h", "base32-hex",
                  "base64_url", "base64urlsafe", "Base16", "BASE16", "Base32", "BASE32HEX", "base58", "base85", "b64",
                  "rot13", "7bit", "8bit", "binary", "identity", "quoted-printable", "x-uuencode", "gzip", "")
UNKNOWN_MEDIA_TYPES = ("Application/JSON", "application/JSON", "Application/json", "APPLICATION/json",
                       "application/jso", "application/jsonn",
                       "pplication/json", "application/json ", " application/json", "application/json;",
                       "application/json;charset=utf-8", "application/json; charset=utf-8", "application/ld+json",
                       "application/problem+json", "application/schema+json", "application/x-json", "json", "text/json",
                       "application/vnd.api+json", "application/geo+json", "application/json-patch+json",
                       "application/json-seq", "application/json5", "application/x-ndjson", "application/javascript",
                       "text/x-json", "application", "application/*", "*/*", "text/plain", "text/html",
                       "text/plain; charset=utf-8", "text/plain;charset=us-ascii", "text/csv", "text/xml",
                       "application/xml", "application/octet-stream", "application/yaml", "application/cbor",
                       "image/png", "message/rfc822", "multipart/mixed", "")
# Names of encodings and media types in other standards and programs, of lists, and with signs between their parts.
OTHER_CODECS = (
    "base-16", "base-32", "base-64url", "base_64", "base_32", "base_16", "base 64", "base64_", "base64,base16",
    "base64, base64", "gzip, base64", "base64;x", "base64;charset=utf-8", "base64/base64", "base64+x", "x-base64",
    "x-base32", "base64-mime", "base64mime", "mime", "base64pad", "base64nopad", "base64urlsafe", "urlsafe-base64",
    "url-safe-base64", "base64 url", "base32crockford", "crockford", "z-base-32", "base32-padded", "base32hexpad",
    "base16lower", "base16upper", "hexadecimal", "HEX", "base2", "base8", "base10", "base36", "base45", "base62",
    "base91", "z85", "ascii85", "uuencode", "uu", "x-uue", "yenc", "binhex", "x-gzip", "deflate", "br", "zstd",
    "compress", "x-compress", "utf-8", "utf8", "ascii", "none", "raw", "text", "plain", "string", "json", "percent",
    "url", "uri", "punycode", "7BIT", "8BIT", "BINARY", "Identity", "Quoted-Printable", "qp", "ietf-token", "*",
    "\u0062ase64\0", "base\u0436", "base64\n", "\ufeffbase64", "64", "6", "16", "base64url-nopad", "base64-nopad",
    "base64_pad", "base64;url", "base64url;x", "base64+url", "base32HEX", "base32lower", "base32upper", "zbase32",
    "base16;x", "radix-64", "pem", "us-ascii", "latin1", "urlencoded")
OTHER_MEDIA_TYPES = (
    "application/json, text/plain", "application/json,application/xml", "text/plain, application/json",
    "application/json;q=1", "application/json;version=1", "application/json;profile=x", "application/json ;x=y",
    "application/json+x", "application/+json", "+json", "/json", "application//json", "application/json/",
    "json/application", "x-application/json", "application/vnd.json", "application/hal+json",
    "application/merge-patch+json", "application/manifest+json", "application/feed+json",
    "application/schema-instance+json", "application/jwt", "application/jsonp", "application/json-p",
    "application/jsonl", "application/jsonlines", "application/json-lines", "application/x-json-stream",
    "application/stream+json", "application/bson", "application/json-patch", "application/jsonc", "application/hjson",
    "application/toml", "application/x-yaml", "text/yaml", "text/x-yaml", "text/plain+json", "text/javascript",
    "application/ecmascript", "application/x-javascript", "text/markdown", "application/x-www-form-urlencoded",
    "application/graphql", "application/msgpack", "application/zip", "application/gzip", "application/pdf",
    "text/uri-list", "text/calendar", "text/css", "image/svg+xml", "image/*", "text/*", "text", "plain",
    "application/json\n", "application/json\0", "\ufeffapplication/json", "application/\u0458son", "application\\/json",
    "application/json\t", "application:json", "application.json", "application-json", "application_json",
    "\u0061pplication /json", "application/jose+json", "application/jwk+json", "application/senml+json",
    "application/activity+json", "application/graphql+json", "application/reports+json", "application/csvm+json",
    "application/vnd.oai.openapi+json", "model/gltf+json", "multipart/form-data", "application/sql")


def near(name):
    """Names that are not the name: another case, one letter less, one more, and other signs."""
    others = [name.upper(), name[0].upper() + name[1:], name.lower(), name[:-1], name[1:], name + "s", " " + name,
              name + " ", name.replace("-", "_"), name.replace("-", "")]
    return [it for it in dict.fromkeys(others) if it not in ("", name)]
