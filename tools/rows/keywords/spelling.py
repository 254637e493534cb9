"""Names in which words are spelt, joined or put together otherwise."""
from itertools import product

from rows.keywords.common import JSON, asked, named
from rows.keywords.entries import KEYWORDS
from rows.keywords.texts import ENCODERS, FORMAT_NAMES

# Words of the names of formats, each with what others write for it.
OTHER_WORDS = {
    "date": ("dates", "day", "full-date", "dt"), "time": ("times", "clock", "full-time", "tm"),
    "duration": ("durations", "period", "interval", "dur", "timespan"),
    "hostname": ("hosts", "host", "host-name", "hostnames", "hosts-name", "domain", "dns-name", "server"),
    "ipv4": ("ip-v4", "ipv-4", "ip-4", "ip-v-4", "ip_v4", "ip.v4", "v4", "ipv4s", "inet4", "ipv04"),
    "ipv6": ("ip-v6", "ipv-6", "ip-6", "ip-v-6", "ip_v6", "ip.v6", "v6", "ipv6s", "inet6", "ipv06"),
    "uri": ("uris", "url", "urn", "iri"), "iri": ("iris", "irl", "uri"),
    "reference": ("references", "ref", "refs", "relative"), "template": ("templates", "tmpl", "tpl", "pattern"),
    "uuid": ("uuids", "guid", "uid", "uu-id", "uuid-4"), "json": ("jsons", "jsn", "js"),
    "pointer": ("pointers", "ptr", "path", "point"), "relative": ("rel", "relatives", "local"),
}
# What others put before a name or behind it.
FRONTS = ("x-", "idn-", "json-", "iso-", "is-", "valid-", "format-", "format:", "$", "a", "std/", "rfc-", "i-",
          "int-", "non-")
TAILS = ("-string", "-format", "-text", "-value", "-draft4", "-v1", "2", ":", "/", "*", "?", "!", "-", "()", "-idn",
         "-type")


def names_spelt_otherwise():
    """No draft has a format by a name in which a word stands otherwise, or words are joined otherwise."""
    for name in FORMAT_NAMES:
        words = [(word, *OTHER_WORDS[word]) for word in name.split("-")]
        spelt = [joiner.join(them) for joiner in ("-", "", "_", ".", " ", ":", "/") for them in product(*words)]
        spelt += ["".join(word.title() for word in them) for them in product(*words)]
        spelt += ["-".join(them[::-1]) for them in product(*words)]
        spelt += [front + "-".join(them) for front in FRONTS for them in product(*words)]
        spelt += [name + tail for tail in TAILS]
        for other in dict.fromkeys(spelt):
            if other not in FORMAT_NAMES:
                yield named(other)


# Parts of names that are nearly those of encodings, of the media type and of keywords.
BASES = ("base", "Base", "BASE", "base-", "base_", "base.", "base ", "b", "radix", "x-base", "rfc4648-base",
         "bases", "")
SIZES = ("16", "32", "64", "32hex", "64url", "32-hex", "64-url", "32HEX", "64URL", "32_hex", "64_url", "hex32", "url64",
         "64u", "32h", "16hex", "64hex", "32url", "064", "6 4", "64-pad", "64nopad", "64std")
MEDIA_FRONTS = ("application/", "Application/", "APPLICATION/", "text/", "app/", "*/", "x-application/",
                "application/ ", "application /", "application", "/", "", "model/", "message/", "multipart/")
MEDIA_TAILS = ("json", "JSON", "Json", "x-json", "json5", "jsonc", "json-seq", "+json", "a+json", "json+a", "vnd.json",
               "json;", "json;a=b", "json; a=b", "json,", "json ", "*", "json/*", "jsons", "bson", "ndjson")
LIMIT_WORDS = (("min", "minimum", "minimal", "Min", "least", "max", "maximum", "maximal", "Max", "most"),
               ("Length", "length", "Len", "LENGTH", "Size", "Chars", "Characters", "Bytes", "CodePoints", "Lengths"))
CONTENT_WORDS = (("content", "Content", "contents", "CONTENT", "media", "body", ""),
                 ("Encoding", "encoding", "Encodings", "TransferEncoding", "MediaType", "mediaType", "MimeType", "Type",
                  "Mediatype", "MediaTypes", "Schema", "schema", "Format", "Charset"))
OTHER_KEYWORDS = ("formats", "Format", "FORMAT", "form", "formatMinimum", "patterns", "Pattern", "PATTERN", "regex",
                  "regexp", "patternProperties", "$format", "$pattern", "x-format", "x-pattern", "string.format")


def names_of_content_spelt_otherwise():
    """Encodings and media types by names that nobody has are unknown, and check nothing."""
    for name in dict.fromkeys(base + size for base in BASES for size in SIZES):
        if name not in ENCODERS:
            yield asked(7, {"contentEncoding": name}, ["!", "\u00e9=\n"])
            yield asked(6, {"contentMediaType": JSON, "contentEncoding": name}, ["{:}"])
    for name in dict.fromkeys(front + tail for front in MEDIA_FRONTS for tail in MEDIA_TAILS):
        if name != JSON:
            yield asked(7, {"contentMediaType": name}, ["{:}", "\u00e9"])


def keywords_spelt_otherwise():
    """Members by names that are nearly those of keywords are none, and add nothing."""
    def spelt(words):
        """The words joined in each way."""
        return [joiner.join(cased(it) for it in them) for them in product(*words)
                for joiner, cased in (("", str), ("-", str.lower), ("_", str.lower), (" ", str))]
    for names, values in ((spelt(LIMIT_WORDS), (-1,)), (spelt(CONTENT_WORDS), ("base64", JSON)),
                          (OTHER_KEYWORDS, ("date", "^b"))):
        for name, value in product(dict.fromkeys(names), values):
            if name not in KEYWORDS:
                yield asked(7, {name: value, "maxLength": 3}, ["a{b", "abcd"])
