"""URIs and IRIs, templates and pointers: RFC 3986, 3987, 6570 and 6901."""
import itertools
import re

from rows.grammars.common import (ASCII, BYTE_ORDER_MARK, accepted_between, around, by_pairs, changed_row, characters,
                                  counts, decorated_row, in_forms, pair_rows, repeated, short_rows, sums, texts, whole,
                                  with_each, word_rows, words)
from rows.grammars.hosts import DOTTED, IPV6, OTHER_ADDRESSES, spelled_addresses

# URIs: RFC 3986, appendix A; IRIs: RFC 3987, section 2.2, with its classes of characters past ASCII.

ASTRAL_RANGES = [(plane * 0x10000 + (0x1000 if plane == 14 else 0), plane * 0x10000 + 0xFFFD) for plane in range(1, 15)]
UCS_RANGES = [(0xA0, 0xD7FF), (0xF900, 0xFDCF), (0xFDF0, 0xFFEF)] + ASTRAL_RANGES
PRIVATE_RANGES = [(0xE000, 0xF8FF), (0xF0000, 0xFFFFD), (0x100000, 0x10FFFD)]
SUB_DELIMS = "!$&'()*+,;="


def in_class(ranges):
    """The ranges as they stand in a class of a pattern."""
    return "".join(f"\\U{low:08x}-\\U{high:08x}" for low, high in ranges)


def uri_rules(is_iri):
    """The rules `URI` and `URI-reference`, or those of IRIs."""
    wide = in_class(UCS_RANGES) if is_iri else ""
    private = in_class(PRIVATE_RANGES) if is_iri else ""
    unreserved = rf"A-Za-z0-9._~\-{wide}"
    delims = re.escape(SUB_DELIMS)
    escape = "%[0-9A-Fa-f]{2}"
    pchar = rf"(?:[{unreserved}{delims}:@]|{escape})"
    future = rf"[vV][0-9A-Fa-f]+\.[A-Za-z0-9._~\-{delims}:]+"
    host = rf"(?:\[(?:{IPV6}|{future})\]|(?:[{unreserved}{delims}]|{escape})*)"
    authority = rf"(?:(?:[{unreserved}{delims}:]|{escape})*@)?{host}(?::[0-9]*)?"
    empty_or_more = rf"(?:/{pchar}*)*"
    absolute = rf"/(?:{pchar}+(?:/{pchar}*)*)?"
    no_colon = rf"(?:[{unreserved}{delims}@]|{escape})+"
    tail = rf"(?:\?(?:{pchar}|[/?{private}])*)?(?:#(?:{pchar}|[/?])*)?"
    with_scheme = rf"[A-Za-z][A-Za-z0-9+.\-]*:(?://{authority}{empty_or_more}|{absolute}|{pchar}+(?:/{pchar}*)*|){tail}"
    relative = rf"(?://{authority}{empty_or_more}|{absolute}|{no_colon}(?:/{pchar}*)*|){tail}"
    return whole(with_scheme), whole(f"(?:{with_scheme})|(?:{relative})")


URI_RULES = dict(zip(("uri", "uri-reference", "iri", "iri-reference"), (*uri_rules(False), *uri_rules(True))))


def parts_of_uris():
    """Each part empty and not, with colons, ats and brackets: the parts that change are told by turns."""
    users = ["", "@", "a@", ":@", "a:@", ":b@", "::@", "a:b:c@", "%41:@", "a@b@", "a:'@", "\u00e9:\u00a0@",
             "a:\ue000@", "%4:@", "[@"]
    hosts = ["", "h", "[::1]", "1.2.3.4", "[v1.a:b]", "[V0F.']", "[1.2.3.4]", "[::1%25a]", "h%2e", "\u00e9", "a[b]",
             "256.1.1.1", "[]"]
    ports = ["", ":", ":0", ":8", ":65535", ":65536", ":9999999", ":a", ":8a", ":8:9", ":-1", ":٣"]
    tails = ["", "/", "//", "/a//b", "/:", "?", "??", "?a/?", "#", "?#", "#?", "##", "/a?b#c", "?\ue000", "#\ue000",
             "/\ue000", "/%", "/%4"]
    for heads in ("a://", "//", "a+-.1://", "1a://", "a:///", "///"):
        for user, host, port in itertools.product(users, hosts, ports[:4]):
            yield f"{heads}{user}{host}{port}"
        for host, port, tail in itertools.product(hosts[:4], ports, tails):
            yield f"{heads}{host}{port}{tail}"


def paths_of_uris():
    """Two segments of each kind, with a slash between them or none, behind each beginning of a URI."""
    segments = ["", "a", ":", "@", "a:b", "%3A", "'", "\u00e9", "\ue000", "[", "%g", ".", "..", "1", "+", "\\", "|",
                BYTE_ORDER_MARK]
    for one, other in itertools.product(segments, repeat=2):
        for head in ("", "/", "a:", "a:/", "./", "?", "#"):
            yield f"{head}{one}/{other}"
            yield f"{head}{one}{other}"


def ends_of_authorities():
    """What ends an authority, and behind it what an authority would have read in another way."""
    parts = (("a://", "//"), ("", "u@"), ("", "h", "[::1]"), ("", ":", ":8"))
    starts = ["".join(some) for some in itertools.product(*parts)]
    tails = [":a", ":8:a", "a@b:c", "@", "a:b@[", "[::1]", "//", "?", "#", "\u00e9:a"]
    return [start + end + tail for start in starts for end in "/?#" for tail in tails]


def ends(ranges):
    """The ends of ranges, and the characters beside them."""
    beside = {at + step for low, high in ranges for at in (low, high) for step in (-1, 0, 1)}
    return "".join(chr(at) for at in sorted(beside) if at < 0xD800 or 0xDFFF < at <= 0x10FFFF)


URI_PLACES = {
    "iri": [["a://", "b@c"], ["a://b:", "c@d"], ["a://b", ""], ["a://", ":8"], ["a://b@", "/"], ["a://b/", "c"],
            ["a:/", ""], ["a:", ""], ["a:b", "/c"], ["a:?", ""], ["a:?b", "#"], ["a:#", ""], ["a:#b", "c"],
            ["a://[v1.", "]"], ["a", ":b"], ["a://b:8", ""], ["a://b:c", "@d"]],
    "iri-reference": [["//", "b@c"], ["//b:", "c@d"], ["//", ""], ["//b@", ":8"], ["/", ""], ["//b/c/", ""], ["", ""],
                      ["b", "/c"], ["b/", ""], ["?", ""], ["?b", "#c"], ["#", ""], ["#b", ""], ["b/c:", ""],
                      ["a:?b", ""], ["//b:c", "@d"]],
}


def uri_character_rows():
    """Characters at each place of a URI, those past ASCII and all of ASCII."""
    yield "the ends of each range of characters past ASCII, and one off each end, at each place"
    tried = ends(UCS_RANGES + PRIVATE_RANGES)
    for of, places in URI_PLACES.items():
        of_uri = of.replace("iri", "uri")
        for before, behind in places:
            accepted = accepted_between(URI_RULES[of], tried, before, behind)
            yield characters(of, accepted, [[before, behind]], tried)
            yield characters(of_uri, "", [[before, behind]], tried)
            accepted = accepted_between(URI_RULES[of], ASCII, before, behind)
            yield characters(of, accepted, [[before, behind]])
            yield characters(of_uri, accepted, [[before, behind]])
    yield "the same in texts that are read by blocks"
    filled = "a" * 60
    for of, places in URI_PLACES.items():
        for before, behind in places[:13]:
            accepted = accepted_between(URI_RULES[of], ASCII, before + filled, filled + behind)
            for asked in (of, of.replace("iri", "uri")):
                yield characters(asked, accepted, [[before + filled, filled + behind]])


def uri_length_rows():
    """Long parts of URIs, and escapes at each place of a block."""
    yield "lengths to 1,000: schemes, ports, userinfos, hosts, paths, queries and fragments"
    places = (["a", ":"], ["a://b:1", ""], ["a://", "@b"], ["a://b:", "@c"], ["a://", ""], ["a:/", ""], ["a:?", ""],
              ["a:#", ""], ["a://[v1.a", "]"])
    for place, of in itertools.product(places, ("uri", "iri")):
        yield counts(of, "1", 0, 1000, 1001, [place])
    yield "an escape at each place of a block, whole and broken"
    whole_ones = [["/", "%4a"], ["/", "%4a" + "a" * 40], ["?", "%Fa"], ["#", "%fF"], ["//", "%00@b"]]
    for of in ("uri-reference", "iri-reference"):
        for escape in ("%4", "%", "%4g", "%g4", "%%41"):
            broken = [["/", escape], ["/", escape + "g" * 40], ["?", escape], ["#", escape], ["//", escape + "@b"]]
            yield counts(of, "a", 1, 0, 100, broken)
        yield counts(of, "a", 0, 99, 100, whole_ones)
    yield "an escape in a block, and behind it, at each place, what ends the part or stands in none"
    filled = "b" * 70
    ended = [["/%41", f"?{filled}"], ["/%41", f"#{filled}"], ["?%41", f"#{filled}"], ["//%41", f"/{filled}"],
             ["//%41", f":8/{filled}"], ["//%41", f"@{filled}"], ["//b:%41", f"@{filled}"]]
    heads = ("/%41", "?%41", "#%41", "//%41")
    spoilt = [[before, f"{other}{filled}"] for before in heads for other in ("[", "%g4", "%%41")]
    for of in ("uri-reference", "iri-reference"):
        yield counts(of, "a", 0, 99, 100, ended)
        yield counts(of, "a", 1, 0, 100, spoilt)


def bracket_rows():
    """Addresses between brackets."""
    yield "between brackets: groups of five digits, an IPv4 address at the end, zones, and a future version"
    lasts = ("00001", "0abcd", "1", "abcd", "1.2.3.4", "01.2.3.4", "1.2.3.04", "1.2.3.256", "1.2.3", "0001.2.3.4",
             "1%25e", "1%e", "v1.a", "[1]")
    forms = ("::{}", "1:2:3:4:5:6:7:{}", "1:2:3:4:5:6:{}", "{}::1", "1::{}:1", "{}")
    places = {"uri": "a://{}", "uri-reference": "//{}", "iri": "a://u@{}:8/p", "iri-reference": "//{}?q"}
    for of, place in places.items():
        yield texts(of, [place.format(f"[{inside}]") for inside in in_forms(forms, lasts)], URI_RULES[of])
    addresses = [f"[{address}]" for address in [*spelled_addresses(), *in_forms(("::{}",), by_pairs(DOTTED, 1)),
                                                *OTHER_ADDRESSES]]
    for at, (of, place) in enumerate(places.items()):
        yield texts(of, in_forms((place,), addresses[at % 2::2]), URI_RULES[of])


# What may stand at one place of a URI and not at another: percent-encodings, delimiters, and characters past ASCII.
URI_CONSTRUCTS = ["%41", "%3a", "%2F", "%00", "%25", "%C3%A9", "%80", "%", "%4", "%g1", "%u0041", "é", "\u0661",
                  "\uff11", "\uff0f", "\u200d", "\u202e", "\ue000", "\U0010fffd", "\ufeff", ":", "::", "//", "@",
                  "a@", "[", "]",
                  "[::1]", "?", "#", "..", "\\", "{a}", "+", "-", ".", "1", "v1", "g", " ", "0x1", "*", "_", "~"]
CONSTRUCT_PLACES = [["", ":b"], ["a", ":b"], ["a", "://b"], ["a:", "/b"], ["a:", "//b"], ["a://", "b"], ["a://b", "@c"],
                    ["a://@", ""], ["a://b", ""], ["a://b:", ""], ["a://b:8", ""], ["a://b:8", "/c"], ["a://[", "]"],
                    ["a://[::", "]"], ["a://[::1", "]"], ["a://[1:2:3:4:5:6:7:8", "]"], ["a://[::1.2.3.4", "]"],
                    ["a://[v", ".a]"], ["a://[v1", ".a]"], ["a://[v1", "a]"], ["a://[v1.", "]"], ["a://[v1.a", "]"],
                    ["a://[v1.", "a]:8"], ["a://[::1]", ""], ["a://[::1]:", ""], ["a://b@[v1.c", "]/d"],
                    ["a://1.2.3.", ""], ["a:/", "b"], ["a:b/", "/c"], ["a:?", "b"], ["a:?b", "#c"], ["a:#", "b"]]


def uri_construct_rows():
    """Each construct at each place of URIs and of references."""
    yield ("each construct at each place: percent-encodings, and in IRIs characters past ASCII, stand in userinfos, "
           "names, paths, queries and fragments alone (RFC 3986, appendix A; RFC 3987, section 2.2)")
    relative = [[before.removeprefix("a:"), behind] for before, behind in CONSTRUCT_PLACES if before.startswith("a:")]
    of_uris, of_references = with_each(URI_CONSTRUCTS, CONSTRUCT_PLACES), with_each(URI_CONSTRUCTS, relative)
    for of, rule in URI_RULES.items():
        yield texts(of, of_references if of.endswith("reference") else of_uris, rule)
    yield "a scheme's own rules are not asked, nor a host name's, nor a normal form or a direction"
    schemes = ("http", "https", "ftp", "file", "ws", "urn", "mailto", "tel", "data", "news", "ldap", "javascript",
               "about", "geo", "tag", "uuid", "localhost", "HTTP", "x" * 40)
    behinds = ("", "a", "//", "///", "/", "//a", "/a", "a@b", "//a@b", "a:b", "+1-2", "abc", ",", "//:80", "//-a-",
               "//a_b", "//.", "//a..b", "//a.", "//1.2.3", "//256.1.1.1", "//xn--a", "///C:/a", "//a:99999", "?a",
               "#a",
               "*", "//%00")
    yield texts("uri", [f"{scheme}:{behind}" for scheme in schemes for behind in behinds], URI_RULES["uri"])
    for letters in ("a1\u05d0\u0660", "e\u0301\u00c9\u0958", "a\u200d\u0627\uff41", "\u4e00\u0430-\u30fb"):
        made_words = words(letters, (1, 2, 3))
        yield texts("iri", in_forms(("a://{}", "a://{}@b", "a://b/{}"), made_words), URI_RULES["iri"])
        yield texts("iri-reference", in_forms(("{}", "?{}", "//b/?{}", "#{}"), made_words), URI_RULES["iri-reference"])
    yield "what other programs pass over, put around a text or take for a character of it"
    for of, rule in URI_RULES.items():
        yield decorated_row(of, ("a+b://c:d@e-f:8/g/%41?h#i", "ab:c", "//[::1]:8/", "b/c?d"), rule)
        wholes = ("a1://b:c@d:80/e/?f#g", "a:b/%C3c", "a://[v1f.a:b]:8/", "a://[1::2:3.4.5.6]?", "a:/b?#")
        yield changed_row(of, wholes, rule)
        if of.endswith("reference"):
            yield changed_row(of, ("//a@b:1/c", "a/b:c?d#e", "/a//b", "?a", "#a", "./a:b"), rule)
        for before, behind in (("a:", ""), ("a://", ""), ("a://", "@b"), ("a:?", ""), ("a:#", ""), ("a:b/", "/c"),
                               ("a://b:", "")):
            tail = before.removeprefix("a:") if of.endswith("reference") else before
            yield counts(of, "1", 0, 1000, 1001, [[tail, behind]])
    yield "all characters of two planes, and some of each other one, in each part of an IRI"
    for of, before, behind in (("iri", "a://", ""), ("iri", "a://", "@b"), ("iri", "a:", ""), ("iri", "a:?", ""),
                               ("iri", "a:#", ""), ("iri-reference", "", "")):
        yield sums(of, [[before, behind]], lambda point, of=of, before=before, behind=behind:
                   URI_RULES[of](before + chr(point) + behind), 0x4000, 0x20000)
    yield "what stands around a text of each kind"
    wholes = ("a:", "a:b", "a:b:c", "a://b", "a://[::1]", "a://b:8", "a://b/c", "a:/b", "a:b?", "a:b?c", "a:b#",
              "a:b?c#d",
              "", "b", "b/c:d", "./b:c", "/b", "//b", "//[::1]", "//b:8", "?b", "#b", "a://\u00e9/\u00e9", "\u00e9",
              "?\u00e9")
    for of, rule in URI_RULES.items():
        yield texts(of, [other for text in wholes for other in [text, *around(text)]], rule)


# The parts of a URI: a scheme, a userinfo, a host, a port, a path, a query and a fragment, right and wrong ones.
SCHEMES = (["a:", "Ab:", "http:", "A1:", "x+y:", "x-y.z:", "file:", "c:"],
           ["1a:", "+a:", "a_b:", "\u00e9:", "%41:", ":"])
USERS = (["", "@", "u@", ":@", "u:p@", "u:p:q@", "%40@", "a%3ab@", "!$&'()*+,;=@", "~-._@"],
         ["u@v@", "[@", "%4@", "^@"])
HOSTS = (["", "h", "h.", "a.b-c", "_h", "~", "%68%2e", "!$&'()*+,;=", "1.2.3.4", "256.1.1.999", "1.2.3", "[::]",
          "[1::2]", "[::ffff:1.2.3.4]", "[1:2:3:4:5:6:7:8]", "[v1.a]", "[VFf.x:y!]"],
         ["[", "]", "[]", "[::1", "::1]", "[1.2.3.4]", "[::1%25e]", "[v.a]", "[v1.]", "h|", "%"])
PORTS = (["", ":", ":0", ":00", ":80", ":65535", ":65536", ":99999999999999999999"], [":a", ":-1", ":8:9", ":%38"])
TAILS = (["", "/", "//", "/a", "/a/", "/a//b", "/.", "/..", "/../a", "/a/./b", "/:", "/a:b", "/@", "/a@b:c", "/%2F",
          "/%00", "/%ff%41", "/!$&'()*+,;=", "/~-._", "/1"], ["/[", "/]", "/%", "/%4g", "/|", "/^", "/\\"])
QUERIES = (["", "?", "??", "?a", "?a=b&c", "?/", "?a/b?c", "?:@", "?//h", "?%23", "?!$&'()*+,;=", "?a:b", "?@"],
           ["?[", "?]", "?%", "?|", "?{}", "? "])
FRAGMENTS = (["", "#", "#a", "#/a?b", "#?", "#//h", "#:@", "#%23", "#!$&'()*+,;=", "#a:b", "#@"],
             ["##", "#a#", "#[", "#%g1", "#\""])
ROOTLESS = (["a", "a/b", "a:b", ":", "@", "a@b", "1", ".", "..", "./a:b", "../", "a//b", "%41", "%3a:", "'", "~", "*:",
             "a/b:c", "+1", "1a:b", "a/", "a/b/"], ["[", "%", "a|b", "\\", "<a>"])
WIDE_OF = {"userinfo": (USERS, ["\u00e9@", "a:\u4e00@", "\u202e@"], ["\ue000@"]),
           "host": (HOSTS, ["\u00e9", "b\u00fccher.\u4e2d", "\uff0e", "\u200d.a", "%C3\u00e9"], ["\ue000", "[\u00e9]"]),
           "path": (TAILS, ["/\u00e9", "/\U00020000/a", "/a:\uffef"], ["/\ue000", "/\ufdd0"]),
           "rootless": (ROOTLESS, ["\u00e9", "\u00e9:a", "a/\u4e00"], ["\uf8ff", "\ufffe"]),
           "query": (QUERIES, ["?\u00e9", "?\ue000", "?a\U000f0000/\U0010fffd"], ["?\ufdd0", "?\U000fffff"]),
           "fragment": (FRAGMENTS, ["#\u00e9", "#\u4e00?"], ["#\ue000", "#\U00100000"])}


def pairs_of_uris(of):
    """URIs or IRIs of all parts, with each choice of each part beside each of each other one.

    What is wrong is asked of URIs and of references of IRIs, which are read alike.
    """
    def part(name):
        """The choices of a part. For IRIs they have characters past ASCII, which are all wrong ones for URIs."""
        (rights, wrongs), wide, none = WIDE_OF[name]
        return (rights + wide, wrongs + none) if of.startswith("iri") else (rights, wrongs + wide[:1] + none[:1])

    schemes = ([*SCHEMES[0][:6], ""], SCHEMES[1]) if of.endswith("reference") else SCHEMES
    ends = [part("query"), part("fragment")]
    absolute = (["", *[tail for tail in TAILS[0] if tail[:2] != "//"]], TAILS[1])
    for parts in ([schemes, (["//"], [":"]), part("userinfo"), part("host"), PORTS, part("path"), *ends],
                  [schemes, part("rootless"), *ends], [schemes, absolute, *ends]):
        yield from by_pairs([part if of in ("uri", "iri-reference") else (part[0], []) for part in parts], 1)


# A percent-encoding of each byte, in each choice of letter cases.
ENCODED_BYTES = [f"%{first}{second}" for first, second in itertools.product("0123456789abcdefABCDEF", repeat=2)]
PLACES_OF_PAIRS_IN_URIS = ("a://{}@b", "a://c{}", "a:/{}", "a:{}", "a:?{}", "a:#{}", "a://[v1.{}]", "a://b:8{}", "{}:b")
WORDS_OF_URIS = [("{}", ":/?#@[]a", (3, 4)), ("a:{}", "/:?#@1", (3, 4)), ("//{}", "a:@[]/", (3, 4)),
                 ("a://{}", "a:@%.1", (3, 4)), ("a://[{}]", "v1.a:F", (2, 3, 4)), ("{}", "a1+.-:", (3, 4)),
                 ("a/{}", "%4aG/", (3, 4)), ("?{}", "%2F?#", (3, 4))]
WORDS_OF_TEMPLATES = [("{}", "{}a,:1*", (3, 4)), ("{{{}}}", "a,.:*1%4", (3, 4)), ("{{a{}", "}}{,*:0", (3, 4)),
                      ("{{{}b}}", "+#a?&,.", (2, 3)), ("{{a:{}}}", "019,*b", (2, 3, 4)), ("a{}", "%4g{}'", (3, 4))]
WORDS_OF_POINTERS = [("{}", "/~01a#", (3, 4)), ("/{}", "~012/", (3, 4, 5))]
WORDS_OF_RELATIVE_POINTERS = [("{}", "01/~#a-+", (3, 4)), ("1{}", "/~01#", (3, 4, 5))]
WORDS_OF_IRIS = [*WORDS_OF_URIS, ("{}", ":/?#\u00e9\ue000", (3, 4)), ("//{}", "\u00e9:@\ue000", (3, 4)),
                 ("{}:", "a\u00e9\ue0001", (2, 3))]


def uri_rows():
    """The rows of URIs, IRIs, their references, templates and pointers."""
    yield from word_rows([
        *[(of, rule, WORDS_OF_IRIS if of.startswith("iri") else WORDS_OF_URIS) for of, rule in URI_RULES.items()],
        ("uri-template", whole(TEMPLATE), WORDS_OF_TEMPLATES),
        ("json-pointer", whole(f"(?s:{POINTER})"), WORDS_OF_POINTERS),
        ("relative-json-pointer", whole(rf"(?s:(?:0|[1-9][0-9]*)(?:#|{POINTER}))"), WORDS_OF_RELATIVE_POINTERS)])
    yield from pair_rows([
        ("uri", URI_RULES["uri"], PLACES_OF_PAIRS_IN_URIS),
        ("iri-reference", URI_RULES["iri-reference"], [form.removeprefix("a:") for form in PLACES_OF_PAIRS_IN_URIS]),
        ("uri-template", whole(TEMPLATE), ("a{}b", "{{{}}}", "{{a{}b}}", "{{+a,{}}}")),
        ("json-pointer", whole(f"(?s:{POINTER})"), ("/{}", "/a~0{}")),
        ("relative-json-pointer", whole(rf"(?s:(?:0|[1-9][0-9]*)(?:#|{POINTER}))"), ("1{}", "0/{}"))])
    yield "each byte percent-encoded, with digits of base 16 in each letter case, at each place: none asks what it is"
    places = ("a://{}@b", "a://{}", "a:/{}", "a:{}b", "a:?{}", "a:#{}", "a://[v1.{}]", "{}:b")
    for of, rule in URI_RULES.items():
        forms = [form.removeprefix("a:") if of.endswith("reference") else form for form in places]
        yield texts(of, in_forms(forms, ENCODED_BYTES), rule)
    yield texts("uri-template", in_forms(("{}", "{{{}}}", "{{a.{}*}}", "{{?a,{}:3}}"), ENCODED_BYTES), whole(TEMPLATE))
    yield from short_rows({**URI_RULES, "uri-template": whole(TEMPLATE), "json-pointer": whole(f"(?s:{POINTER})"),
                           "relative-json-pointer": whole(rf"(?s:(?:0|[1-9][0-9]*)(?:#|{POINTER}))")})
    yield ("URIs, IRIs and their references: empty parts, userinfos with colons, ports, and what follows "
           "(RFC 3986, appendix A; RFC 3987, section 2.2)")
    authorities, paths = list(parts_of_uris()), list(paths_of_uris())
    for step, of in enumerate(("uri", "uri-reference", "iri", "iri-reference")):
        yield texts(of, authorities[step::4] + paths[step::4], URI_RULES[of])
    yield "what ends an authority, and what stands behind it"
    for of, rule in URI_RULES.items():
        yield texts(of, ends_of_authorities(), rule)
    yield "each sign and each escape some times over, at each place: a rule admits it once or as often as one likes"
    signs = [*SUB_DELIMS, *"-._~:@/?#%[", "%41", "%c3%A9", "/.", "../", "a:", "1"]
    places = [["a://", "@b"], ["a://b", "c@d"], ["a://", ""], ["a://b", ":8/"], ["a://b:", "/"], ["a://b/", ""],
              ["a:/b", "/c"], ["a:", "b"], ["a:?", ""], ["a:b?c", "#d"], ["a:#", ""], ["a:?b#c", "d"],
              ["a://[v1.", "]"], ["a://[v1", ".a]"], ["a", ":b"]]
    of_references = [[before.removeprefix("a:"), behind] for before, behind in places[:-1]] + [["./", ""], ["b", "/c"]]
    for of, rule in URI_RULES.items():
        wide = ["\u00e9", "\ue000", "\u202e"] if of.startswith("iri") else []
        yield repeated(of, signs + wide, of_references if of.endswith("reference") else places, rule)
    yield "each choice of a part with each of each other part, right ones and one wrong one: no two are against another"
    for of, rule in URI_RULES.items():
        yield texts(of, pairs_of_uris(of), rule)
    yield from uri_character_rows()
    yield from uri_length_rows()
    yield from bracket_rows()
    yield from uri_construct_rows()
    yield from template_rows()
    yield from pointer_rows()


# URI templates: RFC 6570, section 2, with the apostrophe in a literal and any character past ASCII.

VARNAME = r"(?:[A-Za-z0-9_]|%[0-9A-Fa-f]{2})(?:\.?(?:[A-Za-z0-9_]|%[0-9A-Fa-f]{2}))*"
VARSPEC = rf"{VARNAME}(?::[1-9][0-9]{{0,3}}|\*)?"
EXPRESSION = rf"\{{[+#./;?&=,!@|]?{VARSPEC}(?:,{VARSPEC})*\}}"
TEMPLATE = rf"(?:[!#$&'()*+,\-./0-9:;=?@A-Z\[\]_a-z~\u0080-\U0010ffff]|%[0-9A-Fa-f]{{2}}|{EXPRESSION})*"


def templates():
    """Each operator and what is none, names with modifiers, and braces in each order."""
    names = ["a", "A_9", "a.b", "a..b", ".a", "a.", "", "%41", "%4", "a%41.b", "é", "a-b", "a b", "＿", "a.%41", "%41.",
             "*", "a" * 300]
    modifiers = ["", "*", "**", ":1", ":9", ":10", ":9999", ":10000", ":12345", ":0", ":01", ":", ":a", ":1*", "*:1",
                 ":1:2", ":٣"]
    operators = ["", *"+#./;?&=,!@|", *"$^-_~()[]<>'\"%:*\\{}0", "++", "#+", "é"]
    for operator, name in itertools.product(operators, ["a", "a,b", "", "a*", "a:3,b*"]):
        yield f"{{{operator}{name}}}"
    for name, modifier in itertools.product(names, modifiers):
        yield from (f"{{{name}{modifier}}}", f"{{?b,{name}{modifier}}}", f"{{{name}{modifier},b:3}}")
    yield from ("{a}{b}", "{a}}", "{{a}}", "{a", "a}", "{a{b}}", "x{a}y%20{+b}", "{a},{b}", "{a,,b}", "{,a,}", "{a\n}")
    yield from ("%", "%4", "%4g", "\ufeff{a}", "'")
    yield from (f"a%{one}{other}" for one in "1[]!~" for other in "1[]!~")
    yield from (f"{{a:{length}}}" for length in words("019", (1, 2, 3, 4, 5)))


LITERALS = (["", "a", "/", "'", "[]", "%41", "\u00e9", "\ue000", "\U0010ffff", "{x}", "{+y*}", "!$&()*+,;=:@"],
            ["%", "%4", "|", "^", "`", " ", "}", "{", "\"", "\\", "<a>", "\u007f"])
OPERATORS = (["", *"+#./;?&=,!@|"], ["$", "++", "-", "~", ":", "*", "?&"])
NAMES_OF_VARIABLES = (["a", "A", "9", "_", "a_9", "a.b", "a.b.c", "%41", "a%4A", "a.%c3%A9", "%c3.9", "0.0"],
                      ["", ".a", "a.", "a..b", "a-b", "a~", "%4", "\u00e9", " a", "{a", "a b"])
MODIFIERS = (["", "*", ":1", ":9", ":10", ":999", ":9999"],
             [":", ":0", ":01", ":10000", ":1*", "*:1", "**", ":a", "+", "="])
FURTHER = (["", ",b", ",b*", ",%41:3", ",b.c,d:9999", ",a", ",_,9*,a"],
           [",", ",,b", ", b", ",+b", ",b-c", ",b:0", ";b", ",b*,"])


def template_rows():
    """The rows of URI templates."""
    yield "templates: each operator, names and modifiers (RFC 6570, section 2)"
    is_template = whole(TEMPLATE)
    yield texts("uri-template", templates(), is_template)
    wide = ends(UCS_RANGES + PRIVATE_RANGES)
    places = (["", ""], ["a", "b"], ["{a}", "{b}"], ["{", "}"], ["{a", "}"], ["{a.", "}"], ["{a:", "}"], ["{a,", "}"])
    for (before, behind), tried in itertools.product(places, (ASCII, wide)):
        accepted = accepted_between(is_template, tried, before, behind)
        yield characters("uri-template", accepted, [[before, behind]], tried)
    yield "all characters of two planes in a literal, and between braces"
    for before, behind in (("", ""), ("{a", "}")):
        yield sums("uri-template", [[before, behind]], lambda point, before=before, behind=behind:
                   is_template(before + chr(point) + behind), 0x4000, 0x20000)
    yield "what other programs pass over, put around a text or take for a character of it"
    yield decorated_row("uri-template", ("a/{b}", "{+c,d.e*}", "{?f:3}%41"), is_template)
    yield changed_row("uri-template", ("{a}", "a{+b.c*,d:10}e", "{?%41_1,b}%4a", "{a}{b}", "{|a:9999}"), is_template)
    expressions = [f"{{{one}a}}{{{other}b*}}" for one, other in itertools.product(["", *"+#./;?&=,!@|"], repeat=2)]
    yield texts("uri-template", expressions, is_template)
    yield counts("uri-template", "a.", 0, 500, 501, [["{", "b}"], ["{?b,", "c:10}"]])
    yield counts("uri-template", "a,", 0, 500, 501, [["{", "b}"], ["{&", "b*}"]])
    yield counts("uri-template", "%4a", 0, 330, 331, [["", ""], ["{a", "}"]])
    yield "each sign some times over, in literals, names and lists"
    signs = ["a", "_", "%41", ".a", "._", ".%41", "..", ",a", ",a*", ",a:1", ",%41.b:9999", ",", "*", ":1", "1", "{a}",
             "{+a*}", "}{", "/", "'", "%", "[", "\u00e9", "\ue000", "{?a,b}x", "!", "$", "&", "(", "=", "@", "~", "|"]
    places = [["", ""], ["a", "b"], ["{a", "}"], ["{a.", "b}"], ["{?a,", "b}"], ["{a", "*,b}"], ["{", "a}"],
              ["{a:", "}"], ["{a}", "{b}"]]
    yield repeated("uri-template", signs, places, is_template)
    yield "each choice of a part with each of each other part: literals, operators, names, modifiers, more variables"
    parts = [LITERALS, (["{"], ["", "{{"]), OPERATORS, NAMES_OF_VARIABLES, MODIFIERS, FURTHER, (["}"], ["", "}}"]),
             LITERALS]
    yield texts("uri-template", by_pairs(parts, 1), is_template)
    yield "a rule of a variable holds in each of three, and in each of two expressions"
    variables = ["a", "a-b", "%41", "a%4a", "a.b", "a..b", ".a", "a.", "a:1", "a:10", "a:9999", "a:10000", "a:0",
                 "a:01", "a*", "a:1*", "a*:1", "a_b", "_a", "1a", "1", "+a", "?a", " a", "a ", "a$b", "$a", "A",
                 "%c3%A9", "%4", "%", "", "\u00e9", "a~", "a=b", "*", ":1"]
    lists = [",".join(["b"] * before + [it] + ["b"] * behind) for it in variables for before in range(3)
             for behind in range(3 - before)]
    forms = ("{{{0}}}", "{{?{0}}}", "{{b}}{{{0}}}", "{{{0}}}{{b}}", "{{+b,b}}c{{;{0}}}")
    yield texts("uri-template", in_forms(forms, lists), is_template)
    yield "a character stands in a literal before the first expression as behind the last, and between two"
    for before, behind in (("", "{a}"), ("b", "{a}"), ("{a}", ""), ("{a}b", "c"), ("{a}b", "{c}"), ("{a}{b}", "c")):
        yield characters("uri-template", accepted_between(is_template, ASCII, before, behind), [[before, behind]])
    yield "what stands around a template"
    wholes = ("a", "{a}", "a{b}", "{a}b", "%41", "", "'")
    yield texts("uri-template", [other for text in wholes for other in [text, *around(text)]], is_template)
    yield "templates: each operator before two variables of each kind, three in a row, and parts of each kind in a row"
    variables = ["a", "_9", "a:3", "%c3%A9", "a.b:9999", "a*", "a:0"]
    operators = ["", *"+#./;?&=,!@|", "$", "++"]
    yield texts("uri-template", [f"{{{operator}{one},{other}}}" for operator in operators
                                 for one, other in itertools.product(variables, repeat=2)], is_template)
    lists = [",".join(some) for some in itertools.product(variables, repeat=3)]
    yield texts("uri-template", [f"{{{some}}}" for some in lists], is_template)
    parts = ["{a}", "{+b*}", "{?c,d:1}", "x", "%41", "%4", "'", "é", "}", "/", "{"]
    yield texts("uri-template", words(parts, (1, 2, 3)), is_template)
    yield "each construct at each place of an expression, beside it and in a literal"
    constructs = ["%41", "%c3%a9", "%4", "%", "{b}", "{", "}", "{}", "a", ".", "..", ".a", "a.", ":1", ":", ":10000",
                  "*", "**", "*:1", ":1*", ":1:1", ",", "b,c", ",,", "+b", "+", "\u00e9", "\u0661", "\uff11",
                  "\u200d", "-", "_", "~", " ", "\"", "'", "<", "|", "^", "\\", "`", "$a", "a=1", "a[0]", "a/b",
                  "a|b", "0", "\u0080", "\u007f"]
    places = [["{", "}"], ["{a", "}"], ["{a.", "}"], ["{a,", "}"], ["{", ",a}"], ["{a:", "}"], ["{a:1", "}"],
              ["{a:123", "}"], ["{a*", "}"], ["{?", "}"], ["{?a", "}"], ["{?a,", ",b}"], ["{|", "b}"], ["{%41", "}"],
              ["", "{a}"], ["{a}", ""], ["a", "b"], ["", ""], ["{a", ""], ["", "a}"]]
    yield texts("uri-template", with_each(constructs, places), is_template)
    yield counts("uri-template", "9", 1, 4, 1001, [["{a:", "}"]])
    yield counts("uri-template", "9", 0, 1000, 1001, [["{a", "}"], ["{a,b", "*}"], ["", "{a}"]])


# JSON pointers: RFC 6901, section 3; relative ones: draft-handrews-relative-json-pointer-02, section 3.

POINTER = r"(?:/(?:[^/~]|~[01])*)*"


def pointers():
    """Two tokens of each kind, and escapes before and behind many letters."""
    tokens = ["", "a", "~0", "~1", "~2", "~", "~~", "~0~1", "~01", "~ ", "~é", "é", "%7e", "\n", "\u0000",
              BYTE_ORDER_MARK, "#", "0", "a~", "\U0010ffff"]
    for one, other in itertools.product(tokens, repeat=2):
        yield from (f"/{one}/{other}", f"/{one}{other}", f"{one}/{other}")
    for many in (1, 30, 31, 32, 33, 40, 41, 63, 64, 65, 699, 700, 701, 990):
        letters = "a" * many
        yield from (f"/{letters}~0", f"/{letters}~2", f"/~0{letters}", f"/~2{letters}", f"/~{letters}")
        yield from (f"{'/a' * many}~1", f"{'/~0' * many}")


TOKENS = (["/", "/a", "/~0", "/~1", "/~01", "/~10", "/~0~1", "/0", "/00", "/-", "/ ", "/\u00e9", "/#", "/%", "/\"",
           "/\\", "/\u0000", "/a\n", "/\U0010ffff", "/*", "/+1", "/a.b"],
          ["/~", "/~2", "/~a", "/a~", "/~~", "/~ ", "a"])
NUMBERS = (["0", "1", "9", "10", "100", "99999999999999999999"],
           ["", "00", "01", "-1", "+1", "1.0", "1e0", " 1", "\u0661"])


def pointer_rows():
    """The rows of JSON pointers and of relative ones."""
    yield "JSON pointers (RFC 6901, section 3) and relative ones"
    all_pointers = list(pointers())
    yield texts("json-pointer", all_pointers, whole(f"(?s:{POINTER})"))
    yield sums("json-pointer", [["/", ""]], lambda point: point != 0x7E, 0x8000, 0x20000)
    yield sums("json-pointer", [["", "/"]], lambda point: point == 0x2F, 0x8000, 0x20000)
    yield "what other programs pass over, put around a text or take for a character of it"
    yield decorated_row("json-pointer", ("/a~0b/~1", "/0/1"), whole(f"(?s:{POINTER})"))
    yield changed_row("json-pointer", ("", "/", "/a/b~0~1", "/~0"), whole(f"(?s:{POINTER})"))
    yield changed_row("relative-json-pointer", ("0", "10", "0#", "12#", "3/", "4/a~1/b"),
                      whole(rf"(?s:(?:0|[1-9][0-9]*)(?:#|{POINTER}))"))
    yield counts("relative-json-pointer", "a", 0, 1000, 1001, [["0/", ""], ["12/a/", "/"], ["1/~0", "~1"]])
    yield counts("relative-json-pointer", "/a", 0, 500, 501, [["0", ""], ["12", "/"]])
    yield texts("json-pointer", ["/18446744073709551616", "/00000000000000000000", "/a/99999999999999999999/b", "/-0"],
                whole(f"(?s:{POINTER})"))
    yield "each sign and each token some times over"
    signs = ["/", "~0", "~1", "~01", "~", "/~0", "/~1a", "//", "/a/", "#", "0", "-", "\u00e9", "%2F", "\"", "\\", " ",
             "\u0000"]
    places = [["", ""], ["/", ""], ["/a", "/b"], ["/~1", "~0"], ["/0/", "#"]]
    yield repeated("json-pointer", signs, places, whole(f"(?s:{POINTER})"))
    places = [[f"12{before}", behind] for before, behind in places] + [["1", "/a"]]
    yield repeated("relative-json-pointer", signs, places, whole(rf"(?s:(?:0|[1-9][0-9]*)(?:#|{POINTER}))"))
    yield "each token beside each, in pointers of three, and behind each number"
    of_three = by_pairs([(["", *TOKENS[0]], TOKENS[1]), TOKENS, TOKENS], 1)
    yield texts("json-pointer", of_three, whole(f"(?s:{POINTER})"))
    relative = by_pairs([NUMBERS, (["", *TOKENS[0]], ["#/", "+1", "-1"]), (["", *TOKENS[0]], TOKENS[1])], 1)
    relative += in_forms(("{}#", "{}", "{}##", "{}#/a", "{}/a#", "{}+1#", "{}-0"), NUMBERS[0] + NUMBERS[1])
    yield texts("relative-json-pointer", relative, whole(rf"(?s:(?:0|[1-9][0-9]*)(?:#|{POINTER}))"))
    yield "a rule of a token holds in each of three"
    tokens = ["", "a", "~0", "~1", "~", "~2", "~a", "a~", "~~", "~0~1", "~01", "0", "00", "01", "-", "%", "%2F", "#",
              '"', "\\", " ", "\t", "\u007f", "\u0080", "\u00e9", "?", "~/", "~0a~", "~10"]
    in_three = ["".join(f"/{token}" for token in some) for token in tokens for other in ("a", "")
                for some in ([token, other, other], [other, token, other], [other, other, token], [token, other],
                             [other, token])]
    yield texts("json-pointer", in_three, whole(f"(?s:{POINTER})"))
    yield texts("relative-json-pointer", in_forms(("0{}", "12{}"), in_three),
                whole(rf"(?s:(?:0|[1-9][0-9]*)(?:#|{POINTER}))"))
    numbers = ["0/01", "1/00", "2/-1", "3/1e5", "18446744073709551616/0", "99999999999999999999#"]
    yield texts("relative-json-pointer", numbers, whole(rf"(?s:(?:0|[1-9][0-9]*)(?:#|{POINTER}))"))
    yield decorated_row("relative-json-pointer", ("0#", "12/a~1b", "3"),
                        whole(rf"(?s:(?:0|[1-9][0-9]*)(?:#|{POINTER}))"))
    tokens = [f"/{token}" for token in ("-", "01", "1e0", "-1", "+1", "a b", '"', "\\", "{", "%", "%25", "%zz",
                                        "\u0301", "\u0080", "\ue000", "\ufffe", "\u202e", "\u007f", "\u0000")]
    pairs = ["".join(some) for some in itertools.product(tokens, repeat=2)]
    yield texts("json-pointer", tokens + pairs, whole(f"(?s:{POINTER})"))
    wholes = [other for text in ("", "/", "/a", "/a/~0", "/~1") for other in [text, *around(text)]]
    yield texts("json-pointer", wholes, whole(f"(?s:{POINTER})"))
    heads = ["0", "1", "9", "10", "19", "90", "00", "01", "-1", "+1", "", " 1", "1a", "٣", "1" * 20, "9" * 21,
             "1" * 300, "0" * 300]
    bodies = ["", "#", "/", "/a", "/~0", "/~2", "##", "#/", "/#", "a", "-1", "+1", "+1/a", "\n", BYTE_ORDER_MARK]
    relative = [head + body for head in heads for body in bodies] + [f"1{text}" for text in all_pointers[::9]]
    is_relative = whole(rf"(?s:(?:0|[1-9][0-9]*)(?:#|{POINTER}))")
    yield texts("relative-json-pointer", relative, is_relative)
    wholes = [other for text in ("0", "10", "0#", "1#", "0/", "1/a/~0") for other in [text, *around(text)]]
    yield texts("relative-json-pointer", wholes, is_relative)
    yield counts("json-pointer", "a", 0, 1000, 1001, [["/", ""], ["/~0", "~1"], ["/b/", ""]])
    yield counts("relative-json-pointer", "9", 1, 1000, 1001, [["", ""], ["", "#"], ["", "/a"]])
