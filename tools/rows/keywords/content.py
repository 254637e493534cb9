"""Media types, encodings and schemas of content: known, registered, switched off, unknown and malformed."""
from itertools import combinations, product

from rows.keywords.common import JSON, OPTIONS, asked
from rows.keywords.entries import KEYWORDS
from rows.keywords.texts import DRAFTS, ENCODERS, encodings
from rows.keywords.values import parsed

CODEC_ROWS = [["odd", "odd"], ["bytes", "bytes"], ["plain", "plain"], ["odd", "plain"]]
MEDIA_TYPE_ROWS = [["text/even", "even"], ["text/even", "none"]]


def rows_for(media_type, codec):
    """The caller's rows, where they have such a name."""
    named_rows = {"codecs": (codec, CODEC_ROWS), "media_types": (media_type, MEDIA_TYPE_ROWS)}
    return {kind: rows for kind, (name, rows) in named_rows.items() if any(name == it[0] for it in rows)}


def texts_for(codec):
    """Some encodings of a codec, and texts that are none."""
    if codec not in ENCODERS:
        return ["{}", "[1,]", "!"] if codec != "plain" else ["{}", "{", ""]
    text_of = {of: text for text, of in encodings(codec).items()}
    return [text_of[b"{}"], text_of[b"{:}"], text_of[b"\xff\xfe"], text_of[b""], "!"]


def content_by_product():
    """Media types, encodings and schemas: known, unknown, registered, malformed and absent, in each draft."""
    media_types = (None, JSON, "text/x", "text/even", parsed("5"), parsed("[1.5]"))
    codecs = (None, *ENCODERS, "rot13", "odd", "bytes", "plain", parsed("5"), parsed("1.5"))
    schemas = (None, parsed('{"a":1}'))
    for draft, media_type, codec, schema in product(DRAFTS, media_types, codecs, schemas):
        values = zip(KEYWORDS, (media_type, codec, schema))
        members = {keyword: it for keyword, it in values if it is not None}
        is_noted = draft > 7
        if codec not in (None, "base64", "rot13", "odd", parsed("5")) and (schema is not None or draft not in (6, 7)):
            continue
        texts = texts_for(codec) if media_type in (None, JSON) else ["ab", "abc", "!"]
        if media_type == "text/even" and codec in ENCODERS:
            texts = texts_for(codec)
        if media_type == JSON and codec in (None, "odd", "bytes"):
            texts = ["{}", "{"]
        yield asked(draft, members, texts[:1] if is_noted or draft == 4 else texts, **rows_for(media_type, codec))


def keywords_by_options():
    """What is said of formats says nothing of content, lengths and patterns."""
    media_type, encoding, content_schema = KEYWORDS[:3]
    schemas = [{"minLength": 2}, {"maxLength": 0}, {"minLength": -1}, {"pattern": "^a"}, {"pattern": "("},
               *({encoding: it} for it in ("base64", "rot13", parsed("5"))),
               *({media_type: it} for it in (JSON, "text/x", parsed("5"))),
               *({media_type: name, encoding: codec} for name, codec in product((JSON, "text/x"), ("base64", "rot13"))),
               {media_type: JSON, content_schema: True}]
    for draft, schema, options in product(DRAFTS, schemas, OPTIONS):
        yield asked(draft, schema, ["x"], **options)


def entries_of_content():
    """The validator of each content entry alone."""
    for draft, keyword in product((4, 6, 202012), KEYWORDS[:3]):
        for media_type, codec in product((None, JSON, "text/even", "text/x"), (None, "base16", "odd", "rot13")):
            members = {name: it for name, it in zip(KEYWORDS, (media_type, codec, True)) if it is not None}
            yield asked(draft, members, keyword=keyword, **rows_for(media_type, codec))


def decoded_to_another_text():
    """The media type is asked of what a codec decodes a text to, and the text stands in its error."""
    texts = ["", "1", "{}", "{", "[", "01", " 2", ".5", ".", "e1", "x", "xy", "\u00e9", "\u00e9x"]
    for draft, media_type in product((6, 7, 202012), (JSON, "text/even")):
        schema = {"contentMediaType": media_type, "contentEncoding": "c"}
        both = ([["c", "behind one"], ["c", "plain"]], [["c", "plain"], ["c", "behind one"]])
        for rows in ([["c", "behind one"]], *both):
            yield asked(draft, schema, texts, codecs=rows, media_types=[["text/even", "even"]])
            yield asked(draft, {**schema, "maxLength": 1}, texts, codecs=rows, media_types=[["text/even", "even"]])
        yield asked(draft, {"contentEncoding": "c"}, texts, codecs=[["c", "behind one"]])


def content_over_built_ins():
    """Rows over built-in names, first rows, and built-ins that are switched off."""
    for draft, codec in product(DRAFTS, ENCODERS):
        if draft in (4, 201909) and codec != "base64":
            continue
        texts = texts_for(codec)[:2]
        for script in ("odd", "bytes", "plain", "behind one"):
            rows = [["x", "plain"], [codec, script], [codec, "bytes" if script == "odd" else "odd"]]
            yield asked(draft, {"contentEncoding": codec}, texts, codecs=rows)
            yield asked(draft, {"contentMediaType": JSON, "contentEncoding": codec}, ["{}", "{:}"], codecs=rows)
        without = [it for it in ENCODERS if it != codec]
        for gone in ([codec], without):
            yield asked(draft, {"contentEncoding": codec}, [*texts, "!"], without_codecs=gone)
        yield asked(draft, {"contentMediaType": JSON, "contentEncoding": codec}, ["!"], without_codecs=[codec])
    for draft, script in product(DRAFTS, ("even", "all", "none")):
        rows = [["x", "all"], [JSON, script], [JSON, "none"], [JSON, "all"]]
        for schema, texts in (({"contentMediaType": JSON}, ["{}", "{:}"]),
                              ({"contentMediaType": JSON, "contentEncoding": "base64"}, ["e30=", "ezp9", "!"])):
            yield asked(draft, schema, texts, media_types=rows)
            yield asked(draft, schema, texts, json_media_type=False)
            yield asked(draft, schema, texts, media_types=rows, json_media_type=False)
        yield asked(draft, {"contentMediaType": JSON.upper()}, ["{:}"], media_types=rows)


def schemas_beside_media_types():
    """A schema is noted beside each media type, and refused there where it holds a fraction."""
    schemas = [parsed(it) for it in (
        'true', 'false', 'null', '{}', '{"a":[1,{"b":null}]}', '"x"', '-9223372036854775808', '18446744073709551615',
        '18446744073709551616', '{"a":[{"b":1.5}]}', '[1,[2.0]]')]
    media_types = (JSON, "text/x", None, 5, parsed("1.5"))
    for draft, media_type, schema in product((7, 201909, 202012), media_types, schemas):
        if draft > 7 or media_type == JSON:
            yield asked(draft, {"contentMediaType": media_type, "contentSchema": schema}, ["x", 5])
    for draft, schema in product((201909, 202012), schemas):
        yield asked(draft, {"contentEncoding": "base64", "contentSchema": schema}, ["x"])


def content_by_options():
    """Media types and encodings in pairs: known, registered, switched off, unknown, malformed or left out."""
    lists = {"media_types": [["m", "even"]], "codecs": [["c", "plain"]]}
    left_out = ((), ("contentMediaType",), ("contentEncoding",), ("contentMediaType", "contentEncoding"))
    off = {"json_media_type": False, "without_codecs": ["base64"]}
    for media_type, encoding in product((None, JSON, "m", "x", 5), (None, "base64", "base16", "c", "y", 5)):
        schema = {"contentMediaType": media_type, "contentEncoding": encoding}
        schema = {keyword: value for keyword, value in schema.items() if value is not None}
        texts = ["!", "e30=", "7B", "{}"] if encoding in ("base64", "base16") else ["!", "{}"]
        for draft, names, more in product((4, 6, 7, 202012), left_out, ({}, off)):
            if draft in (6, 7) or not more:
                yield asked(draft, schema, texts if draft == 7 else texts[:1], **lists, **more, left_out=list(names))
        for draft, keyword in product((6, 7), schema):
            yield asked(draft, schema, keyword=keyword, **lists, **off)


def sets_of_codecs():
    """Each set of encodings that are switched off: those are unknown, and the others are known."""
    for off, codec in product((some for count in range(6) for some in combinations(ENCODERS, count)), ENCODERS):
        beside = {"contentMediaType": JSON, "contentEncoding": codec}
        yield asked(7, {"contentEncoding": codec}, ["!"], without_codecs=list(off))
        yield asked(6, beside, ["!"], without_codecs=list(off))
        yield asked(7, beside, ["!"], without_codecs=list(off), json_media_type=False)
