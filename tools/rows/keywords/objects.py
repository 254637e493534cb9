"""Whole schema objects: sets of keywords, what is left out, and what stands beside them."""
from itertools import combinations, product

from rows.keywords.common import BAD, CHECKED, JSON, RIGHT, WHOLE, asked, requested
from rows.keywords.entries import KEYWORDS
from rows.keywords.texts import DRAFTS
from rows.keywords.values import compact, parsed


def first_refusals():
    """The first malformed entry is refused, whatever the order of the keys."""
    for draft, some in product(DRAFTS, combinations(KEYWORDS, 2)):
        yield asked(draft, {keyword: BAD[keyword] for keyword in reversed(some)})
    for draft in DRAFTS:
        for count in range(3, 8):
            yield asked(draft, {keyword: BAD[keyword] for keyword in KEYWORDS[-count:]})
        for keyword in KEYWORDS:
            yield asked(draft, {**{it: RIGHT[it] for it in KEYWORDS}, keyword: BAD[keyword]}, validate_formats=True)
            yield asked(draft, BAD, left_out=[it for it in KEYWORDS if it != keyword])


def keywords_left_out():
    """A keyword that is left out adds nothing; its neighbours still see its key."""
    for draft in DRAFTS:
        yield asked(draft, WHOLE, ["ab", "7B", "", "2020-01-01"], validate_formats=True)
        yield asked(draft, WHOLE, ["ab"])
        yield asked(draft, WHOLE, ["ab"], left_out=list(KEYWORDS))
        for keyword in KEYWORDS:
            yield asked(draft, WHOLE, ["ab"], validate_formats=True, left_out=[keyword])
            if draft in (7, 202012):
                yield asked(draft, WHOLE, ["ab"], left_out=[it for it in KEYWORDS if it != keyword])
            yield asked(draft, WHOLE, keyword=keyword, left_out=[keyword])


def sets_of_keywords():
    """Each set of keywords, of which the others are not there, or are left out: each adds what it adds alone."""
    for draft, some in product(DRAFTS, (some for count in range(8) for some in combinations(KEYWORDS, count))):
        schema = {keyword: WHOLE[keyword] for keyword in reversed(some)}
        yield asked(draft, schema, ["ab"], validate_formats=True)
        yield asked(draft, WHOLE, ["ab"], left_out=list(some))
        if draft in (7, 202012):
            yield requested(draft, schema, "7B", fold=True)


def refused_elsewhere():
    """What is left out is refused for nothing: no name, no pattern and no number in its value; and bounds no length."""
    for draft in DRAFTS:
        for name, more in product(("nonsense", "", "uuid"), (CHECKED, {"formats_by_dialect": True})):
            yield asked(draft, {"format": name, "maxLength": 1}, ["ab"], left_out=["format"], **more)
            yield asked(draft, {"format": name}, keyword="format", left_out=["format"], **more)
        for pattern in ("a+", "("):
            yield asked(draft, {"pattern": pattern, "maxLength": 1}, ["ab"], left_out=["pattern"])
            yield asked(draft, {"pattern": pattern}, keyword="pattern", left_out=["pattern"])
        schema = {"contentMediaType": "x", "contentSchema": parsed("1.5"), "maxLength": 1}
        yield asked(draft, schema, ["ab"], left_out=["contentSchema"])
        for name in ("date", "ipv4", "ipv6", "hostname", "time", "uuid"):
            for limit in ({"maxLength": 1}, {"minLength": 254}):
                yield asked(draft, {"format": name, **limit}, ["a"], left_out=["format"], validate_formats=True)
        for limits in ({"minLength": 3, "maxLength": 1}, {"format": "ipv4", "minLength": 16},
                       {"format": "ipv4", "maxLength": 6}):
            for keyword in limits:
                yield asked(draft, limits, left_out=[keyword], validate_formats=True)
        # A bad contentEncoding is refused beside a known media type also where it is left out itself.
        for media_type in (JSON, "text/x", 5):
            yield asked(draft, {"contentMediaType": media_type, "contentEncoding": 5}, left_out=["contentEncoding"])
            yield asked(draft, {"contentMediaType": media_type, "contentEncoding": 5}, left_out=["contentMediaType"])


# What stands beside the seven keywords in schema objects of the drafts, of OpenAPI and of validators' own. Nothing of
# it takes them away, adds to them or changes them (docs/PROGRAMS.md: every other keyword adds nothing).
BESIDE = (
    '{"$ref":"#/definitions/x"}', '{"$ref":"#"}', '{"$dynamicRef":"#x"}', '{"$recursiveRef":"#"}', '{"type":"number"}',
    '{"type":"null"}', '{"type":["integer","null"]}', '{"type":[]}', '{"type":"string"}', '{"enum":[]}',
    '{"enum":["y"]}', '{"enum":["ab"]}', '{"const":"y"}', '{"const":"ab"}', '{"const":null}', '{"nullable":true}',
    '{"x-nullable":true}')
BESIDE_IN_ONE_DRAFT = (
    '{"$anchor":"x"}', '{"$dynamicAnchor":"x"}', '{"$recursiveAnchor":true}', '{"$id":"https://example.com/x"}',
    '{"id":"https://example.com/x"}', '{"$comment":"x"}', '{"$defs":{"x":{"maxLength":0}}}',
    '{"definitions":{"x":{"minLength":0}}}', '{"not":{}}', '{"not":true}', '{"not":{"minLength":1}}',
    '{"allOf":[{"maxLength":0}]}', '{"allOf":[true]}', '{"anyOf":[false]}', '{"anyOf":[{}]}', '{"oneOf":[]}',
    '{"if":true,"then":false}', '{"if":false,"else":true}', '{"then":true}', '{"else":{"maxLength":9}}',
    '{"dependentSchemas":{"format":false}}', '{"dependencies":{"format":["x"]}}',
    '{"dependentRequired":{"format":["x"]}}', '{"extends":{"maxLength":0}}', '{"disallow":"string"}',
    '{"disallow":"any"}', '{"divisibleBy":2}', '{"minimum":3}', '{"maximum":0}', '{"multipleOf":2}',
    '{"exclusiveMinimum":true}', '{"exclusiveMaximum":true}', '{"exclusiveMinLength":true}',
    '{"exclusiveMaxLength":true}', '{"minItems":3}', '{"maxItems":0}', '{"uniqueItems":true}', '{"minProperties":3}',
    '{"maxProperties":0}', '{"required":["format"]}', '{"required":true}', '{"optional":true}',
    '{"properties":{"format":{"maxLength":0}}}', '{"patternProperties":{"^a":false}}',
    '{"propertyNames":{"maxLength":0}}', '{"additionalProperties":false}', '{"unevaluatedProperties":false}',
    '{"unevaluatedItems":false}', '{"items":{"maxLength":0}}', '{"prefixItems":[false]}', '{"contains":false}',
    '{"minContains":1}', '{"default":"ab"}', '{"default":"x"}', '{"examples":["ab"]}', '{"example":"ab"}',
    '{"deprecated":true}', '{"readOnly":true}', '{"writeOnly":true}', '{"title":"x"}', '{"description":"x"}',
    '{"discriminator":"x"}', '{"xml":{}}', '{"externalDocs":{}}', '{"formatMinimum":"2020-01-01"}',
    '{"formatMaximum":"1999-01-01"}', '{"formatExclusiveMinimum":true}', '{"formatAssertion":false}',
    '{"formatAssertion":true}', '{"contentAssertion":true}',
    '{"media":{"type":"application/json","binaryEncoding":"base64"}}', '{"links":[]}', '{"instanceof":"String"}',
    '{"transform":["trim"]}', '{"trim":true}', '{"ignoreCase":true}', '{"patternFlags":"i"}', '{"flags":"i"}',
    '{"regexp":"^z"}', '{"allowEmpty":true}', '{"allowEmptyValue":true}', '{"errorMessage":"x"}', '{"message":"x"}',
    '{"collectionFormat":"csv"}', '{"x-y":1}', '{"enabled":false}', '{"$data":"1/x"}', '{"$merge":{}}', '{"$patch":{}}',
    '{"overridden":true}', '{"draft":4}', '{"schema":{}}', '{"instance":"x"}', '{"validate_formats":false}',
    '{"ignore_unknown_formats":true}', '{"fold":true}', '{"":0}', '{"/":0}', '{"~":0}', '{"0":0}')


def others_beside():
    """Other members of a schema object, before and behind keywords, change nothing of what these say and refuse."""
    right = {"minLength": 3, "format": "date"}
    for other in map(parsed, BESIDE + BESIDE_IN_ONE_DRAFT):
        is_for_all = compact(other) in BESIDE
        for draft in DRAFTS if is_for_all else (7,):
            yield asked(draft, {**other, **right}, ["ab", 5], validate_formats=True)
            yield requested(draft, {**right, **other}, "ab", validate_formats=True)
        yield requested(202012, {**other, "contentMediaType": "x", "maxLength": 1, "pattern": "^b"}, "ab", fold=True)
        yield requested(6, {**other, "contentEncoding": "base64", "maxLength": -1, "pattern": "a+"}, "ab")
        for draft, keyword in product((4, 7, 202012), KEYWORDS) if is_for_all else ():
            yield asked(draft, {**other, "contentMediaType": JSON, keyword: RIGHT[keyword]}, keyword=keyword)
        if is_for_all:
            yield asked(202012, {**other, "contentMediaType": "x", "contentSchema": True, "pattern": "^b"}, ["ab"])
            yield asked(4, {**right, "pattern": 5, **other})


def schemas_within():
    """Only the members of the object itself count: nothing is followed, and nothing in it is looked into."""
    inner = '{"maxLength":0,"minLength":9,"pattern":"^z","format":"ipv4","contentEncoding":5}'
    for outer in ('{"$ref":"#/definitions/x","definitions":{"x":I}}', '{"$ref":"#/$defs/x","$defs":{"x":I}}',
                  '{"allOf":[I]}', '{"anyOf":[I]}', '{"oneOf":[I]}', '{"not":I}', '{"if":I,"then":I,"else":I}',
                  '{"then":I}', '{"else":I}', '{"properties":{"x":I}}', '{"items":I}', '{"contains":I}',
                  '{"propertyNames":I}', '{"additionalProperties":I}', '{"dependentSchemas":{"x":I}}',
                  '{"contentSchema":I}', '{"extends":I}', '{"schema":I}', '{"string":I}',
                  '{"$schema":"http://json-schema.org/draft-04/schema#","x":I}', '{"":I}', '{"default":I}',
                  '{"const":I}', '{"type":[I]}', '{"$defs":I}', '{"definitions":I}', '{"x-y":I}', '{"media":I}',
                  '{"$merge":{"with":I}}'):
        other = parsed(outer.replace("I", inner))
        for draft in (6, 7, 202012):
            yield asked(draft, {**other, "minLength": 3}, ["ab"])
            yield requested(draft, {"maxLength": 1, **other}, "ab", fold=True)
