"""What counts as a character, and what stands in errors and places as it is."""
from rows.grammars.common import sums


def in_planes(of, places, others=""):
    """Of planes that have characters, how many are right, all but the others, and the sum of their numbers."""
    rows = []
    for low, high in ((0, 0x10000), (0x10000, 0x20000), (0x20000, 0x20400), (0x2FC00, 0x30400), (0xE0000, 0xE0400),
                      (0xEFC00, 0xF0400), (0x10FC00, 0x110000)):
        right = [it for it in range(low, high) if not 0xD800 <= it <= 0xDFFF and chr(it) not in others]
        rows.append([low, high, len(right), sum(right)])
    return {"ask": "sums", "of": of, "places": places, "rows": rows}, len(rows) * len(places)


def report_rows():
    """The rows of reports."""
    yield "each code point but a surrogate is one character (RFC 8259, section 1), alone and within 32 bytes"
    yield in_planes("one character", [["", ""]])
    yield sums("33 characters", [["a" * 16, "a" * 16]], lambda point: True, 0x10000)
    yield "each but those of RFC 8259, section 7, stands in a JSON string as it is"
    yield in_planes("texts that stand in errors", [["\u00e9", "a"]], '"\\' + "".join(map(chr, range(32))))
    yield "and each but those of RFC 6901, section 3, in a place"
    yield in_planes("texts that stand in places", [["", ""]], "~/")
