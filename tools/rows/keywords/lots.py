"""Keywords, lists and options that are drawn by lot."""
from rows.keywords.common import JSON, asked, requested
from rows.keywords.entries import KEYWORDS
from rows.keywords.places import placed
from rows.keywords.texts import DRAFTS
from rows.keywords.values import parsed


class Lot:
    """Draws that are the same each time, whatever Python draws them."""

    def __init__(self):
        self.state = 1

    def draw(self, *choices):
        """One of these."""
        self.state = (self.state * 6364136223846793005 + 1442695040888963407) % 2 ** 64
        return choices[(self.state >> 33) % len(choices)]


# What an object may have at each keyword, some of it more than once, so that few objects are refused.
DRAWN = {
    "contentMediaType": 3 * (None, JSON, "m") + ("x", "", JSON, 5),
    "contentEncoding": 3 * (None, "base64", "base16", "c") + ("y", "", 5),
    "contentSchema": 4 * (None, True) + ({}, parsed("[1.5]")),
    "format": 4 * (None, "date", "uuid", "custom") + ("", 5), "minLength": 4 * (None, 1, 2, 3) + (0, -1),
    "maxLength": 4 * (None, 1, 2, 9) + (0, "x"), "pattern": 4 * (None, "^a", "^(x|ab)$", "z+") + (r"^\S*$", "(", 7)}
LISTS_DRAWN = {
    "formats": ([["date", "none"]], [["custom", "even"], ["date", "all"]], [["uuid", "all"], ["", "none"]]),
    "media_types": ([["m", "even"]], [[JSON, "none"], ["m", "all"]], [["x", "none"], ["", "even"]]),
    "codecs": ([["c", "plain"]], [["base64", "odd"], ["c", "bytes"]], [["base16", "plain"], ["y", "odd"]])}


def drawn_schema(lot):
    """An object by lot, and texts of which the tables of formats say what they are."""
    schema = {keyword: value for keyword in KEYWORDS if (value := lot.draw(*DRAWN[keyword])) is not None}
    texts = ["x", ""] if schema.get("format") == "uuid" else ["x", "", "7B", "ab", "!"]
    return schema, texts


def everything_together():
    """Keywords, lists, options, places and what is left out, all drawn by lot: what is said of each is said of all."""
    lot = Lot()
    for number in range(900):
        schema, texts = drawn_schema(lot)
        more = {name: it for name in ("validate_formats", "ignore_unknown_formats", "formats_by_dialect")
                if (it := lot.draw(None, None, True, False)) is not None}
        more |= {name: rows for name, some in LISTS_DRAWN.items() if (rows := lot.draw(None, *some)) is not None}
        more |= lot.draw({}, {}, {"json_media_type": False}, {"without_codecs": ["base64"]},
                         {"without_codecs": ["base16"]},
                         {"json_media_type": False, "without_codecs": ["base16", "base64"]})
        if left_out := [keyword for keyword in KEYWORDS if lot.draw(False, False, False, False, True)]:
            more["left_out"] = left_out
        if schema.get("pattern") == "z+":
            more["patterns"] = [["z+", "x", "match"], ["z+", "ab", "failed"], ["z+", "7B", "backtracking"]]
        more |= lot.draw({}, {}, {}, {}, {}, placed(1))
        draft = lot.draw(*DRAFTS)
        if number % 5 == 4 and schema:
            more["keyword"] = lot.draw(*schema)
        yield asked(draft, schema, [*texts[:lot.draw(2, 3, 5)], 5], **more)
    for _ in range(300):
        schema, texts = drawn_schema(lot)
        more = {name: it for name in ("validate_formats", "ignore_unknown_formats", "fold")
                if (it := lot.draw(None, True, False)) is not None}
        yield requested(lot.draw(*DRAFTS), schema, lot.draw(*texts, 5), **more)
