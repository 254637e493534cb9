"""Numbers of drafts, and what is none."""
from rows.keywords.common import ONE_REQUEST, answer_to_text, asked, fed, lined
from rows.keywords.texts import DRAFTS
from rows.keywords.values import MOST, parsed

# The last ones are a draft's number but for the bits that a narrower integer has not.
NO_DRAFTS = (0, 1, 2, 3, 5, 8, 9, 2019, 201908, 201910, 2020, 202011, 202013, 2 ** 8 + 7, 2 ** 16 + 7, 2 ** 31 + 7,
             2 ** 32 + 4, 2 ** 32 + 202012, 2 ** 53 + 6, 2 ** 63 + 7, MOST)
# The meta-schemas of the drafts, and other names of them: a draft is told by its number alone (docs/PROGRAMS.md).
NAMES_OF_DRAFTS = (
    "http://json-schema.org/draft-04/schema#", "http://json-schema.org/draft-06/schema#",
    "http://json-schema.org/draft-07/schema#", "http://json-schema.org/draft-07/schema",
    "https://json-schema.org/draft/2019-09/schema", "https://json-schema.org/draft/2020-12/schema",
    "http://json-schema.org/schema#", "draft-07", "draft7", "Draft7", "2019-09", "2020-12", "201909", "202012")


def no_drafts():
    """A row with another number, or with a name in place of it, has no draft, and such a line is no request."""
    for it in (*NO_DRAFTS, *NAMES_OF_DRAFTS):
        yield asked(it, {"minLength": 5}, ["x"])
        yield lined({**ONE_REQUEST, "draft": it})
    for it in ('7.0', '-7', '"7"', 'null', '[7]', '18446744073709551616'):
        yield asked(parsed(it), {"minLength": 5}, ["x"])
    months = [year * 100 + month for year in range(2016, 2024) for month in range(14)]
    for it in (*range(31), *range(2005, 2027), *months, 40, 60, 70, 912, 1220, 1909, 2012, 92019, 122020, 20190919,
               20201210, 2019090, 2020120, 404, 606, 707, 2019092020, 201909202012):
        if it not in DRAFTS and it not in NO_DRAFTS:
            yield asked(it, {"minLength": 5}, ["x"])
            yield lined({**ONE_REQUEST, "draft": it})


def drafts_as_they_are_written():
    """A draft is told by its number as a whole one, written without a point and an exponent."""
    for number, name in DRAFTS.items():
        for written in (f"{number}.0", f"{number}.00", f"{number}e0", f"{number}E0", f"{number}0e-1",
                        f"0.{number}e{len(str(number))}", f"-{number}", f'"{number}"', f'"{name}"', f'"draft{number}"',
                        f"[{number}]", f'{{"draft":{number}}}', f'" {number}"', f"{number}.5", f"{number}0",
                        f"1{number}", f"{number + 2 ** 32}", f"{number + 2 ** 16}", f"{number + 256}"):
            yield asked(parsed(written), {"minLength": 5}, ["x"])
            for line in ('{"draft":D,"schema":{"minLength":5},"instance":"x"}',
                         '{"schema":{"minLength":5},"draft":D,"instance":"x"}'):
                line = line.replace("D", written)
                yield fed([line], answer_to_text(line))
