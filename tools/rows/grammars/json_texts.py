"""JSON: RFC 8259, as Python's json reads it."""
import itertools
import json
import math

from rows.grammars.common import (DIGITS, SIGNS, by_pairs, characters, in_forms, repeated, short_rows, sums, texts,
                                  word_rows, words)

# JSON: RFC 8259, as Python's json reads it, and as serde_json does a number out of the range of 64 bits (IEEE 754).

def finite(number):
    """A number of JSON, of which the nearest one of 64 bits is finite."""
    if math.isinf(float(number)):
        raise ValueError
    return number


def no_constant(name):
    """Python's json reads `NaN` and its like, which are no JSON."""
    raise ValueError(name)


def is_json(text):
    """Whether a text is JSON, of few brackets in one another and without escapes of surrogates."""
    try:
        json.loads(text, parse_constant=no_constant, parse_float=finite, parse_int=finite)
    except ValueError:
        return False
    return True


def numbers_of_json():
    """Numbers with each form of an exponent behind each of a fraction."""
    fronts = ["0", "1", "9.5", "123", "0.0", "0.000001", "10.00", f"1.{'0' * 40}1", "0." + "123456789" * 5,
              "18446744073709551615", "18446744073709551616.0", "9007199254740993", "9" * 60]
    amounts = ["0", "00", "1", "01", "0001", "9", "10", "22", "23", "99", "100", "000100", "290", "307", "308", "309",
               "324", "400", "0400", "1000", "99999", "2147483647", "2147483648", "4294967296", "18446744073709551615",
               "18446744073709551616", "9" * 30, f"{'0' * 30}1"]
    exponents = [f"{letter}{sign}{amount}" for amount in amounts for letter in "eE" for sign in ("", "+", "-")]
    for place, (front, exponent) in enumerate(itertools.product(fronts, ["", *exponents])):
        yield f"{'-' * (place % 2)}{front}{exponent}"


# The parts of a text of JSON, right and wrong ones.
BLANKS = (["", " ", "\n", "\t\r\n "], ["\u00a0", "\ufeff", "\f", "/**/"])
VALUES = (["null", "true", "false", "0", "-0", "-1", "1.5", "1e5", "-0.0E-0", "18446744073709551616", '""', '"a"',
           '"\\u0041\\n"', '"\u00e9"', "[]", "{}", "[1]", '{"a":1}', "[[],{}]"],
          ["", "nul", "True", "NaN", "-", "01", "1.", "+1", "1e400", "'a'", '"a', '"\\x"', '"\n"', "[", "}",
           "[1,]", '{"a"}', "{a:1}"])
KEYS = (['"a"', '""', '"a\\u0000"', '"\u00e9"', '"null"'], ["a", "1", "null", "[]", '"a', "'a'", '"a""b"'])


def parts_of_json():
    """Arrays of two and objects of two, with each choice of each part beside each of each other one."""
    comma, colon = ([","], ["", ",,", ";", ":"]), ([":"], ["", "::", "=", ","])
    yield from by_pairs([(["["], ["", "(", "[["]), BLANKS, VALUES, comma, BLANKS, VALUES, BLANKS,
                         (["]"], ["", ")", "]]", "}"])], 1)
    yield from by_pairs([(["{"], ["", "{{", "["]), BLANKS, KEYS, BLANKS, colon, VALUES, comma, KEYS,
                         colon, BLANKS, VALUES, (["}"], ["", "}}", "]"])], 1)
    yield from by_pairs([BLANKS, VALUES, BLANKS], 1)


WORDS_OF_JSON = [('"{}"', 'a\\"u0/n', (3, 4)), ("{}", '[]{}:,"1', (3, 4)), ('{{"a":{}}}', '1,"a:}', (3, 4)),
                 ("[{}]", "1,-. e0", (3, 4)), ("{}", "\n 1,[]", (3, 4)), ("1{}1", "eE+-.0", (1, 2, 3, 4)),
                 ('"\\u{}"', "0aFgG", (3, 4, 5))]


def json_rows():
    """The rows of JSON."""
    yield from word_rows([("json", is_json, WORDS_OF_JSON)])
    cased = ["".join(letters) for literal in ("true", "false", "null", "1e5")
             for letters in itertools.product(*zip(literal, literal.upper()))]
    yield texts("json", in_forms(("{}", "[{}]", '{{"a":{}}}', "\t{} "), cased), is_json)
    yield from short_rows({"json": is_json})
    parts = ["[],", "{},", '"a":1,', '{"a":', "1,", "[", "]", "}", " ", "null,", '"a",', ",", '\\"', "\\n", "0", "1"]
    places = [["[", "1]"], ["{", '"b":1}'], ["", "1"], ["[1", "]"], ['"a', '"'], ["[[", "[]]]"], ["1.", "1"],
              ["[1e", "1]"]]
    yield repeated("json", parts, places, is_json)
    yield texts("json", in_forms(("[{}]", '"{}"', '{{"a":{}}}'), words(SIGNS, (1, 2))), is_json)
    yield "each choice of a part with each of each other part: white space, values, names, commas, colons and brackets"
    yield texts("json", parts_of_json(), is_json)
    yield "numbers (section 6): words of what stands in them, and each form of an exponent"
    yield texts("json", words("01-+.e", (1, 2, 3, 4, 5)), is_json)
    numbers = list(numbers_of_json())
    within = [f'[{it},"{it}"]' for it in numbers[::7]] + [f'{{"a":{it}}}' for it in numbers[::9]]
    yield texts("json", numbers + within, is_json)
    yield "arrays and objects (sections 4 and 5): words of their tokens"
    yield texts("json", words(("[", "]", "{", "}", ",", ":", "1", '"a"', "null"), (1, 2, 3, 4)), is_json)
    yield texts("json", words(("{", "}", ",", ":", '"a"'), (5,)) + words("[],1", (5, 6)), is_json)
    yield "white space (section 2), at each place between tokens"
    places = [["", "null"], ["null", ""], ["[", "null]"], ["[null", "]"], ["[null", ",null]"], ["[null,", "null]"],
              ["[", "]", DIGITS], ["[[", "]]", DIGITS], ["[[]", ",{}]"], ["{", "}"], ["{", '"a":null}'],
              ['{"a"', ":null}"], ['{"a":', "null}"], ['{"a":null', "}"], ['{"a":null', ',"b":1}'],
              ['{"a":null,', '"b":1}']]
    yield characters("json", " \t\n\r", places)
    yield characters("json", "", places[:6], "\u0085\u00a0\u1680\u180e\u2003\u200b\u2028\u2029\u205f\u3000\ufeff")
    yield "strings (section 7): what stands in them as it is, and behind a backslash"
    yield sums("json", [['"', '"'], ['{"a', '":1}']], lambda it: 0x20 <= it and it not in (0x22, 0x5C), 0x10000)
    yield characters("json", '"\\/bfnrt', [['"\\', '"'], ['"a\\', 'b"'], ['{"\\', '":1}']])
    escapes = [['"\\u0', '41"'], ['"\\u00', '1"'], ['"\\u004', '"'], ['{"\\u004', '":1}']]
    yield characters("json", "0123456789ABCDEFabcdef", escapes)
    yield texts("json", [f'"\\u{it}"' for it in words("0aF", (0, 1, 2, 3, 4, 5))], is_json)
