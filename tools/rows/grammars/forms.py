"""Forms of names with characters past ASCII, alone and in mail addresses."""
import itertools

from rows.grammars.common import (at_places, counts, in_forms, repeated, rows_of, short_rows, texts, whole, word_rows,
                                  words)
from rows.grammars.hosts import LABEL, NAME, PLACED, long_names
from rows.grammars.mail import is_any_mailbox, is_mailbox
from rows.grammars.labels import (APART, COMPOSED, CONTEXTS, DOTS, IDN, JOINERS, MAPPED, OF_CLASSES, PLACED_FORMS,
                                  RIGHT_FORMS, WIDE_PLACES, WORDS_OF_LABELS, WORDS_OF_WIDE_NAMES, WRONG_FORMS,
                                  a_label_rows, basic_rows, bidi_rows_of_idn, code_point_rows, context_rows_of_idn,
                                  decorated_names, derived_rows, digit_rows, encoded_labels, idn_sums, idn_texts,
                                  is_domain_of_labels, is_hostname_form, is_idn_host_name, is_name_of_plain_labels,
                                  is_right_label, is_u_label, label_rules_of_idn, labels_about_63, names_of_labels,
                                  normal_form_rows, payload_rows, permission_rows, repeated_rows, script_rows,
                                  size_rows, to_a_label)

def label_rows():
    """The rows of Punycode, labels and host names, and of internationalised ones."""
    kinds = ("a1-.A_ \u00fc\u0301\u00b7\u0375\u05d0\u05f3\u0628\u0660\u06f0\u094d\u200c\u200d\u30fb\u3042\u4e00\u3002"
             "\uff0e\uff61")
    yield from word_rows([(IDN, is_idn_host_name, WORDS_OF_WIDE_NAMES), ("u-label", is_u_label, WORDS_OF_LABELS),
                          ("label", is_hostname_form, WORDS_OF_LABELS)])
    yield from short_rows({"hostname": is_name_of_plain_labels, IDN: is_idn_host_name, "u-label": is_u_label,
                           "label": is_hostname_form}, kinds)
    yield "`xn--` labels at each place of a host name, right and wrong, among others"
    names = {".".join(labels): all(map(is_right_label, labels)) for labels in names_of_labels()}
    yield texts("hostname", names, names.get)
    yield "lengths to 1,000, and labels of 63 characters and more by another encoder"
    yield counts("hostname", "a", 1, 63, 1001, [["", ""], ["", ".xn--ll-0ea"], ["xn--ll-0ea.", ""]])
    yield counts("hostname", "1.", 0, 126, 501, [["", "a"]])
    yield counts("hostname", "xn--ll-0ea.", 0, 22, 91, [["", "a"]])
    yield texts("hostname", long_names(), whole(NAME))
    names = in_forms(("{}", "a.{}", "{}.b"), encoded_labels())
    yield texts("hostname", names, lambda text: all(len(label) <= 63 for label in text.split(".")))
    yield from payload_rows()
    yield from basic_rows()
    yield from repeated_rows()
    yield from script_rows()
    yield from decorated_names()
    yield from digit_rows()
    yield from derived_rows()
    yield from code_point_rows()
    yield from idn_rows()


def hostname_form_rows():
    """What XN-labels of a host name encode, and the same labels in mail addresses."""
    yield ("host names: XN-labels that encode what is no U-label for each reason of its own; those of a host name are "
           "judged by letters and contexts alone, and those of a mail address by their ASCII characters")
    forms = WRONG_FORMS + RIGHT_FORMS + COMPOSED + list(MAPPED)
    heads = ("a", "aa", "\u00fc", "a\u00fc", "\u00fc\u00fc")
    forms += [f"{one}--{other}" for one in heads for other in ("a", "\u00fc")]
    forms += words("\u4e00a-\u0300\u0903", (1, 2, 3)) + ["\u4e00--\u4e00", "-\u00fc-", "--\u00fc", "\u00fc--"]
    forms += [form for rule in CONTEXTS + JOINERS + APART for form in words(rule, (1, 2, 3))]
    encoded_forms = {to_a_label(form): form for form in forms}
    is_label = whole(LABEL)

    def is_right(name):
        """Whether the name is an XN-label whose form is admitted, alone or beside a label."""
        label = name.removeprefix("a.").removesuffix(".b")
        return is_label(label) and is_hostname_form(encoded_forms[label])

    yield texts("hostname", in_forms(("{}", "a.{}", "{}.b"), encoded_forms), is_right)
    yield texts("hostname of RFC 1034", encoded_forms, whole(NAME))
    yield texts("email", [f"a@{label}" for label in encoded_forms], is_mailbox)
    yield texts("idn-email", [f"a@{label}" for label in encoded_forms], is_mailbox)
    encoded_forms = {to_a_label(form): form for form in words(OF_CLASSES, (1, 2, 3))}
    yield texts("hostname", encoded_forms, is_right)
    yield texts("label", [form for rule in CONTEXTS + JOINERS for form in words(rule, (1, 2, 3, 4))], is_hostname_form)


def mail_label_rows():
    """The labels of internationalised mail addresses."""
    yield "internationalised mail addresses: a label past ASCII is a U-label, each reason for which a text is none"
    forms = [form for form in WRONG_FORMS + RIGHT_FORMS + COMPOSED + list(MAPPED) if not form.isascii()]
    yield texts("idn-email", in_forms(("a@{}", "a@b.{}", "a@{}.b"), forms), is_domain_of_labels)
    forms = [form for form in words(OF_CLASSES, (1, 2, 3)) if not form.isascii()]
    yield texts("idn-email", [f"a@{form}" for form in forms], is_domain_of_labels)
    forms = [form for rule in CONTEXTS + JOINERS for form in words(rule, (1, 2, 3))]
    yield texts("idn-email", [f"a@{form}" for form in forms if not form.isascii()], is_domain_of_labels)


def u_label_rows():
    """The rows of U-labels by themselves."""
    yield ("U-labels by themselves (RFC 5890, section 2.3.2.1): each reason for which a text is none, dots, A-labels, "
           "classes of the Bidi rule, and lengths")
    forms = WRONG_FORMS + RIGHT_FORMS
    with_dots = [f"{one}{dot}\u00fc" for one in ("", "a", "\u00fc") for dot in DOTS]
    yield texts("u-label", [*forms, *map(to_a_label, forms), *with_dots], is_u_label)
    yield texts("u-label", words(OF_CLASSES, (1, 2, 3)), is_u_label)
    yield texts("u-label", [form for rule in CONTEXTS + JOINERS + APART for form in words(rule, (1, 2, 3))], is_u_label)
    yield texts("u-label", labels_about_63() + ["\u4e00" * count for count in range(1, 70)], is_u_label)


# Labels that may stand in names, of both directions and of each kind, and labels that may not.
IN_NAMES = ["a", "A-1", "1", "1a", "b--c", "z" * 30, "\u00fc", "b\u00fc-1", "1\u00fc", "\u4e00", "\u05d0", "\u05d01",
            "\u0628\u0660", "l\u00b7l", "\u03b1\u0375\u03b2", "\u05d0\u05f3", "\u30fb\u30a2", "\u0915\u094d\u200d",
            "\u0628\u200c\u0628", "\u06f0", "\u0660", "\u00df", "\u03c2", "\U00020000", "xn--tda", "XN--TDA", "xn--4db",
            "Xn--4Db", "xn--ll-0ea"]
IN_NO_NAMES = ["", "-a", "a-", "a_b", "ab--c", "xn--a", "xn--", "\u00dc", "u\u0308", "\u0300a", "-\u00fc", "\u00fc-",
               "aa--\u00fc", "l\u00b7", "\u0375", "\u05f3", "\u30fb", "\u200d", "\u0660\u06f0", "\u0640", "\uff41",
               "\U0001f600", "a" * 64, "xn--l-fda", "\u05d0a"]


def pairs_of_labels():
    """Names of each label beside each other one, with each of the four dots between them, and of three."""
    turns = itertools.cycle(DOTS)
    beside = [*itertools.product(IN_NAMES, repeat=2), *itertools.product(IN_NAMES, IN_NO_NAMES),
              *itertools.product(IN_NO_NAMES, IN_NAMES)]
    yield from (f"{one}{next(turns)}{other}" for one, other in beside)
    yield from (f"{one}{next(turns)}a{next(turns)}{other}" for one, other in beside[::3])
    yield from (f"\u05d0{next(turns)}{one}{next(turns)}{other}" for one, other in beside[1::3])


# A character of each kind that the rules of a label tell apart: letters, marks, digits, hyphens and those with a rule.
OF_KINDS = ("al-1\u00fc\u0301\u00b7\u0375\u03b1\u05d0\u05b0\u05f3\u0628\u064b\u0660\u06f0\u0915\u094d\u200c\u200d\u30fb"
            "\u30a2\u3007")
NAMES_OF_XN_LABELS = ("xn--tda", "xn--4db", "xn--ll-0ea")


def is_name_of_known_labels(name):
    """Whether the labels of a name are plain ones, or XN-labels that are known to be right."""
    return all(whole(LABEL)(label) and (label[2:4] != "--" or label.lower() in NAMES_OF_XN_LABELS)
               for label in name.split("."))


# What the rules of a label ask for, alone, and between what stands before it and behind it.
REPEATED_PARTS = ["l\u00b7", "l\u00b7l", "\u0375\u03b1", "\u05d0\u05f4", "\u05f3", "\u05d0\u05f3\u05d1", "\u30fb",
                  "\u0915\u094d\u200d", "\u0915\u094d\u200c", "\u06f0", "\u05b0", "\u00fc", "\u3007", "\u00df",
                  "\u0640"]
REPEATED_PLACES = [("l", "\u00b7l", ""), ("l", "\u00b7", "l"), ("", "\u0375", "\u03b1"), ("\u03b1", "\u0375", ""),
                   ("\u05d0", "\u05f3", ""), ("", "\u30fb", "\u30a2"), ("\u30a2", "\u30fb", ""),
                   ("\u30fb", "a", "\u3042"), ("\u4e00", "a", "\u30fb"), ("\u0915", "\u094d", "\u200d"),
                   ("\u0915\u094d", "\u200d", "\u0937"), ("\u0915\u094d", "\u0951", "\u200d"), ("\u0628", "\u0660", ""),
                   ("\u0628\u0660", "\u0628", "\u06f0"), ("\u05d0", "0", ""), ("\u05d00", "\u05d1", "\u0660"),
                   ("\u05d0", "-", "\u05d1"), ("\u05d0", "\u05b0", ""), ("\u05d0-", "\u05b0", ""),
                   ("\u05d00", "\u05b0", ""), ("q", "\u0301", ""), ("\u4e000", "\u05b0", ""), ("\u4e00-", "\u05b0", ""),
                   ("\u00fc", "-", "a"), ("a\u00fc", "-", "a"), ("", "-", "\u00fc"), ("\u00fc", "a", "--b")]


def repeated_forms():
    """Labels in which what a rule asks for stands some times over, and at some distance."""
    for number in range(1, 9):
        for one, other in itertools.product("\u064b\u0300\u05b0\u0951", repeat=2):
            row = ((one + other) * number)[:number]
            yield from (f"\u0628{row}\u200c\u0627", f"\u0628\u200c{row}\u0627")
        for left, right in itertools.product("\u0628\u0627a\u1820", "\u0628\u0627a\u18a9"):
            yield "".join((left, "\u064b" * number, "\u200c", "\u064b" * (9 - number), right))
            yield from (f"{left}\u200c{right}" * number, f"{left}\u200c" * number + right)
        for part in REPEATED_PARTS:
            yield part * number
        for before, part, behind in REPEATED_PLACES:
            yield before + part * number + behind


# What a label by itself may have as often as one likes: the 63 octets are those of its A-label (RFC 5890, section
# 2.3.2.1).
LONG_PARTS = ["a", "-", ".", "\u00fc", "\u4e00", "\u05d0", "\U00020000", "l\u00b7l", "\u30fb\u30a2",
              "\u0915\u094d\u200d", "a\u0301"]
LONG_SIZES = (9, 16, 31, 32, 33, 59, 60, 63, 64, 65, 127, 128, 255, 256, 1000)


def hyphened_forms():
    """Labels with hyphens at each place of six, and middle dots between letters of either case."""
    for letters in ("\u00fcabcde", "ab\u00fcde", "\u4e00\u4e01\u4e02\u4e03", "\u05d0\u05d1\u05d2\u05d3\u05d4"):
        for chosen in itertools.product((False, True), repeat=min(len(letters), 5)):
            yield "".join("-" if is_hyphen else letter for letter, is_hyphen in zip(letters, chosen)) + letters[5:]
    yield from (f"{one}\u00b7{other}" for one in "lLa\u0142\u013a" for other in "lLa\u0142\u013a")


# What stands well by a rule of its own, what has no rule, and what keeps no rule.
RULED = ["l\u00b7l", "\u0375\u03b1", "\u05d0\u05f3", "\u05d0\u05f4", "\u30fb\u30a2", "\u4e00", "\u0915\u094d\u200d",
         "\u0915\u094d\u200c\u0937", "\u0628\u200c\u0628", "\u0628\u064b\u200c\u064b\u0627", "\u0660", "\u06f0", "1",
         "a", "-", "\u00df", "\u05b0", "\u0301"]
UNRULED = ["\u00b7", "\u05f3", "\u200c", "\u200d", "\u0375", "\u30fb", "\u0640", "\u00dc"]


def rows_of_rules():
    """Labels of two and of three such parts: no rule is against another, and none lets another off."""
    yield "parts that keep a rule of a label, and parts that do not, two and three in a row"
    rights, beside = words(RULED, (2, 3)), itertools.product(RULED, UNRULED, RULED[::3])
    forms = [*words(RULED, (2,)), *rights[324::5], *["".join(parts) for parts in beside]]
    for of, is_right in (("u-label", is_u_label), ("label", is_hostname_form), (IDN, is_idn_host_name)):
        yield texts(of, forms, is_right)
    wide_ones = [form for form in forms if not form.isascii()]
    encoded_forms = {to_a_label(form): form for form in wide_ones[::2]}
    yield texts("hostname", encoded_forms,
                lambda label: bool(whole(LABEL)(label)) and is_hostname_form(encoded_forms[label]))
    yield idn_texts([label if at % 2 else label.upper() for at, label in enumerate(map(to_a_label, wide_ones[1::2]))])
    addresses = [f"a@{'b.' * (at % 3)}{form}" for at, form in enumerate(wide_ones[::2])]
    yield texts("idn-email", addresses, is_domain_of_labels)


def repeated_form_rows():
    """The same forms in each of the formats that have such labels."""
    yield "names of labels that run from right to left, some times over, and names in capitals"
    labels = ["\u05d0.", "\u05d0\u3002", "\u0628\u0660.", "\u05d01.", "1.", "a.", "xn--4db.", "XN--4DB.", "\u00fc.",
              "A.", "BC\uff0e"]
    places = [["", "\u05d0"], ["\u05d0.", "\u05d1"], ["a.", "\u05d0"], ["", "b"], ["", "DE"]]
    yield repeated(IDN, labels, places, is_idn_host_name)
    yield repeated("idn-email", labels, [["a@", "\u05d0"], ["a@\u05d0.", "\u05d1"], ["a@", "b"]], is_any_mailbox)
    yield repeated("hostname", ["A.", "BC.", "D-E.", "0.", "XN--TDA.", "xn--ll-0ea."], [["", "F"], ["GH.", "i"]],
                   lambda text: bool(whole(NAME)(text)))
    yield "what a rule of a label asks for, some times over and at some distance, and hyphens at each place"
    forms = list(dict.fromkeys([*repeated_forms(), *hyphened_forms()]))
    long_ones = [before + part * size for before in ("", "a", "\u05d0", "\u0301") for part in LONG_PARTS
                 for size in LONG_SIZES]
    yield texts("label", long_ones, is_hostname_form)
    yield idn_texts([*forms, *[f"a.{form}" for form in forms[::2]], *[f"\u05d0.{form}" for form in forms[1::2]]])
    yield texts("u-label", forms, is_u_label)
    yield texts("label", forms, is_hostname_form)
    encoded_forms = {to_a_label(form): form for form in forms if not form.isascii()}
    yield texts("hostname", encoded_forms,
                lambda label: bool(whole(LABEL)(label)) and is_hostname_form(encoded_forms[label]))
    yield idn_texts([label if at % 2 else label.upper() for at, label in enumerate(encoded_forms)])
    wide_ones = [form for form in forms if not form.isascii()]
    yield texts("idn-email", [*[f"a@{form}" for form in wide_ones], *[f"a@b.{form}" for form in wide_ones[::3]]],
                is_domain_of_labels)


def rows_of_kinds():
    """Labels of characters of each kind, and names of labels of each kind."""
    yield "characters of each kind, each beside each, and more in a row: each rule of a label beside each other one"
    of_two, of_three = words(OF_KINDS, (1, 2)), words(OF_KINDS, (3,))
    of_four = [f"{pair}{OF_KINDS[at % 23]}{OF_KINDS[(at * 7 + at // 23) % 23]}"
               for at, pair in enumerate(words(OF_KINDS, (2,)))]
    for step, (of, rule) in enumerate((("label", is_hostname_form), (IDN, is_idn_host_name), ("u-label", is_u_label))):
        yield texts(of, of_two + of_three[step::3] + of_four, rule)
    forms = [form for form in [*of_two, *of_three[::6], *of_four] if not form.isascii()]
    encoded_forms = {to_a_label(form): form for form in forms}
    yield texts("hostname", encoded_forms,
                lambda label: bool(whole(LABEL)(label)) and is_hostname_form(encoded_forms[label]))
    yield idn_texts([label if at % 2 else label.upper() for at, label in enumerate(encoded_forms)])
    yield "labels of each kind beside each other, with each of the four dots"
    yield idn_texts(pairs_of_labels())
    pairs = itertools.product([*IN_NAMES, *IN_NO_NAMES], repeat=2)
    yield texts("idn-email", [f"a@{one}.{other}" for at, (one, other) in enumerate(pairs) if at % 2], is_any_mailbox)
    of_ascii = [label for label in IN_NAMES + IN_NO_NAMES if label.isascii()]
    yield texts("hostname", [".".join(pair) for pair in itertools.product(of_ascii, repeat=2)], is_name_of_known_labels)


def placed_label_rows():
    """Labels of each kind at each place of a name."""
    yield "a rule of a label holds at each place of a name: the first, the second, the third and the last"
    labels = {form: bool(is_name_of_plain_labels(form)) for form in PLACED}
    for form in PLACED_FORMS:
        labels[to_a_label(form)] = bool(whole(LABEL)(to_a_label(form))) and is_hostname_form(form)
    rights = {name: is_right for label, is_right in labels.items() for name in at_places([label], "a")}
    yield texts("hostname", rights, rights.get)
    for other in ("a", "\u00fc"):
        yield idn_texts(at_places(PLACED, other))
        yield idn_texts(at_places([*PLACED_FORMS, *map(to_a_label, PLACED_FORMS)], other, 3))


def dot_rows():
    """Names with each of the dots of RFC 3490 between labels of each kind."""
    yield "each of the four dots between labels of each kind, beside each other one, at the ends, and two (RFC 3490)"
    names = []
    kinds = (("a", "b", "c", "d"), ("a", "\u00fc", "xn--tda", "\u4e00"), ("\u05d0", "\u00fc1", "\u05d1", "xn--4db"),
             ("1a", "\u05d0", "\u05d1", "a"), ("\u05d01", "\u05d1", "\u0628", "xn--4db"))
    for labels, between in itertools.product(kinds, itertools.product(DOTS, repeat=3)):
        names.append("".join(part for pair in zip(labels, (*between, "")) for part in pair))
    for one, other, label in itertools.product(("", *DOTS), DOTS, ("a", "\u00fc", "\u05d0", "xn--tda")):
        names += [f"{label}{one}{other}", f"{one}{other}{label}", f"{label}{one}{other}{label}",
                  f"{label}{one}{label}{other}{label}"]
    yield idn_texts(names)


def idn_rows():
    """The rows of internationalised host names."""
    yield "internationalised host names: RFC 5890 to 5893"
    yield from rows_of(permission_rows, normal_form_rows, label_rules_of_idn, context_rows_of_idn, bidi_rows_of_idn,
                       a_label_rows, size_rows, u_label_rows, hostname_form_rows, mail_label_rows, placed_label_rows,
                       repeated_form_rows, rows_of_kinds, rows_of_rules)
    yield ("all code points, by the derived property of another edition of Unicode: between two letters of either "
           "direction; of the first 131,072 first, last and beside the characters that have contextual rules")
    yield from (idn_sums(before, behind) for before, behind in WIDE_PLACES)
    places = (["", "\u4e00"], ["\u05d0", ""], ["\u05d0.\u4e00", ""], ["\u0375", ""], ["\u05d0\u0375", ""],
              ["\u05d0", "\u05f3"], ["\u30fb", ""], ["\u05d0\u30fb", ""], ["\u4e00", "\u200d\u4e00"],
              ["\u0628", "\u200c\u0628"], ["\u0628\u200c", "\u0628"])
    for before, behind in places:
        yield idn_sums(before, behind, 0x20000)
    yield from dot_rows()
