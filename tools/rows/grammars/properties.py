"""Properties and names of groups in patterns: ECMA-262, with the tables of Unicode."""
import itertools
import re
import unicodedata

from rows.grammars.common import ASCII, DIGITS, LETTERS, characters, never, searches, span, sums, texts
from rows.grammars.labels import ADDED_POINTS, ADDED_STARTS

# Patterns: ECMA-262 2024, section 22.2.1, with the flag u, and what README.md of the crate says of limits.

SYNTAX = "^$\\.*+?()[]{}|/"
LINE_ENDS = "\n\r\u2028\u2029"
# The names of each value of General_Category and of Script (PropertyValueAliases.txt), and behind a colon its first
# character, where one is assigned.
CATEGORIES = (
    "C/Other:0 Cc/cntrl/Control:0 Cf/Format:AD Cn/Unassigned:378 Co/Private_Use:E000 Cs/Surrogate L/Letter:41 "
    "LC/Cased_Letter:41 Ll/Lowercase_Letter:61 Lm/Modifier_Letter:2B0 Lo/Other_Letter:AA Lt/Titlecase_Letter:1C5 "
    "Lu/Uppercase_Letter:41 M/Mark/Combining_Mark:300 Mc/Spacing_Mark:903 Me/Enclosing_Mark:488 "
    "Mn/Nonspacing_Mark:300 N/Number:30 Nd/digit/Decimal_Number:30 Nl/Letter_Number:16EE No/Other_Number:B2 "
    "P/punct/Punctuation:21 Pc/Connector_Punctuation:5F Pd/Dash_Punctuation:2D Pe/Close_Punctuation:29 "
    "Pf/Final_Punctuation:BB Pi/Initial_Punctuation:AB Po/Other_Punctuation:21 Ps/Open_Punctuation:28 S/Symbol:24 "
    "Sc/Currency_Symbol:24 Sk/Modifier_Symbol:5E Sm/Math_Symbol:2B So/Other_Symbol:A6 Z/Separator:20 "
    "Zl/Line_Separator:2028 Zp/Paragraph_Separator:2029 Zs/Space_Separator:20 "
)
SCRIPTS = (
    "Adlm/Adlam:1E900 Aghb/Caucasian_Albanian:10530 Ahom:11700 Arab/Arabic:600 Armi/Imperial_Aramaic:10840 "
    "Armn/Armenian:531 Avst/Avestan:10B00 Bali/Balinese:1B00 Bamu/Bamum:A6A0 Bass/Bassa_Vah:16AD0 Batk/Batak:1BC0 "
    "Beng/Bengali:980 Berf/Beria_Erfe:16EA0 Bhks/Bhaiksuki:11C00 Bopo/Bopomofo:2EA Brah/Brahmi:11000 "
    "Brai/Braille:2800 Bugi/Buginese:1A00 Buhd/Buhid:1740 Cakm/Chakma:11100 Cans/Canadian_Aboriginal:1400 "
    "Cari/Carian:102A0 Cham:AA00 Cher/Cherokee:13A0 Chrs/Chorasmian:10FB0 Qaac/Copt/Coptic:3E2 "
    "Cpmn/Cypro_Minoan:12F90 Cprt/Cypriot:10800 Cyrl/Cyrillic:400 Deva/Devanagari:900 Diak/Dives_Akuru:11900 "
    "Dogr/Dogra:11800 Dsrt/Deseret:10400 Dupl/Duployan:1BC00 Egyp/Egyptian_Hieroglyphs:13000 Elba/Elbasan:10500 "
    "Elym/Elymaic:10FE0 Ethi/Ethiopic:1200 Gara/Garay:10D40 Geor/Georgian:10A0 Glag/Glagolitic:2C00 "
    "Gong/Gunjala_Gondi:11D60 Gonm/Masaram_Gondi:11D00 Goth/Gothic:10330 Gran/Grantha:11300 Grek/Greek:370 "
    "Gujr/Gujarati:A81 Gukh/Gurung_Khema:16100 Guru/Gurmukhi:A01 Hang/Hangul:1100 Han/Hani:2E80 Hano/Hanunoo:1720 "
    "Hatr/Hatran:108E0 Hebr/Hebrew:591 Hira/Hiragana:3041 Hluw/Anatolian_Hieroglyphs:14400 Hmng/Pahawh_Hmong:16B00 "
    "Hmnp/Nyiakeng_Puachue_Hmong:1E100 Hung/Old_Hungarian:10C80 Ital/Old_Italic:10300 Java/Javanese:A980 "
    "Jurc/Jurchen:18E00 Kali/Kayah_Li:A900 Kana/Katakana:30A1 Kawi:11F00 Khar/Kharoshthi:10A00 Khmr/Khmer:1780 "
    "Khoj/Khojki:11200 Kits/Khitan_Small_Script:16FE4 Knda/Kannada:C80 Krai/Kirat_Rai:16D40 Kthi/Kaithi:11080 "
    "Lana/Tai_Tham:1A20 Lao/Laoo:E81 Latn/Latin:41 Lepc/Lepcha:1C00 Limb/Limbu:1900 Lina/Linear_A:10600 "
    "Linb/Linear_B:10000 Lisu:A4D0 "
    "Lyci/Lycian:10280 Lydi/Lydian:10920 Mahj/Mahajani:11150 Maka/Makasar:11EE0 Mand/Mandaic:840 "
    "Mani/Manichaean:10AC0 Marc/Marchen:11C70 Medf/Medefaidrin:16E40 Mend/Mende_Kikakui:1E800 "
    "Merc/Meroitic_Cursive:109A0 Mero/Meroitic_Hieroglyphs:10980 Mlym/Malayalam:D00 Modi:11600 Mong/Mongolian:1800 "
    "Mro/Mroo:16A40 Mtei/Meetei_Mayek:AAE0 Mult/Multani:11280 Mymr/Myanmar:1000 Nagm/Nag_Mundari:1E4D0 "
    "Nand/Nandinagari:119A0 Narb/Old_North_Arabian:10A80 Nbat/Nabataean:10880 Newa:11400 Nko/Nkoo:7C0 "
    "Nshu/Nushu:16FE1 Ogam/Ogham:1680 Olck/Ol_Chiki:1C50 Onao/Ol_Onal:1E5D0 Orkh/Old_Turkic:10C00 Orya/Oriya:B01 "
    "Osge/Osage:104B0 Osma/Osmanya:10480 Ougr/Old_Uyghur:10F70 Palm/Palmyrene:10860 Pauc/Pau_Cin_Hau:11AC0 "
    "Pcun/Proto_Cuneiform:125A8 Perm/Old_Permic:10350 Phag/Phags_Pa:A840 Phli/Inscriptional_Pahlavi:10B60 "
    "Phlp/Psalter_Pahlavi:10B80 Phnx/Phoenician:10900 Plrd/Miao:16F00 Prti/Inscriptional_Parthian:10B40 "
    "Rjng/Rejang:A930 Rohg/Hanifi_Rohingya:10D00 Runr/Runic:16A0 Samr/Samaritan:800 Sarb/Old_South_Arabian:10A60 "
    "Saur/Saurashtra:A880 Seal:3D000 Sgnw/SignWriting:1D800 Shaw/Shavian:10450 Shrd/Sharada:11180 Sidd/Siddham:11580 "
    "Sidt/Sidetic:10940 Sind/Khudawadi:112B0 Sinh/Sinhala:D81 Sogd/Sogdian:10F30 Sogo/Old_Sogdian:10F00 "
    "Sora/Sora_Sompeng:110D0 Soyo/Soyombo:11A50 Sund/Sundanese:1B80 Sunu/Sunuwar:11BC0 Sylo/Syloti_Nagri:A800 "
    "Syrc/Syriac:700 Tagb/Tagbanwa:1760 Takr/Takri:11680 Tale/Tai_Le:1950 Talu/New_Tai_Lue:1980 Taml/Tamil:B82 "
    "Tang/Tangut:16FE0 Tavt/Tai_Viet:AA80 Tayo/Tai_Yo:1E6C0 Telu/Telugu:C00 Tfng/Tifinagh:2D30 Tglg/Tagalog:1700 "
    "Thaa/Thaana:780 Thai:E01 Tibt/Tibetan:F00 Tirh/Tirhuta:11480 Tnsa/Tangsa:16A70 Todr/Todhri:105C0 "
    "Tols/Tolong_Siki:11DB0 Toto:1E290 Tutg/Tulu_Tigalari:11380 Ugar/Ugaritic:10380 Vai/Vaii:A500 Vith/Vithkuqi:10570 "
    "Wara/Warang_Citi:118A0 Wcho/Wancho:1E2C0 Xpeo/Old_Persian:103A0 Xsux/Cuneiform:12000 Yezi/Yezidi:10E80 "
    "Yi/Yiii:A000 Zanb/Zanabazar_Square:11A00 Qaai/Zinh/Inherited:300 Zyyy/Common:0 Zzzz/Unknown:378 "
)
# The names of each binary property (ECMA-262 2024, the table of section 22.2.2.9.1), and those of these characters that
# have it in Unicode 17, as Node says. No two properties have the same. Changes_When_NFKC_Casefolded is not taken.
BINARY_CHARACTERS = (
    "\t,-0Ai\u00a0\u00ab\u00b7\u01c4\u01c5\u0345\u03d2\u0589\u061c\u0a71\u0e40\u0f3a\u13a0\u1715\u180a\u180b\u1885"
    "\u1abe\u200c\u200d\u200e\u203c\u2061\u2065\u206a\u207b\u2118\u2148\u2329\u24b6\u24d0\u261d\u2e80\u2ff0\u2ff2"
    "\u309b\u3400\ufdd0\ufe0f\ufe41\uff10\U00016fe4\U0001f1e6\U0001f385\U0001f3fb")
BINARIES = {
    "ASCII": "\t,-0Ai",
    "ASCII_Hex_Digit/AHex": "0A",
    "Alphabetic/Alpha": "Ai\u01c4\u01c5\u0345\u03d2\u0a71\u0e40\u13a0\u1885\u2148\u24b6\u24d0\u3400",
    "Any": BINARY_CHARACTERS,
    "Assigned": BINARY_CHARACTERS.replace("\u2065", "").replace("\ufdd0", ""),
    "Bidi_Control/Bidi_C": "\u061c\u200e",
    "Bidi_Mirrored/Bidi_M": "\u00ab\u0f3a\u2329",
    "Case_Ignorable/CI": (
        "\u00b7\u0345\u061c\u0a71\u180b\u1885\u1abe\u200c\u200d\u200e\u2061\u206a\u309b\ufe0f\U00016fe4\U0001f3fb"),
    "Cased": "Ai\u01c4\u01c5\u0345\u03d2\u13a0\u2148\u24b6\u24d0",
    "Changes_When_Casefolded/CWCF": "A\u01c4\u01c5\u0345\u24b6",
    "Changes_When_Casemapped/CWCM": "Ai\u01c4\u01c5\u0345\u13a0\u24b6\u24d0",
    "Changes_When_Lowercased/CWL": "A\u01c4\u01c5\u13a0\u24b6",
    "Changes_When_Titlecased/CWT": "i\u01c4\u0345\u24d0",
    "Changes_When_Uppercased/CWU": "i\u01c5\u0345\u24d0",
    "Dash": "-\u207b",
    "Default_Ignorable_Code_Point/DI": "\u061c\u180b\u200c\u200d\u200e\u2061\u2065\u206a\ufe0f",
    "Deprecated/Dep": "\u206a\u2329",
    "Diacritic/Dia": "\u00b7\u0345\u1715\u1abe\u309b",
    "Emoji": "0\u203c\u261d\U0001f1e6\U0001f385\U0001f3fb",
    "Emoji_Component/EComp": "0\u200d\ufe0f\U0001f1e6\U0001f3fb",
    "Emoji_Modifier/EMod": "\U0001f3fb",
    "Emoji_Modifier_Base/EBase": "\u261d\U0001f385",
    "Emoji_Presentation/EPres": "\U0001f1e6\U0001f385\U0001f3fb",
    "Extended_Pictographic/ExtPict": "\u203c\u261d\U0001f385",
    "Extender/Ext": "\u00b7\u0a71\u180a",
    "Grapheme_Base/Gr_Base": (
        ",-0Ai\u00a0\u00ab\u00b7\u01c4\u01c5\u03d2\u0589\u0e40\u0f3a\u13a0\u180a\u203c\u207b\u2118\u2148\u2329\u24b6"
        "\u24d0\u261d\u2e80\u2ff0\u2ff2\u309b\u3400\ufe41\uff10\U0001f1e6\U0001f385\U0001f3fb"),
    "Grapheme_Extend/Gr_Ext": "\u0345\u0a71\u1715\u180b\u1885\u1abe\u200c\ufe0f\U00016fe4",
    "Hex_Digit/Hex": "0A\uff10",
    "IDS_Binary_Operator/IDSB": "\u2ff0",
    "IDS_Trinary_Operator/IDST": "\u2ff2",
    "ID_Continue/IDC": (
        "0Ai\u00b7\u01c4\u01c5\u0345\u03d2\u0a71\u0e40\u13a0\u1715\u180b\u1885\u200c\u200d\u2118\u2148\u309b\u3400"
        "\ufe0f\uff10\U00016fe4"),
    "ID_Start/IDS": "Ai\u01c4\u01c5\u03d2\u0e40\u13a0\u1885\u2118\u2148\u309b\u3400",
    "Ideographic/Ideo": "\u3400\U00016fe4",
    "Join_Control/Join_C": "\u200c\u200d",
    "Logical_Order_Exception/LOE": "\u0e40",
    "Lowercase/Lower": "i\u0345\u2148\u24d0",
    "Math": "\u03d2\u2061\u207b\u2118\u2148",
    "Noncharacter_Code_Point/NChar": "\ufdd0",
    "Pattern_Syntax/Pat_Syn": ",-\u00ab\u203c\u2329\u261d",
    "Pattern_White_Space/Pat_WS": "\t\u200e",
    "Quotation_Mark/QMark": "\u00ab\ufe41",
    "Radical": "\u2e80",
    "Regional_Indicator/RI": "\U0001f1e6",
    "Sentence_Terminal/STerm": "\u0589\u203c",
    "Soft_Dotted/SD": "i\u2148",
    "Terminal_Punctuation/Term": ",\u0589\u203c",
    "Unified_Ideograph/UIdeo": "\u3400",
    "Uppercase/Upper": "A\u01c4\u03d2\u13a0\u24b6",
    "Variation_Selector/VS": "\u180b\ufe0f",
    "White_Space/space": "\t\u00a0",
    "XID_Continue/XIDC": (
        "0Ai\u00b7\u01c4\u01c5\u0345\u03d2\u0a71\u0e40\u13a0\u1715\u180b\u1885\u200c\u200d\u2118\u2148\u3400\ufe0f"
        "\uff10\U00016fe4"),
    "XID_Start/XIDS": "Ai\u01c4\u01c5\u03d2\u0e40\u13a0\u1885\u2118\u2148\u3400"}
# Characters that may and may not be first in a name (ID_Start), and behind (ID_Continue, U+200C and U+200D).
NAME_CHARACTERS = (
    "\u200b\u200c\u200d\u200e\u2118\u212e\u309b\u309c\u1885\u1886\u00b7\u0387\u1369\u1371\u19da\u30fb\uff65\u2e2f"
    "\u037a\u037e\u00aa\u00b5\u00ba\u00d7\u00f7\u0300\u0488\u0660\u0966\u2160\u3007\u3021\u303f\u2028\u00a0\u00a7"
    "\u2014\u203f\u2040\u2054\ufe33\uff3f\u0e33\ufdfa\U00010400\U0001d7ce\U000e0100\U0001f600\ud7a3\u4e00\u9fff"
    "\ufffd\U0010ffff\u0085\u00e9\u0430\u05d0")
NAME_STARTS = (
    "\u2118\u212e\u309b\u309c\u1885\u1886\u037a\u00aa\u00b5\u00ba\u2160\u3007\u3021\u0e33\ufdfa\U00010400\ud7a3\u4e00"
    "\u9fff\u00e9\u0430\u05d0")
NAME_PARTS = NAME_STARTS + (
    "\u200c\u200d\u00b7\u0387\u1369\u1371\u19da\u30fb\uff65\u0300\u0660\u0966\u203f\u2040\u2054\ufe33\uff3f"
    "\U0001d7ce\U000e0100")
PATTERNS = "patterns of ECMA-262"


def values_of(table):
    """Lists of names, each with a character, or with `None`."""
    for entry in table.split():
        names, _, point = entry.partition(":")
        yield names.split("/"), chr(int(point, 16)) if point else None


def one_letter_off(name):
    """Names that differ from it in a letter, a letter case, an underscore or what stands around it."""
    return {name[:-1], name[1:], name + "s", "_" + name, name.lower(), name.upper(), name.swapcase(),
            name[0].swapcase() + name[1:], name[:-1] + name[-1].swapcase(),
            name[:-1] + ("y" if name[-1] == "x" else "x"), name.replace("_", ""), name.replace("_", "-"),
            name + " ", " " + name, "Is" + name}


def property_searches(table, prefixes):
    """Each value of a property by each of its names, with a character that has it and one that has not."""
    rows = []
    values = list(values_of(table))
    for (names, point), (_, other) in zip(values, values[5:] + values[:5]):
        for letter, prefix, name in itertools.product("pP", prefixes, names):
            is_found = point is not None and letter == "p"
            rows.append([f"^\\{letter}{{{prefix}{name}}}$", point or "", is_found])
        if point and other and table is SCRIPTS:
            rows += [[f"^\\p{{sc={names[0]}}}$", other, False], [f"^\\P{{sc={names[-1]}}}$", other, True]]
    return searches(rows)


def is_of_value(value, category):
    """Whether a category is of a value of General_Category: UAX #44, section 5.7.1, where LC is Lu, Ll and Lt."""
    return value in (category, category[0]) or value == "LC" and category in ("Lu", "Ll", "Lt")


def category_searches():
    """Each value of General_Category by each of its names: all characters that have it, and all that do not.

    There is a character of each category. By its first name a value stands in classes too.
    """
    having = {name: point for (name, *_), point in values_of(CATEGORIES) if len(name) == 2 and name != "LC" and point}
    rows = []
    for (value, *names), _ in values_of(CATEGORIES):
        inside = "".join(point for name, point in having.items() if is_of_value(value, name))
        outside = "".join(point for point in having.values() if point not in inside)
        pairs = [(f"\\p{{{name}}}", f"\\P{{gc={name}}}") for name in (value, *names)]
        pairs += [(f"[\\p{{{value}}}]", f"[^\\p{{{value}}}]"), (f"[^\\P{{{value}}}]", f"[\\P{{{value}}}]")]
        for has, has_not in pairs:
            rows += [[f"^{has}+$", inside, bool(inside)], [has, outside, False]]
            rows += [[f"^{has_not}+$", outside, bool(outside)], [has_not, inside, False]]
    return searches(rows)


def binary_searches():
    """Each binary property by each of its names, alone and in classes, with all that have it and all that do not."""
    properties = [(names.split("/"), having) for names, having in BINARIES.items()]
    rows = []
    for (names, having), (others, also) in zip(properties, properties[1:] + properties[:1]):
        forms = [(f"\\p{{{name}}}", f"\\P{{{name}}}", having) for name in names]
        forms += [(f"[\\p{{{name}}}]", f"[^\\p{{{name}}}]", having) for name in names[:1]]
        forms += [(f"[^\\P{{{name}}}]", f"[\\P{{{name}}}]", having) for name in names[:1]]
        either = f"\\p{{{names[-1]}}}\\p{{{others[-1]}}}"
        forms.append((f"[{either}]", f"[^{either}]", having + also))
        for has, has_not, inside in forms:
            outside = "".join(character for character in BINARY_CHARACTERS if character not in inside)
            rows += [[f"^{has}+$", inside, True], [has, outside, False]]
            rows += [[f"^{has_not}+$", outside, bool(outside)], [has_not, inside, False]]
    return searches(rows)


def latin_searches():
    """Each value of General_Category, in the first characters of Unicode that have it and in those that have not."""
    first = span(0, 0x17F)
    rows = []
    for (value, *_), _ in values_of(CATEGORIES):
        inside = "".join(point for point in first if is_of_value(value, unicodedata.category(point)))
        outside = "".join(point for point in first if point not in inside)
        rows += [[f"^\\p{{{value}}}+$", inside, bool(inside)], [f"\\p{{{value}}}", outside, False]]
    return searches(rows)


def one_script_searches():
    """Each script, in the first character of each: it has one of them."""
    values = [(names[0], point) for names, point in values_of(SCRIPTS) if point]
    points = "".join(point for _, point in values)
    return searches([[f"^\\P{{sc={name}}}*\\p{{sc={name}}}\\P{{sc={name}}}*$", points, True] for name, _ in values])


# Characters whose Script is Common or Inherited, and whose Script_Extensions name scripts (ScriptExtensions.txt).
SHARED = {
    "Zyyy/Common": {"\u0640": "Arab", "\u060c": "Thaa", "\u0964": "Deva", "\u0965": "Beng", "\u10fb": "Geor",
                    "\u1735": "Tglg", "\u3001": "Hani", "\u3013": "Hang", "\u3030": "Kana",
                    "\u30a0": "Hira", "\u30fb": "Yiii", "\u30fc": "Kana", "\uff70": "Hira", "\u00b7": "Latn"},
    "Zinh/Inherited": {"\u0342": "Grek", "\u0345": "Grek", "\u0363": "Latn", "\u0485": "Cyrl", "\u064b": "Arab",
                       "\U000102e0": "Copt", "\u0951": "Deva", "\u1cd0": "Deva", "\u1dc0": "Grek", "\u3099": "Hira",
                       "\u302a": "Bopo"}}


def shared_searches():
    """Each character that scripts share, in none of them, and in Common or Inherited alone."""
    rows = []
    for (names, having), other in zip(SHARED.items(), [*SHARED][::-1]):
        for character, script in having.items():
            rows += [[f"^\\p{{sc={name}}}$", character, True] for name in names.split("/")]
            rows += [[f"^\\p{{sc={name}}}$", character, False] for name in (script, "Zzzz", *other.split("/"))]
    return searches(rows)


# The binary properties that the standard makes itself (ECMA-262 2024, section 22.2.2.9.1, and UTS #18, section 1.2).
MADE = {"Any": lambda character: True, "ASCII": str.isascii,
        "Assigned": lambda character: unicodedata.category(character) != "Cn"}
# The ends of ASCII and of Unicode, and characters of each kind that are not assigned or are for private use.
AT_ENDS = ("\0\u001f ~\u007f\u0080\u00ff\u0378\u0379\ud7ff\ue000\uf8ff\ufdd0\ufdef\ufffd\ufffe\uffff\U00010000"
           "\U0001fffe\U000e0001\U000f0000\U000ffffe\U0010fffd\U0010fffe\U0010ffff" + LINE_ENDS + "\u0085\ufeff")


def made_searches():
    """Each of these properties with each of these characters, alone and in classes."""
    forms = (("^\\p{{{}}}$", True), ("^\\P{{{}}}$", False), ("^[\\p{{{}}}]$", True), ("^[^\\p{{{}}}]$", False),
             ("^[\\P{{{}}}]$", False), ("^[^\\P{{{}}}]$", True))
    return searches([[form.format(name), character, has(character) == is_found]
                     for (name, has), (form, is_found), character in itertools.product(MADE.items(), forms, AT_ENDS)])


# Names of properties that the standard does not have: the other ones of PropertyAliases.txt, WSpace among them, those
# of UTS #18 and of other engines, and the properties of strings, which only the flag v has.
OTHER_PROPERTIES = (
    "WSpace Hyphen Grapheme_Link Gr_Link IDSU IDS_Unary_Operator Composition_Exclusion CE "
    "Full_Composition_Exclusion Comp_Ex Expands_On_NFC XO_NFC Expands_On_NFD XO_NFD Expands_On_NFKC XO_NFKC "
    "Expands_On_NFKD XO_NFKD ID_Compat_Math_Continue ID_Compat_Math_Start Modifier_Combining_Mark MCM "
    "Prepended_Concatenation_Mark PCM Other_Alphabetic OAlpha Other_Default_Ignorable_Code_Point ODI "
    "Other_Grapheme_Extend OGr_Ext Other_ID_Continue OIDC Other_ID_Start OIDS Other_Lowercase OLower Other_Math "
    "OMath Other_Uppercase OUpper Age age Bidi_Class bc Block blk Bidi_Mirroring_Glyph bmg "
    "Canonical_Combining_Class ccc Case_Folding cf Decomposition_Type dt East_Asian_Width ea General_Category gc "
    "Grapheme_Cluster_Break GCB Hangul_Syllable_Type hst Indic_Syllabic_Category InSC Joining_Type jt "
    "Joining_Group jg Line_Break lb Name na Numeric_Type nt Numeric_Value nv Script sc Script_Extensions scx "
    "Sentence_Break SB Vertical_Orientation vo Word_Break WB NFC_Quick_Check NFC_QC alnum blank graph print word "
    "xdigit alpha lower upper L& Latin Greek Xan Xwd Xsp Basic_Emoji Emoji_Keycap_Sequence RGI_Modifier_Sequence "
    "RGI_Flag_Sequence RGI_Emoji RGI_Emoji_Modifier_Sequence RGI_Emoji_Flag_Sequence RGI_Emoji_Tag_Sequence "
    "RGI_Emoji_ZWJ_Sequence").split()


def binary_names_off(categories):
    """What is no name of a binary property: one letter off, with a value, or where a value stands."""
    names = [name for names in BINARIES for name in names.split("/")]
    off = sorted({spoilt for name in names for spoilt in one_letter_off(name)} - {*names, *categories})
    valued = [f"{name}{value}" for name in names for value in ("=", "=Y", "=Yes", "=True", f"={name}")]
    valued += [f"{prefix}{name}" for name in names for prefix in ("=", "gc=", "sc=", "Script=", "General_Category=")]
    return off + valued + ["Changes_When_NFKC_Casefolded", "CWKCF"] + OTHER_PROPERTIES


def property_rows():
    """The rows of `\\p{..}` and `\\P{..}`."""
    yield ("each value of both properties by each of its names, with a character that has it and one that has not; and "
           "one letter off")
    yield property_searches(CATEGORIES, ("", "gc=", "General_Category="))
    yield property_searches(SCRIPTS, ("sc=", "Script="))
    known = {table: {name for names, _ in values_of(table) for name in names} for table in (CATEGORIES, SCRIPTS)}
    for table, prefixes in ((CATEGORIES, ("", "gc=")), (SCRIPTS, ("sc=",))):
        off = sorted({spoilt for name in known[table] for spoilt in one_letter_off(name)} - known[table])
        for prefix in prefixes:
            yield texts(PATTERNS, [f"\\p{{{prefix}{name}}}" for name in off], never)
    yield ("each value of General_Category by each of its names, with a character of each category: it has those of "
           "the categories that it is, and no others")
    yield category_searches()
    yield "each value in the characters up to U+017F that have it, and in the others"
    yield latin_searches()
    yield "each script has one of the first characters of all scripts"
    yield one_script_searches()
    yield "characters that several scripts share are of none of them (Script, and not Script_Extensions)"
    yield shared_searches()
    exchanged = [*sorted(known[SCRIPTS]), *(f"sc={name}" for name in sorted(known[CATEGORIES]))]
    properties = ("Sc", "SC", "script", "s", "scr", "sc ", "gC", "Gc", "g", "general_category", "Category", "")
    others = [f"{prefix}={value}" for prefix in properties for value in ("Latn", "Latin", "Lu")]
    others += ["gc=Latn", "sc=Zsye", "sc=Zsym", "sc=Jpan", "sc=Kore", "sc=Hans", "sc=Xxxx"]
    yield texts(PATTERNS, [f"\\p{{{name}}}" for name in exchanged + others], never)
    yield ("each binary property by each of its names, with all of some characters that have it and all that have not; "
           "one letter off, with a value, and as a value")
    yield binary_searches()
    yield texts(PATTERNS, [f"\\p{{{name}}}" for name in binary_names_off(known[CATEGORIES])], never)
    yield "Any, ASCII and Assigned: the ends of each, and characters that are not assigned"
    yield made_searches()


def escape_rows():
    """The rows of escapes."""
    yield "each character behind a backslash, in a pattern and in a class"
    wide = "\u00e9\u017f\u212a\u2028\u200d\ufeff\uff0d\U0001f600"
    places = [["\\", ""], ["a\\", "b", "c"], ["(\\", ")"], ["a|\\", ""], ["\\\\\\", ""]]
    yield characters(PATTERNS, SYNTAX + "dDsSwWfnrtvbB0", places)
    places = [["[\\", "]"], ["[a\\", "b]", "c"], ["[^\\", "]"], ["[\\\\\\", "]"]]
    yield characters(PATTERNS, SYNTAX + "dDsSwWfnrtvb0-", places)
    places = [["\\", ""], ["[\\", "]"], ["\\c", ""], ["[\\c", "]"], ["\\x4", ""], ["\\u004", ""], ["\\u{4", "}"]]
    yield characters(PATTERNS, "", places, wide)
    beside = {sign: (sign, chr(ord(sign) + 1), "\\", "") for sign in SYNTAX}
    yield searches([[f"^\\{sign}$", other, other == sign] for sign in beside for other in beside[sign]])
    beside = {sign: (sign, chr(ord(sign) - 1), "a") for sign in SYNTAX + "-"}
    yield searches([[f"^[\\{sign}]$", other, other == sign] for sign in beside for other in beside[sign]])
    yield "`\\c` before each character"
    yield characters(PATTERNS, LETTERS, [["\\c", ""], ["[\\c", "]"], ["a\\c", "b"]])
    rows = []
    for letter, form, off in itertools.product(LETTERS, ("\\c{}", "[\\c{}]"), (-1, 0, 1)):
        rows.append([f"^{form.format(letter)}$", chr(ord(letter) % 32 + off), off == 0])
    yield searches(rows)
    yield "`\\0` before each character, and behind backslashes"
    yield characters(PATTERNS, without(DIGITS + "\\()[]{}"), [["\\0", ""]])
    yield characters(PATTERNS, without(DIGITS + "\\]"), [["[\\0", "]"], ["[^a\\0", "]"]])
    zeros = ["\\" * slashes + "0" + digit for slashes in range(1, 6) for digit in ["", *DIGITS]]
    yield texts(PATTERNS, zeros, lambda text: text.count("\\") % 2 == 0 or text[-2] == "\\")
    yield from code_rows()


def without(left_out):
    """All characters of ASCII but these."""
    return "".join(character for character in ASCII if character not in left_out)


def is_surrogate(point):
    """Whether the code point is that of half a pair."""
    return 0xD800 <= point <= 0xDFFF


def unit_searches():
    """Two `\\u` in a row, alone and in a class: a pair of surrogates is one character, and any other one is refused."""
    units = [0x0000, 0x00FF, 0xD7FF, 0xD800, 0xD801, 0xDBFE, 0xDBFF, 0xDC00, 0xDC01, 0xDFFE, 0xDFFF, 0xE000, 0xFFFF]
    rows = []
    for one, other in itertools.product(units, repeat=2):
        text, is_taken = "", True
        if one & 0xFC00 == 0xD800 and other & 0xFC00 == 0xDC00:
            text = chr(0x10000 + (one - 0xD800) * 0x400 + other - 0xDC00)
        elif is_surrogate(one) or is_surrogate(other):
            is_taken = None
        else:
            text = chr(one) + chr(other)
        rows.append([f"^\\u{one:04x}\\u{other:04X}$", text, is_taken])
        rows.append([f"^[\\u{one:04X}\\u{other:04x}]$", text[:1], is_taken])
    return searches(rows)


def code_rows():
    """The rows of `\\x` and `\\u`."""
    yield "codes: each digit of base 16 at each place, surrogates at their ends, and the greatest code point"
    places = [["\\x", "1"], ["\\x1", ""], ["\\u", "061"], ["\\u0", "61"], ["\\u00", "1"], ["\\u006", ""],
              ["[\\x", "1]"], ["[\\u006", "]"], ["\\u{", "}"], ["\\u{6", "}"], ["\\u{0", "1}"], ["[\\u{", "}]"]]
    yield characters(PATTERNS, DIGITS + "ABCDEFabcdef", places)
    yield unit_searches()
    points = [0, 9, 0x41, 0x7F, 0xFF, 0xD7FF, 0xD800, 0xDFFF, 0xE000, 0xFFFF, 0x10000, 0x1F600, 0xFFFFF, 0x10FFFE,
              0x10FFFF, 0x110000, 0x1000000, 0xFFFFFFFF]
    rows = []
    for point, zeros in itertools.product(points, ("", "0", "000000000")):
        is_character = point <= 0x10FFFF and not is_surrogate(point)
        rows.append([f"^\\u{{{zeros}{point:x}}}$", chr(point) if is_character else "", is_character or None])
    yield searches(rows)
    yield searches([[f"^\\x{point:02x}$", chr(point + off), off == 0] for point in range(0, 256) for off in (0, 1)])
    spoilt = ["\\u{}", "[\\u{}]", "\\u{ 41}", "\\u{41 }", "\\u{4_1}", "\\u{+41}", "\\u{,}", "\\u(41)", "\\u{41",
              "\\u41}", "\\U0041", "\\X41", "\\u{{41}}"]
    yield texts(PATTERNS, spoilt, never)


# What Python does not take in its own names, whose classes are XID_Start and XID_Continue, closed under compatibility.
OTHER_STARTS = (
    "\u037a\u0e33\u0eb3\u309b\u309c\ufc5e\ufc5f\ufc60\ufc61\ufc62\ufc63\ufdfa\ufdfb\ufe70\ufe72\ufe74\ufe76\ufe78"
    "\ufe7a\ufe7c\ufe7e\uff9e\uff9f")


def is_name_start(point):
    """Whether a name of a group may begin by the character."""
    return chr(point) in "$_" + OTHER_STARTS or chr(point).isidentifier() or point in ADDED_STARTS


def is_name_part(point):
    """Whether the character may stand in a name behind another one."""
    if is_name_start(point) or point in ADDED_POINTS:
        return True
    return chr(point) in "\u200c\u200d\u30fb\uff65" or ("a" + chr(point)).isidentifier()


def escaped(character):
    """The character by the escape of its code."""
    point = ord(character)
    return f"\\u{{{point:x}}}" if point > 0xFFFF else f"\\u{point:04x}"


def name_rows():
    """The rows of names of groups."""
    yield "names of groups: each ASCII character first and behind, U+200C and U+200D, and others"
    # behind `(?<` a lookbehind begins by `=` or `!`
    firsts = [["(?<", ">a)", "=!"], ["a(?<", "b>)", "=!"], ["(?<\u00e9>x)(?<", ">a)", "=!"]]
    yield characters(PATTERNS, LETTERS + "$_", firsts)
    yield characters(PATTERNS, LETTERS + DIGITS + "$_", [["(?<a", ">x)", ">"], ["(?<a", "b>x)", ">"]])
    yield characters(PATTERNS, NAME_STARTS, [["(?<", ">x)"], ["(?<", "b>x)"]], NAME_CHARACTERS)
    yield characters(PATTERNS, NAME_PARTS, [["(?<a", ">x)"], ["(?<a", "b>x)"], ["(?<$", ">x)"]], NAME_CHARACTERS)
    for before, accepted in (("(?<", NAME_STARTS + "a$_"), ("(?<a", NAME_PARTS + "a0$_")):
        tried = NAME_CHARACTERS + "a0$_-> "
        expected = {f"{before}{escaped(character)}>x)": character in accepted for character in tried}
        yield texts(PATTERNS, expected, expected.get)
    yield sums(PATTERNS, [["(?<", ">x)"]], lambda point: is_name_start(point) or chr(point) in "=!", 0x100, 0x3100)
    yield sums(PATTERNS, [["(?<a", ">x)"]], lambda point: is_name_part(point) or chr(point) == ">", 0x100, 0x3100)
    names = ["a", "ab", "abc", "a1", "A", "aB", "ab\u200c", "ab\u200d", "\u00e9", "e\u0301", "$", "_"]
    forms = ("(?<{}>x)(?<{}>y)", "(?<{}>x|(?<{}>y))", "(?<{}>x)|(?<{}>y)")
    twice = [form.format(one, other) for one in names for other in names for form in forms]
    yield texts(PATTERNS, twice, lambda text: len(set(re.findall("<([^>]*)>", text))) == 2)


def class_rows():
    """The rows of classes."""
    yield ("ranges of a class, upside down and not: each neighbour of ASCII, letter cases, escapes, sets at an end, "
           "and characters past ASCII")
    codes = {f"[\\x{at:02x}-\\x{at + step:02x}]": step >= 0 for at in range(1, 127) for step in (-1, 0, 1)}
    yield texts(PATTERNS, codes, codes.get)
    letters = "aAbBmMyYzZ059"
    yield texts(PATTERNS, [f"[{one}-{other}]" for one in letters for other in letters], lambda text: text[1] <= text[3])
    far = ["\u007f", "\u0080", "\u00e9", "\u00ea", "\u07ff", "\u0800", "\ud7ff", "\ue000", "\uffff", "\U00010000",
           "\U0001f600", "\U0001f601", "\U0010ffff"]
    yield texts(PATTERNS, [f"[{one}-{other}]" for one in far for other in far], lambda text: text[1] <= text[3])
    yield searches([[f"^[{one}-{one}]$", other, one == other] for one in far for other in far])
    sets = ["\\d", "\\D", "\\s", "\\S", "\\w", "\\W", "\\p{L}", "\\P{L}"]
    forms = {"[{}-a]": 0, "[a-{}]": 0, "[{0}-{0}]": 0, "[{}-]": 1, "[-{}]": 1, "[{}a-]": 1, "[a{}]": 1, "[^{}]": 1}
    at_ends = {form.format(name): is_right for name in sets for form, is_right in forms.items()}
    yield texts(PATTERNS, at_ends, at_ends.get)
    controls = {"\\t": 9, "\\n": 10, "\\v": 11, "\\f": 12, "\\r": 13, "\\b": 8, "\\0": 0, "\\-": 45, "\\]": 93,
                "\\cA": 1, "\\x41": 65, "\\u{1F600}": 0x1F600}
    order = {f"[{one}-{other}]": controls[one] <= controls[other] for one in controls for other in controls}
    yield texts(PATTERNS, order, order.get)


def is_word(character):
    """Whether `\\w` has the character."""
    return character in LETTERS + DIGITS + "_"


def is_no_word(character):
    """Whether `\\W` has the character."""
    return not is_word(character)
