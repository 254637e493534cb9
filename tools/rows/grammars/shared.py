"""Characters that several scripts share, in patterns: the property Script_Extensions."""
import itertools

from rows.grammars.common import in_forms, never, searches, texts
from rows.grammars.properties import PATTERNS, SCRIPTS, one_letter_off, property_searches, values_of

# The characters for which ScriptExtensions.txt of Unicode 17 lists scripts, behind these scripts. Unicode 18 has other
# lists for U+0B83, U+1CF5, U+1CF6 and signs of cuneiform, which Proto-Cuneiform shares: SHARED_SINCE_18 has them.
SHARED_BY = """
Avst Cari Copt Dupl Elba Geor Glag Gong Goth Grek Han Latn Lydi Mahj Perm Shaw: B7
Beng Cyrl Deva Latn Lisu Thai Toto: 2BC
Bopo Latn: 2C7 2C9-2CB 2D9
Latn Lisu: 2CD
Latn Thai: 2D7
Cher Copt Cyrl Grek Latn Perm Sunu Tale: 300
Cher Cyrl Grek Latn Osge Sunu Tale Todr: 301
Cher Cyrl Latn Tfng: 302
Glag Latn Sunu Syrc Thai: 303
Aghb Cher Copt Cyrl Goth Grek Latn Osge Syrc Tfng Todr: 304
Copt Elba Glag Goth Kana Latn: 305
Cyrl Grek Latn Perm Tfng: 306
Copt Dupl Hebr Latn Perm Syrc Tale Tfng Todr: 307
Armn Cyrl Dupl Goth Grek Hebr Latn Perm Syrc Tale Tfng: 308
Latn Tfng: 309
Dupl Latn Syrc: 30A
Cher Cyrl Latn Osge: 30B
Cher Latn Tale: 30C
Latn Sunu: 30D 310
Ethi Latn: 30E
Cyrl Latn Todr: 311
Grek Latn Perm Todr: 313
Cher Dupl Kana Latn Syrc Tfng: 323
Cher Dupl Latn Syrc: 324
Latn Syrc: 325 32E
Latn Sunu Syrc: 32D
Cher Latn Syrc: 330
Aghb Cher Goth Latn Sunu Syrc Thai: 331
Grek: 342 345 1DC0-1DC1
Latn Osge: 358
Aghb Latn Todr: 35E
Latn: 363-36F
Copt Grek: 374-375
Cyrl Perm: 483
Cyrl Glag: 484 487 2E43 A66F
Cyrl Latn: 485-486
Armn Geor Glag: 589
Arab Gara Nko Rohg Syrc Thaa Yezi: 60C 61B
Arab Syrc Thaa: 61C
Adlm Arab Gara Nko Rohg Syrc Thaa Yezi: 61F
Adlm Arab Mand Mani Ougr Phlp Rohg Sogd Syrc: 640
Arab Syrc: 64B-655 670
Arab Thaa Yezi: 660-669
Arab Rohg: 6D4
Beng Deva Gran Gujr Guru Knda Latn Mlym Nand Newa Orya Shrd Taml Telu Tirh: 951
Beng Deva Gran Gujr Guru Knda Latn Mlym Newa Orya Taml Telu Tirh: 952
Beng Deva Dogr Gong Gonm Gran Gujr Guru Knda Mahj Mlym Nand Onao Orya Sind Sinh Sylo Takr Taml Telu Tirh: 964
Beng Deva Dogr Gong Gonm Gran Gujr Gukh Guru Knda Limb Mahj Mlym Nand Onao Orya Sind Sinh Sylo Takr Taml Telu Tirh:
    965
Deva Dogr Kthi Mahj: 966-96F
Beng Cakm Sylo: 9E6-9EF
Guru Mult: A66-A6F
Gujr Khoj: AE6-AEF
Gran Taml: BE6-BF3 11301 11303 1133B-1133C 11FD0-11FD1 11FD3
Knda Nand Tutg: CE6-CEF
Cakm Mymr Tale: 1040-1049
Geor Glag Latn: 10FB
Runr: 16EB-16ED
Buhd Hano Tagb Tglg: 1735-1736
Mong Phag: 1802-1803 1805
Beng Deva Gran Knda: 1CD0 1CD2
Deva: 1CD1 1CD4 1CDB 1CDE-1CDF 1CE3-1CE8 1CEC 1CEE-1CF1
Deva Gran Knda: 1CD3
Beng Deva Newa Telu Tirh: 1CD5
Beng Deva Telu: 1CD6
Deva Newa Shrd: 1CD7
Beng Deva Newa Telu: 1CD8
Deva Shrd: 1CD9 1CDC-1CDD 1CE0
Deva Knda Mlym Orya Taml Telu: 1CDA
Beng Deva: 1CE1
Deva Newa Tirh: 1CE2
Deva Nand Newa: 1CE9
Beng Deva Shrd: 1CEA
Deva Newa: 1CEB
Beng Deva Newa Shrd: 1CED
Beng Deva Gran Knda Mlym Nand Orya Sinh Telu Tirh Tutg: 1CF2
Deva Gran: 1CF3 1CF8-1CF9
Deva Gran Knda Tutg: 1CF4
Beng: 1CF7
Nand: 1CFA
Cyrl Latn Syrc: 1DF8
Syrc: 1DFA
Latn Mong Phag: 202F
Adlm Arab: 204F
Cari Geor Glag Hung Lyci Orkh: 205A
Cari Grek Hung Mero: 205D
Deva Gran Latn: 20F0
Copt Latn: 2E17
Avst Orkh: 2E30
Avst Cari Geor Hung Kthi Lydi Samr: 2E31
Dupl: 2E3C 1BCA0-1BCA3
Adlm Arab Hung: 2E41
Han Tang: 2FF0-2FFF 31EF
Bopo Hang Han Hira Kana Mong Yi: 3001
Bopo Hang Han Hira Kana Mong Phag Yi: 3002
Bopo Hang Han Hira Kana: 3003 3013 301C-301F 3030 3037 FE45-FE46
Han: 3006 303E-303F 3190-319F 31C0-31E5 3220-3247 3280-32B0 32C0-32CB 32FF 3358-3370 337B-337F 33E0-33FE 1D360-1D371
    1F250-1F251
Bopo Hang Han Hira Kana Mong Tibt Yi: 3008-3009
Bopo Hang Han Hira Kana Lisu Mong Tibt Yi: 300A-300B
Bopo Hang Han Hira Kana Yi: 300C-3011 3014-301B 30FB FF61-FF65
Bopo Han: 302A-302D
Hira Kana: 3031-3035 3099-309C 30A0 30FC FF70 FF9E-FF9F
Han Hira Kana: 303C-303D
Han Latn: A700-A707
Deva Dogr Gujr Guru Khoj Knda Kthi Mahj Mlym Modi Nand Shrd Sind Takr Tirh Tutg: A830-A832
Deva Dogr Gujr Guru Khoj Knda Kthi Mahj Modi Nand Shrd Sind Takr Tirh Tutg: A833-A835
Deva Dogr Gujr Guru Khoj Kthi Mahj Modi Sind Takr Tirh: A836-A837 A839
Deva Dogr Gujr Guru Khoj Kthi Mahj Modi Shrd Sind Takr Tirh: A838
Beng Deva Tutg: A8F1
Deva Taml: A8F3
Kali Latn Mymr: A92E
Bugi Java: A9CF
Arab Nko: FD3E-FD3F
Arab Thaa: FDF2 FDFD
Cpmn Cprt Linb: 10100-10101
Cprt Linb: 10102 10137-1013F
Cprt Lina Linb: 10107-10133
Arab Copt: 102E0-102FB
Mani Ougr: 10AF2
"""
UNLIKE_18 = {0xB83, 0x1CF5, 0x1CF6, *range(0x12000, 0x12600)}
# Those, as ScriptExtensions.txt of Unicode 18 has them, and characters beside them that no list has, behind their own
# scripts (Scripts.txt). The kit's tables are written from these files.
SHARED_SINCE_18 = """
Knda Mlym Taml Telu: B83
Beng: 1CF5-1CF6
Pcun Xsux: 12550-12586 1258C-1258D 1259A-125A7
Taml: B82 B85-B8A
Xsux: 12400-12543 12587-1258B 1258E-12599 1264C-12686
Pcun: 125A8-1264B
Zzzz: B84 1254F 12687
"""


def points_in(ranges):
    """The code points of some ranges."""
    for part in ranges.split():
        low, _, high = part.partition("-")
        yield from range(int(low, 16), int(high or low, 16) + 1)


def listed(table):
    """Each character of such a table, with its scripts."""
    lines = table.replace("\n    ", " ").strip().splitlines()
    return {chr(point): scripts.split() for scripts, _, ranges in (line.partition(":") for line in lines)
            for point in points_in(ranges)}


LISTED = listed(SHARED_BY)
SHARING = sorted({script for scripts in LISTED.values() for script in scripts})


def sharing_searches(known):
    """Of each script all of the characters that have it, and all that others have without it."""
    rows, scripts_of_all = [], sorted({script for scripts in known.values() for script in scripts})
    for script, name in itertools.product(scripts_of_all, ("scx", "Script_Extensions")):
        having = "".join(one for one, scripts in known.items() if script in scripts)
        lacking = "".join(one for one, scripts in known.items() if script not in scripts)
        rows += [[f"^\\p{{{name}={script}}}+$", having, True], [f"\\p{{{name}={script}}}", lacking, False],
                 [f"\\P{{{name}={script}}}", having, False], [f"^[\\P{{{name}={script}}}]+$", lacking, True],
                 [f"^[^\\p{{{name}={script}}}]+$", lacking, True]]
    return searches(rows)


def one_sharing_searches():
    """Each character alone, by a script that shares it and by one that does not."""
    rows = []
    for place, (one, having) in enumerate(LISTED.items()):
        first = place % len(SHARING)
        other = next(script for script in SHARING[first:] + SHARING if script not in having)
        rows += [[f"^\\p{{scx={having[place % len(having)]}}}$", one, True], [f"^\\p{{scx={other}}}$", one, False]]
    return searches(rows)


def beside_searches():
    """The characters beside those that scripts share have the one script that Script tells."""
    points = {ord(one) for one in LISTED}
    beside = {near for point in points for near in (point - 1, point + 1)} - points - UNLIKE_18
    text = "".join(map(chr, sorted(beside)))
    return searches([[f"(?<=\\p{{{one}={names[0]}}})(?<!\\p{{{other}={names[0]}}})", text, False]
                     for names, _ in values_of(SCRIPTS) for one, other in (("sc", "scx"), ("scx", "sc"))])


# Characters that no list has, of Common and of Inherited.
OF_COMMON = " 0-!~\u00a0\u00d7\u2028\u2190\u4dc0\U0001f600"
OF_INHERITED = "\u034f\u200c\u200d\ufe00\ufe0f\U000e0100"


def common_searches():
    """What scripts share is neither of Common nor of Inherited; what no list has is of its own script."""
    every = "".join(LISTED)
    rows = [[f"\\p{{scx={name}}}", every, False] for name in ("Zyyy", "Common", "Zinh", "Inherited", "Qaai", "Zzzz")]
    for name, own, other in (("Zyyy", OF_COMMON, OF_INHERITED), ("Zinh", OF_INHERITED, OF_COMMON)):
        rows += [[f"^\\p{{scx={name}}}+$", own, True], [f"\\p{{scx={name}}}", other, False],
                 [f"^\\P{{scx={name}}}+$", other, True], [f"[\\P{{scx={name}}}]", own, False]]
    rows += [["^[\\p{scx=Hira}\\p{scx=Kana}]+$", "\u3042\u30a2\u30fc\u3001", True],
             ["^[^\\p{scx=Grek}a]$", "\u0342", False], ["^[^\\P{scx=Grek}a]$", "\u0342", True],
             ["^\\p{scx=Deva}+$", "\u0939\u093f\u0964", True], ["^\\p{sc=Deva}+$", "\u0939\u093f\u0964", False],
             ["^\\p{scx=Arab}+$", "\u0639\u0640\u064b", True], ["^\\p{sc=Arab}+$", "\u0639\u0640\u064b", False],
             ["^(?:\\p{scx=Hani}|\\p{scx=Hang})*$", "\u4e2d\u3001\uac00", True]]
    return searches(rows)


def extension_rows():
    """The rows of Script_Extensions."""
    yield "Script_Extensions: each value of Script by each of its names, with a character that has it alone"
    yield property_searches(SCRIPTS.replace("Inherited:300", "Inherited:34F"), ("scx=", "Script_Extensions="))
    known = {name for names, _ in values_of(SCRIPTS) for name in names}
    off = sorted({spoilt for name in known for spoilt in one_letter_off(name)} - known)
    yield texts(PATTERNS, [f"\\p{{scx={name}}}" for name in off], never)
    wrong = ("", "Lu", "L", "Alphabetic", "ASCII", "Any", "latin", "LATIN", "Latn ", " Latn", "scx=Latn", "Zsye",
             "Jpan")
    yield texts(PATTERNS, in_forms(("\\p{{scx={}}}", "[\\P{{Script_Extensions={}}}]"), wrong), never)
    names = ("SCX", "Scx", "scX", "script_extensions", "ScriptExtensions", "Script_Extension", "scx ", "sce", "Scripts")
    yield texts(PATTERNS, in_forms(("\\p{{{}=Latn}}", "\\p{{{}}}"), names), never)
    yield texts(PATTERNS, ["\\p{scx}", "\\p{Script_Extensions}", "\\P{scx}", "[\\p{scx}]"], never)
    yield "each character that scripts share is of each of them (ScriptExtensions.txt), and of no other"
    yield sharing_searches(LISTED)
    yield one_sharing_searches()
    yield "a character beside them is of its own script alone"
    yield beside_searches()
    yield "what scripts share is neither common nor inherited"
    yield common_searches()
    yield "what scripts share since Unicode 18, and what stands beside it"
    yield sharing_searches(listed(SHARED_SINCE_18))
    every = "".join(listed(SHARED_SINCE_18))
    yield searches([[f"\\p{{scx={name}}}", every, False] for name in ("Zyyy", "Zinh", "Deva", "Gran")])
