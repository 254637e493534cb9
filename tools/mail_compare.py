#!/usr/bin/env python3
"""Compares `is_valid_email` and `is_valid_idn_email` with two other validators of addresses, on generated ones.

    python3 tools/mail_compare.py                  4,000 addresses, by the seed 1
    python3 tools/mail_compare.py 500 7            another number of addresses, and another seed

The others are the package `email_validator` of Python (1.3, Debian's `python3-email-validator`, to be run by Debian's
own `/usr/bin/python3`) and the module Email::Address::XS of Perl (Debian's `libemail-address-xs-perl`), which reads the
`addr-spec` of RFC 5322. It wants the toolchain too: `rt try` in `crates/strkw_test_grammars` asks the program without a
proof, or the program that `rt run` has built there answers. `email_validator` is asked without the DNS, and not whether
mail can be delivered.

Addresses are made of atoms and quoted strings, of domains in ASCII and past it, and of address literals, and some are
then spoilt at a place. Each difference is classed by the rule that explains it. One that no rule explains is told as
such, and the status is then 1. It is no part of the gate.
"""
import json
import re
import subprocess
import sys
import unicodedata
from collections import Counter

import email_validator
import idna
import idna_compare
from rows.grammars import labels as rules

COUNT, SEED = 4000, 1
MOST_TOLD = 4
ATOMS = ["a", "Ab", "x1", "user", "o'neil", "a+b", "{x}", "#!$%&*/=?^_`|~-", "0"]
WIDE_ATOMS = ["é", "a\u0301", "日本", "ß", "Ω", "\u00a0", "\u200d", "\U0001f600", "\u0378", "\u0301a", "\u0085"]
QUOTED = ["a", " ", "@", "..", "<>", ",;:", "[]", "(c)", "\\\"", "\\\\", "\\a", "\\ "]
LITERALS = ["1.2.3.4", "255.255.255.255", "1.2.3", "256.1.1.1", "001.02.3.4", "IPv6:::1", "IPv6:1:2:3:4:5:6:7:8", "x",
            "IPv6:1::8", "ipv6:::", "IPv6:1:2:3:4:5:6:1.2.3.4", "IPv6:::ffff:1.2.3.4", "::1", "IPv6:1:2", "tag:abc", ""]
LABELS = ["a", "b1", "example", "x-y", "a--b", "1", "com", "xn--bcher-kva", "xn--a", "xn--bcher-kvb", "XN--BCHER-KVA"]
PUT = "a1.@\"\\[]:-_ ()<>,;\té\u3002\uff21"
PERL = """
use strict; use warnings; use Email::Address::XS; use JSON::PP;
while (my $line = <STDIN>) {
    my $text = decode_json($line)->[0];
    print Email::Address::XS->parse_bare_address($text)->is_valid ? "1\\n" : "0\\n";
}
"""


class Maker(idna_compare.Maker):
    """Makes addresses, the same ones for the same seed."""

    def atoms(self, wide):
        """A local part of atoms with dots between them."""
        pool = ATOMS + (WIDE_ATOMS if wide else [])
        return ".".join(self.random.choice(pool) for _ in range(self.random.choice([1, 1, 2, 3])))

    def local(self, wide):
        """A local part: atoms, a quoted string, or a part of about 64 octets."""
        kind = self.random.random()
        if kind < 0.25:
            pool = QUOTED + (WIDE_ATOMS if wide else [])
            return '"' + "".join(self.random.choice(pool) for _ in range(self.random.randrange(5))) + '"'
        if kind < 0.3:
            part = self.random.choice("aé日" if wide else "a")
            return part * (self.random.choice([63, 64, 65, 66]) // len(part.encode()))
        return self.atoms(wide)

    def domain(self, wide):
        """A domain: labels, a literal, a name past ASCII, or a very long one."""
        kind = self.random.random()
        if kind < 0.15:
            return f"[{self.random.choice(LITERALS)}]"
        if kind < 0.22:
            return ".".join(["a" * self.random.choice([61, 62, 63, 64])] * self.random.choice([1, 3, 4]))
        if wide and kind < 0.6:
            return self.name()
        return ".".join(self.random.choice(LABELS) for _ in range(self.random.choice([1, 2, 2, 3])))

    def address(self, wide):
        """An address, of which one in three is spoilt at a place."""
        made = f"{self.local(wide)}@{self.domain(wide)}"
        if self.random.random() < 0.35:
            at = self.random.randrange(len(made) + 1)
            put = self.random.choice(["", *(PUT if wide else PUT[:-3])])
            made = made[:at] + put + made[at + self.random.randrange(2):]
        return made


def by_email_validator(address, wide):
    """Whether `email_validator` takes the address."""
    try:
        email_validator.validate_email(address, allow_smtputf8=wide, check_deliverability=False,
                                       test_environment=True, globally_deliverable=False)
        return True
    except (ValueError, IndexError):
        return False


def by_perl(addresses):
    """Which of the addresses Email::Address::XS takes."""
    lines = "".join(json.dumps([address]) + "\n" for address in addresses)
    run = subprocess.run(["perl", "-e", PERL], input=lines, stdout=subprocess.PIPE, text=True, check=True)
    return [answer == "1" for answer in run.stdout.split()]


def is_mapped(domain):
    """Whether UTS 46 maps the domain to another."""
    try:
        return idna.uts46_remap(domain, std3_rules=False, transitional=False) != domain
    except idna.IDNAError:
        return False


def reason_it_is_taken_here(local, domain):
    """The rule by which `email_validator` refuses an address that is taken here; `None` where none is known."""
    if local.startswith('"'):
        return "`email_validator` takes no quoted local part"
    if domain.startswith("[") or domain.endswith("]"):
        return "`email_validator` takes no address literal"
    categories = [unicodedata.category(one)[0] for one in local]
    if categories[0] == "M" or {"Z", "C"} & set(categories):
        return "`email_validator` refuses a mark at the front of a local part, and spaces, controls and unassigned ones"
    if any(label[2:4] == "--" for label in re.split(f"[{rules.DOTS}]", domain)):
        return "`email_validator` asks IDNA of labels in ASCII too"
    if idna_compare.is_of_later_editions(domain):
        return "Python's tables are of an earlier edition of Unicode"
    if len(local.encode()) + len(domain.encode()) > 253 or len(domain) > 253:
        return "`email_validator` bounds an address by 254 octets, and a domain by 253"
    return None


def reason_beside_python(address, is_here):
    """The rule by which one side alone takes an address; `None` where none is known."""
    local, _, domain = address.rpartition("@")
    if is_here:
        return reason_it_is_taken_here(local, domain)
    if len(local.encode()) > 64:
        return "`email_validator` counts characters of the local part, RFC 5321 octets"
    if is_mapped(domain):
        return "`email_validator` maps a domain by UTS 46 before it looks at it"
    labels = re.split(f"[{rules.DOTS}]", domain)
    if any(label[:4].lower() == "xn--" and rules.unicode_form(label) is None for label in labels):
        return "`idna` does not encode again what an A-label encodes"
    if not rules.is_idn_host_name(domain) and all(map(rules.unicode_form, labels)):
        return "`idna` applies the Bidi rule to each label by itself"
    if not domain.isascii():
        return "`email_validator` takes a domain past ASCII in any address"
    return None


def reason_beside_perl(address, is_here):
    """The same for Email::Address::XS, which has taken all that is taken here."""
    local, _, domain = address.rpartition("@")
    if is_here:
        return None
    if re.search(r"[()\s]", re.sub(r'"(?:[^"\\]|\\.)*"', "", address)):
        return "RFC 5322 lets comments and white space stand between parts"
    if '"' in local and "." in local:
        return "RFC 5322 lets words with dots between them be a local part, each an atom or quoted"
    if len(local) > 64 or len(domain) > 255 or any(len(label) > 63 for label in domain.split(".")):
        return "RFC 5322 has no limits of length"
    if domain.startswith("["):
        return "RFC 5322 lets a literal hold any text"
    if re.search(r"(?:^|\.)-|-(?:$|\.)|[^A-Za-z0-9.-]", domain):
        return "RFC 5322 lets a domain be any atoms"
    if re.search(r"[\x00-\x1f\x7f]", local):
        return "RFC 5322 lets controls stand in a quoted string, as an obsolete form"
    if domain.endswith("."):
        return "Email::Address::XS takes a last dot"
    return None


def compare(other, kind, addresses, answers, reason):
    """Counts what both sides say, and tells the differences by their reasons. How many have none."""
    counts, told, unexplained = Counter(), Counter(), 0
    for address, is_here, is_there in zip(addresses, *answers):
        counts[f"{'accepted' if is_here else 'refused'} here, {'accepted' if is_there else 'refused'} by {other}"] += 1
        if is_here == is_there:
            continue
        why = reason(address, is_here)
        unexplained += why is None
        told[why or "no rule known"] += 1
        if why is None or told[why] <= MOST_TOLD:
            print(f"{json.dumps(address)}: here {is_here}, {other} {is_there}: {why or 'NO RULE KNOWN'}")
    for what, count in [*sorted(counts.items()), *sorted(told.items())]:
        print(f"  {kind}: {count} {what}")
    return unexplained


def main():
    """Compares so many addresses in ASCII with both, and so many past ASCII with `email_validator`."""
    count, seed = ([int(word) for word in sys.argv[1:]] + [COUNT, SEED][len(sys.argv) - 1:])[:2]
    unexplained = 0
    for kind, wide in (("email", False), ("idn-email", True)):
        maker = Maker(seed)
        addresses = [maker.address(wide) for _ in range(count)]
        is_here = idna_compare.here(kind, addresses)
        is_there = [by_email_validator(address, wide) for address in addresses]
        unexplained += compare("email_validator", kind, addresses, (is_here, is_there), reason_beside_python)
        if not wide:
            answers = is_here, by_perl(addresses)
            unexplained += compare("Email::Address::XS", kind, addresses, answers, reason_beside_perl)
    print(f"mail_compare: twice {count} addresses of the seed {seed}: {unexplained} differences without a reason")
    return 1 if unexplained else 0


if __name__ == "__main__":
    sys.exit(main())
