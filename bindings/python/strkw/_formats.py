"""One text by a format or an encoding, and formats for python-jsonschema."""
import ctypes
from functools import partial
from typing import TYPE_CHECKING, Any, Iterable, Union

from strkw._library import BYTES, COUNT, WRITTEN, BytesLike, bytes_of, function, written

if TYPE_CHECKING:
    from jsonschema import FormatChecker

Text = Union[str, BytesLike]

FORMATS = (
    "date", "date-time", "duration", "hostname", "ipv4", "ipv6", "iri", "iri-reference", "json-pointer",
    "relative-json-pointer", "time", "uri", "uri-reference", "uri-template", "uuid",
)
ENCODINGS = ("base64", "base64url", "base32", "base32hex", "base16", "json")

FORMAT_CHECKS = {
    name: function("is-" + name, BYTES, COUNT, result=ctypes.c_bool) for name in (*FORMATS, "hostname-draft4", "email")}
# What may be out of memory: the answer is 0, 1 or 2.
DECIDED_FORMATS = ("regex", "idn-email", "idn-hostname")
DECISIONS = {name: function("is-" + name, BYTES, COUNT) for name in (*ENCODINGS, *DECIDED_FORMATS)}
_ANSWER = function("answer", BYTES, COUNT, *WRITTEN)


def _decided(name: str, data: bytes) -> bool:
    """The answer of a check that may be out of memory."""
    status = DECISIONS[name](data, len(data))
    if status > 1:
        raise MemoryError
    return status == 1


def is_format(name: str, text: Text) -> bool:
    """Whether a text is of the format of this name.

    >>> is_format("date", "2024-02-29"), is_format("date", "2023-02-29")
    (True, False)

    The names are FORMATS, `email`, `regex`, `idn-email`, `idn-hostname` and `hostname-draft4`. `hostname` is that of
    draft 7 and later, and `hostname-draft4` that of drafts 4 and 6. KeyError for another name. What is not UTF-8, as a
    lone surrogate, has no format. MemoryError, of `regex`, `idn-email` and `idn-hostname` alone, where it is out of
    memory.
    """
    data = bytes_of(text)
    if name in DECIDED_FORMATS:
        return _decided(name, data)
    return FORMAT_CHECKS[name](data, len(data))


def is_email(text: Text) -> bool:
    """Whether a text is a mail address: Mailbox of RFC 5321, section 4.1.2.

    >>> is_email("joe.bloggs@example.com"), is_email("joe bloggs@example.com")
    (True, False)
    """
    return is_format("email", text)


def is_idn_email(text: Text) -> bool:
    """Whether a text is an internationalised mail address: Mailbox as RFC 6531, section 3.3, extends it.

    >>> is_idn_email("j\u00fcrgen@b\u00fccher.example"), is_idn_email("j\u00fcrgen@b\u00fccher-.example")
    (True, False)
    """
    return is_format("idn-email", text)


def is_idn_hostname(text: Text) -> bool:
    """Whether a text is an internationalised host name, by RFC 5890 to 5893 and Unicode 18.0.

    >>> is_idn_hostname("b\u00fccher.example"), is_idn_hostname("xn--bcher-kva.example")
    (True, True)
    >>> is_idn_hostname("b\u00fccher-")
    False
    """
    return is_format("idn-hostname", text)


def is_regex(text: Text) -> bool:
    """Whether a text is a pattern of the whole of ECMA-262 in Unicode mode: ECMA-262 2024, section 22.2.1.

    >>> is_regex("([abc])+\\\\1"), is_regex("^(abc]")
    (True, False)

    The keyword `pattern` does not take all of them: not this one, which has a back reference.
    """
    return is_format("regex", text)


def is_encoded(name: str, text: Text) -> bool:
    """Whether a text is an encoding of this name, or JSON; KeyError for a name that is none of ENCODINGS.

    >>> is_encoded("base64", "YQ=="), is_encoded("json", "[1]")
    (True, True)
    """
    if name not in ENCODINGS:
        raise KeyError(name)
    return _decided(name, bytes_of(text))


def answer(requests: BytesLike) -> bytes:
    """The answers to requests, one a line, as the program strkw gives them, whose patterns are literal ones alone."""
    if isinstance(requests, str):
        raise TypeError("requests are bytes-like, and no str")
    data = bytes_of(requests, "requests are bytes-like")
    return written(_ANSWER, data, len(data), room=max(256, 2 * len(data)))[1]


def _admits(name: str, instance: Any) -> bool:
    """Whether a format admits an instance. A function of the module, so that pickle carries a FormatChecker."""
    return not isinstance(instance, str) or is_format(name, instance)


def jsonschema_format_checker(names: Iterable[str] = (*FORMATS, "email", *DECIDED_FORMATS), *,
                              draft: int = 7) -> "FormatChecker":
    """A FormatChecker of the package jsonschema that knows these formats alone, by this library.

    Draft7Validator({"format": "date"}, format_checker=jsonschema_format_checker()). With draft=4 or 6 `hostname` is
    that of these drafts. KeyError for a name that is_format does not know, ImportError where the package is not
    installed.
    """
    try:
        from jsonschema import FormatChecker
    except ImportError as error:
        raise ImportError("jsonschema_format_checker needs the package jsonschema, which is not installed") from error

    made = FormatChecker(formats=())
    for name in names:
        if name not in FORMAT_CHECKS and name not in DECIDED_FORMATS:
            raise KeyError(name)
        is_older = name == "hostname" and draft in (4, 6)
        made.checks(name)(partial(_admits, "hostname-draft4" if is_older else name))
    return made
