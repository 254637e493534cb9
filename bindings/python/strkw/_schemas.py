"""Texts by a schema object."""
import ctypes
import json
from functools import partial
from itertools import accumulate
from math import isinf
from typing import Any, Callable, Iterable, Iterator, Literal, Mapping, Optional, Sequence, Union

from strkw._arrays import Array, Buffer, array_of
from strkw._formats import Text
from strkw._library import (
    BUFFER, BYTES, COUNT, DONE, NO_ROOM, NUMBER, OUT_OF_MEMORY, REFUSED, WRITTEN, BytesLike, bytes_of, function,
    written)

SchemaObject = Union[Mapping[str, Any], str, BytesLike]
Formats = Literal["checked", "as-draft"]
UnknownFormats = Literal["refuse", "ignore"]
Check = Callable[[str], bool]

DRAFTS = (4, 6, 7, 201909, 202012)
_KEYWORDS = (
    "contentMediaType", "contentEncoding", "contentSchema", "format", "minLength", "maxLength", "pattern")
_NOTING_DRAFTS = (201909, 202012)
_FORMATS_AS_DRAFT, _IGNORE_UNKNOWN_FORMATS, _COMPANION_FORMATS = 1, 2, 4
_VERDICTS = (False, True, None)

_OBJECT = (NUMBER, NUMBER, BYTES, COUNT)
_TEXTS = (BYTES, COUNT, ctypes.POINTER(COUNT), COUNT, BUFFER, COUNT)
_REFUSAL = function("refusal", *_OBJECT, *WRITTEN)
_CHECK = function("check", *_OBJECT, *_TEXTS)
_COMPILE = function("schema-compile", *_OBJECT, ctypes.POINTER(BUFFER))
_CHECK_BY = function("schema-check", BUFFER, *_TEXTS)
_ERRORS_BY = function("schema-errors", BUFFER, BYTES, COUNT, *WRITTEN)
_FREE = function("schema-free", BUFFER, result=None)


class ValidationError(ValueError):
    """What is wrong with a text, as a keyword of a schema object has it."""

    path: str
    """The place of the keyword in the schema object, a JSON pointer: `/format`; the root for what is no text."""
    keyword: str
    """The keyword: `format`, or none for what is no text."""
    message: str
    """What is wrong: `"2023-02-29" is not a "date"`."""

    def __init__(self, keyword: str, message: str) -> None:
        super().__init__(keyword, message)
        self.path, self.keyword, self.message = f"/{keyword}" if keyword else "", keyword, message

    def __str__(self) -> str:
        return f"{self.path}: {self.message}" if self.path else self.message


def _source(schema: Any) -> bytes:
    """A schema as JSON."""
    if isinstance(schema, Mapping):
        schema = json.dumps(dict(schema), allow_nan=False)
    return bytes_of(schema, "a schema is a dict, or JSON as a str or bytes-like")


def _draft_number(draft: Any) -> int:
    """The number of a draft, if there is such a draft."""
    if not isinstance(draft, int) or isinstance(draft, bool):
        raise TypeError(f"a draft is an int, and no {type(draft).__name__}")
    if draft not in DRAFTS:
        raise ValueError(f"the draft is none of {DRAFTS}: {draft}")
    return draft


def _option(name: str, value: Any, default: str, other: str, bit: int) -> int:
    """The bit of an option that is set by its other value."""
    if value not in (default, other):
        raise ValueError(f"{name} is {default!r} or {other!r}, and not {value!r}")
    return bit if value == other else 0


def _options(formats: Any, unknown_formats: Any, companion_formats: Any) -> int:
    """The options as the bits of one number."""
    if not isinstance(companion_formats, bool):
        raise TypeError(f"companion_formats is a bool, and no {type(companion_formats).__name__}")
    return (_option("formats", formats, "checked", "as-draft", _FORMATS_AS_DRAFT)
            | _option("unknown_formats", unknown_formats, "refuse", "ignore", _IGNORE_UNKNOWN_FORMATS)
            | (_COMPANION_FORMATS if companion_formats else 0))


def _has_lone_surrogate(value: Any) -> bool:
    """Whether a JSON value has half a pair of surrogates, which is no character."""
    try:
        json.dumps(value, ensure_ascii=False).encode()
    except UnicodeEncodeError:
        return True
    return False


def _why_unread(source: bytes) -> str:
    """Why the library reads no schema object from these bytes."""
    far: list[str] = []
    words: list[str] = []

    def number(word: str) -> float:
        if isinf(float(word)):
            far.append(word)
        return 0.0

    try:
        value = json.loads(source.decode(), parse_float=number, parse_int=number, parse_constant=words.append)
    except UnicodeDecodeError as error:
        return f"the schema is not UTF-8: byte {error.start} begins no character"
    except json.JSONDecodeError as error:
        return f"the schema is not JSON: {error}"
    except RecursionError:
        return "the schema nests too deep"
    if words:
        return f"the schema is not JSON: {words[0]} is no value"
    if not isinstance(value, dict):
        return "the schema is no JSON object"
    if far:
        return f"the schema has a number beyond the range of binary64: {far[0][:40]}"
    if _has_lone_surrogate(value):
        return "the schema has a lone surrogate, which is no character"
    return "the schema nests too deep"


def _require_done(status: int, schema: Sequence[Any]) -> None:
    """Raises what a status says of a schema, given by its draft, options and bytes."""
    if status == OUT_OF_MEMORY:
        raise MemoryError
    if status == REFUSED:
        _, text = written(_REFUSAL, *schema, room=256)
        raise ValueError(f"the schema object is refused at {text.decode()}")
    if status != DONE:
        raise ValueError(_why_unread(schema[2]))


class _Compiled:
    """A schema object that the library keeps, compiled, and frees with this."""

    def __init__(self, *schema: Any) -> None:
        self.schema, self.place = schema, BUFFER()
        _require_done(_COMPILE(*schema, ctypes.byref(self.place)), schema)

    def __del__(self, free: Callable[..., None] = _FREE) -> None:
        free(self.place)

    def __reduce__(self) -> tuple[Any, ...]:
        # A copy, also one in another process, is compiled anew.
        return _Compiled, self.schema

    def check(self, *texts: Any) -> int:
        """The status of a check, which writes a verdict on each text."""
        return _CHECK_BY(self.place, *texts)


def _verdicts(check: Callable[..., int], schema: Sequence[Any], texts: Iterable[Text]) -> list[Optional[bool]]:
    """What a check answers of each text: valid, not valid, or `None` for a text that is not UTF-8."""
    if isinstance(texts, (str, bytes, bytearray, memoryview)):
        raise TypeError(f"texts are a list of them, and no {type(texts).__name__}")
    data = [bytes_of(text) for text in texts]
    joined, count = b"".join(data), len(data)
    ends, verdicts = (COUNT * (count + 1))(*accumulate(map(len, data))), ctypes.create_string_buffer(count + 1)
    _require_done(check(joined, len(joined), ends, count, verdicts, count), schema)
    return [_VERDICTS[verdict] for verdict in verdicts.raw[:count]]


def check_texts(draft: int, schema: SchemaObject, texts: Iterable[Text], formats: Formats = "checked",
                unknown_formats: UnknownFormats = "refuse", *, companion_formats: bool = False) -> list[Optional[bool]]:
    """Whether each of a list of texts is valid by one schema object, in one call that compiles it once.

    >>> check_texts(7, {"format": "date", "maxLength": 10}, ["2024-02-29", "2023-02-29", b"\\xff"])
    [True, False, None]

    The draft is one of DRAFTS, the schema a dict, or JSON as a str or bytes-like, and a text a str or bytes-like.
    Formats are checked in every draft; with formats="as-draft" drafts 2019-09 and 2020-12 do not. A format that the
    draft or the library does not know is refused; with unknown_formats="ignore" it lets every text pass. With
    companion_formats=True `email` and `regex` are known, and from draft 7 on `idn-email` and `idn-hostname`. A pattern
    is one of ECMA-262 in Unicode mode, with no back reference and of a bounded size; a backslash may also stand before
    any other character of ASCII that is no letter and no digit, as in `\\_` and `\\@`. An answer is True or False, and
    None for what is not UTF-8, as a lone surrogate.

    ValueError where the draft is none of DRAFTS, an option is another word, or the schema is no object or refused; it
    says why. TypeError where an argument is of another type.
    """
    number, source = _draft_number(draft), _source(schema)
    compiled = (number, _options(formats, unknown_formats, companion_formats), source, len(source))
    return _verdicts(partial(_CHECK, *compiled), compiled, texts)


class Schema:
    """A schema object of one draft, and the texts that are checked by it.

    >>> name = Schema(7, {"pattern": "^[a-z]+$", "maxLength": 8})
    >>> name.is_valid("ada")
    True
    >>> name.validate("Ada Lovelace")
    Traceback (most recent call last):
    strkw.ValidationError: /maxLength: "Ada Lovelace" is longer than 8 characters

    The arguments are those of check_texts. In `checks` a caller registers formats: a name, and a function that answers
    whether a str is of the format. It counts before the library's own format of that name, as `email`:

    >>> mail = Schema(7, {"format": "email"}, checks={"email": is_email})
    >>> mail.are_valid(["joe@example.com", "joe"])
    [True, False]

    With companion_formats=True the library checks `email` and `regex` itself, and from draft 7 on `idn-email` and
    `idn-hostname`:

    >>> Schema(7, {"format": "idn-hostname"}, companion_formats=True).are_valid(["b\u00fccher.example", "-a.example"])
    [True, False]

    The schema object is compiled once, and never changed. Threads may share one without a lock, and so may processes
    after a fork. Of more than 16 calls at once, the others compile it again.
    """

    def __init__(self, draft: int, schema: SchemaObject, formats: Formats = "checked",
                 unknown_formats: UnknownFormats = "refuse", checks: Optional[Mapping[str, Check]] = None, *,
                 companion_formats: bool = False) -> None:
        number, source = _draft_number(draft), _source(schema)
        options = _options(formats, unknown_formats, companion_formats)
        self._name, self._check = None, None
        if checks is not None:
            if not isinstance(checks, Mapping):
                raise TypeError(f"checks are a dict of functions by names, and no {type(checks).__name__}")
            source = self._take_format(source, checks, options & _FORMATS_AS_DRAFT and number in _NOTING_DRAFTS)
        self._compiled = _Compiled(number, options, source, len(source))

    def _take_format(self, source: bytes, checks: Mapping[str, Check], only_notes: bool) -> bytes:
        """The schema object without a format that the caller registers."""
        try:
            members = json.loads(source.decode())
        except ValueError:
            return source
        name = members.get("format") if isinstance(members, dict) else None
        if not isinstance(name, str) or name not in checks:
            return source
        if not callable(checks[name]):
            raise TypeError(f"the check of {name!r} is a function, and no {type(checks[name]).__name__}")
        self._name, self._check = name, None if only_notes else checks[name]
        del members["format"]
        return json.dumps(members).encode()

    def _lines(self, data: bytes, word: str) -> Iterator[tuple[str, str]]:
        """The keyword and what stands behind it, of each line that begins with the word."""
        status, out = written(_ERRORS_BY, self._compiled.place, data, len(data), room=256)
        assert status == DONE
        for line in out.decode().split("\n")[:-1]:
            kind, place, told = line.split(" ", 2)
            if kind == word:
                yield place[1:-1], told

    def _verdicts(self, texts: Iterable[Text]) -> list[Optional[bool]]:
        """What the library answers of each text."""
        return _verdicts(self._compiled.check, self._compiled.schema, texts)

    def is_valid(self, text: Text) -> bool:
        """Whether a text is valid. What is not UTF-8, as a lone surrogate, is not."""
        data = bytes_of(text)
        return self._verdicts([data])[0] is True and (self._check is None or bool(self._check(data.decode())))

    def are_valid(self, texts: Iterable[Text]) -> list[Optional[bool]]:
        """Whether each of a list of texts is valid, and None for what is not UTF-8."""
        if self._check is None:
            return self._verdicts(texts)
        kept = texts if isinstance(texts, (str, bytes, bytearray, memoryview)) else list(texts)
        return [verdict and bool(self._check(bytes_of(text).decode()))
                for verdict, text in zip(self._verdicts(kept), kept)]

    def check_array(self, texts: Buffer, offsets: Buffer, validity: Optional[Buffer] = None, *, offset: int = 0,
                    length: Optional[int] = None, large: bool = False) -> bytearray:
        """A verdict on each text of an array that Apache Arrow has laid out, in one call, and without a copy of it.

        >>> from array import array
        >>> list(Schema(7, {"format": "date"}).check_array(b"2024-02-292023-02-29", array("i", [0, 10, 20])))
        [1, 0]

        A verdict is 1 for a valid text, 0 for one that is not, 2 for bytes that are not UTF-8, and 3 for a null. The
        texts are bytes, one text behind the other. The offsets are numbers of 32 bits, or with large=True of 64: each
        text begins at one of them and ends before the next. A text is null where its bit in the bitmap of the validity
        is not set. From an array of pyarrow, of the type `string`:

            validity, offsets, texts = array.buffers()
            verdicts = schema.check_array(texts, offsets, validity, offset=array.offset, length=len(array))

        With large=True it is a `large_string`. Without a length all texts are checked from the offset on. No other
        thread may change the buffers meanwhile. Each call compiles the schema object once more.

        ValueError where the offsets are not such numbers, are too few, fall, or lead past the texts, or the validity
        has too few bits. TypeError where an argument is of another type.
        """
        found = array_of(texts, offsets, validity, offset, length, large)
        verdicts = bytearray(len(found))
        status = found.check(self._compiled.schema, verdicts)
        if status == OUT_OF_MEMORY:
            raise MemoryError
        if status == NO_ROOM:
            raise ValueError("the offsets fall, or lead past the texts")
        assert status == DONE
        if self._check is not None:
            self._judge(found, verdicts)
        return found.marked(verdicts)

    def _judge(self, found: Array, verdicts: bytearray) -> None:
        """Asks the caller's check of the texts that are valid otherwise, and not null."""
        for index, verdict in enumerate(verdicts):
            is_null = found.nulls and found.nulls[index]
            if verdict == 1 and not is_null and not self._check(found.text(index).decode()):
                verdicts[index] = 0

    def iter_errors(self, text: Text) -> Iterator[ValidationError]:
        """The errors of a text, in the order contentMediaType, contentEncoding, format, minLength, maxLength, pattern.

        >>> [error.keyword for error in Schema(7, {"format": "date", "maxLength": 5}).iter_errors("2023-02-29")]
        ['format', 'maxLength']

        What is not UTF-8, as a lone surrogate, has one error, of no keyword.
        """
        data = bytes_of(text)
        try:
            characters = data.decode()
        except UnicodeDecodeError:
            return iter([ValidationError("", "the text is not UTF-8")])
        found = [ValidationError(keyword, told) for keyword, told in self._lines(data, "error")]
        if self._check is not None and not self._check(characters):
            shown = json.dumps(characters, ensure_ascii=False)
            found.append(ValidationError("format", f'{shown} is not a "{self._name}"'))
            found.sort(key=lambda error: _KEYWORDS.index(error.keyword))
        return iter(found)

    def validate(self, text: Text) -> None:
        """Raises the first ValidationError of a text that is not valid."""
        for error in self.iter_errors(text):
            raise error

    def annotations(self) -> dict[str, Any]:
        """What the object notes of each text, by keyword.

        >>> Schema(7, {"format": "date"}).annotations()
        {'format': 'date'}
        """
        noted = {keyword: json.loads(value) for keyword, value in self._lines(b"", "note")}
        if self._name is not None:
            noted["format"] = self._name
        return {keyword: noted[keyword] for keyword in _KEYWORDS if keyword in noted}
