"""Arrays of texts as Apache Arrow lays them out, which are checked where they lie."""
import ctypes
from contextlib import ExitStack, contextmanager
from dataclasses import dataclass
from typing import Any, Iterator, Optional, Sequence

from strkw._library import BUFFER, BYTES, COUNT, NUMBER, function

# What memoryview takes, as bytes, an array of the module array, or a Buffer of pyarrow.
Buffer = Any

NULL = 3

_CALLED = (NUMBER, NUMBER, BYTES, COUNT, BUFFER, COUNT, BUFFER, COUNT, BUFFER, COUNT)
# By the bytes of an offset: the function, and the word for such numbers in a memoryview.
_WIDTHS = {4: (function("check-offsets32", *_CALLED), "i"), 8: (function("check-offsets", *_CALLED), "q")}
# The formats of items that are bytes, and of whole numbers in the machine's own order (the module struct).
_BYTE_FORMATS, _NUMBER_FORMATS = ("b", "B", "c"), ("i", "I", "l", "L", "q", "Q", "n", "N")
# For each byte of a bitmap a byte for each of its bits, the lowest first: NULL where the bit is not set.
_NULLS = [bytes(0 if byte >> bit & 1 else NULL for bit in range(8)) for byte in range(256)]
_WRITABLE = 1


class _Buffer(ctypes.Structure):
    """Py_buffer of Python's C API."""
    _fields_ = [("start", BUFFER), ("owner", ctypes.py_object), ("count", ctypes.c_ssize_t),
                ("itemsize", ctypes.c_ssize_t), ("readonly", ctypes.c_int), ("ndim", ctypes.c_int),
                ("format", ctypes.c_char_p), ("shape", BUFFER), ("strides", BUFFER), ("suboffsets", BUFFER),
                ("internal", BUFFER)]


# Functions of this package's own: the types of those of `ctypes.pythonapi` are seen, and set, by every package.
_TAKE = ctypes.PYFUNCTYPE(ctypes.c_int, ctypes.py_object, ctypes.POINTER(_Buffer), ctypes.c_int)(
    ("PyObject_GetBuffer", ctypes.pythonapi))
_GIVE_BACK = ctypes.PYFUNCTYPE(None, ctypes.POINTER(_Buffer))(("PyBuffer_Release", ctypes.pythonapi))


@contextmanager
def _address(data: Any, flags: int = 0) -> Iterator[Optional[int]]:
    """Where the bytes of a buffer begin. They stay there meanwhile."""
    taken = _Buffer()
    _TAKE(data, ctypes.byref(taken), flags)
    try:
        yield taken.start
    finally:
        _GIVE_BACK(ctypes.byref(taken))


def _taken(data: Any, what: str) -> memoryview:
    """The items of a buffer in one dimension, without a copy; there are none in None."""
    try:
        view = memoryview(b"" if data is None else data)
    except TypeError:
        raise TypeError(f"a buffer is wanted for the {what}, and no {type(data).__name__}") from None
    if view.ndim != 1:
        raise ValueError(f"the buffer of the {what} has {view.ndim} dimensions, and one is wanted")
    if not view.c_contiguous:
        raise ValueError(f"the buffer of the {what} has gaps")
    return view


def _view(data: Any, what: str) -> memoryview:
    """The bytes of a buffer of bytes, without a copy."""
    view = _taken(data, what)
    if view.format.removeprefix("@") not in _BYTE_FORMATS:
        raise ValueError(f"the buffer of the {what} has the format {view.format!r}, and bytes are wanted")
    return view.cast("B") if view.nbytes else memoryview(b"")


@dataclass(frozen=True)
class Array:
    """Texts that lie between offsets, and which of them are null."""

    texts: memoryview
    """The bytes of the texts."""
    offsets: memoryview
    """One number more than there are texts."""
    width: int
    """How many bytes an offset has."""
    nulls: bytes
    """For each text a byte, NULL or 0; none where no text is null."""

    def __len__(self) -> int:
        return len(self.offsets) - 1

    def text(self, index: int) -> bytes:
        """A copy of one text."""
        return bytes(self.texts[self.offsets[index]: self.offsets[index + 1]])

    def check(self, compiled: Sequence[Any], verdicts: bytearray) -> int:
        """The status of a check, which writes a verdict on each text, also where that is null."""
        call, _ = _WIDTHS[self.width]
        with ExitStack() as kept:
            texts, offsets = (kept.enter_context(_address(view)) for view in (self.texts, self.offsets))
            made = kept.enter_context(_address(verdicts, _WRITABLE))
            if (offsets or 0) % self.width:
                raise ValueError(f"the offsets do not begin at a multiple of {self.width} bytes")
            return call(*compiled, texts, len(self.texts), offsets, len(self.offsets), made, len(verdicts))

    def marked(self, verdicts: bytearray) -> bytearray:
        """The verdicts with NULL where a text is null."""
        if not self.nulls:
            return verdicts
        # NULL has both bits that a verdict may have.
        both = int.from_bytes(verdicts, "little") | int.from_bytes(self.nulls, "little")
        return bytearray(both.to_bytes(len(verdicts), "little"))


def _numbers(offsets: Any, width: int) -> memoryview:
    """The offsets, without a copy: such numbers, or their bytes."""
    view = _taken(offsets, "offsets")
    if view.itemsize not in (1, width) or view.nbytes % width:
        raise ValueError(f"the offsets are no numbers of {8 * width} bits")
    if view.format.removeprefix("@") not in (_BYTE_FORMATS if view.itemsize == 1 else _NUMBER_FORMATS):
        raise ValueError(f"the offsets have the format {view.format!r}, and whole numbers of {8 * width} bits in the "
                         "machine's own order are wanted")
    # Arrow lets an array with no text have no offset.
    return (view.cast("B") if view.nbytes else memoryview(bytes(width))).cast(_WIDTHS[width][1])


def _nulls(validity: Any, first: int, count: int) -> bytes:
    """For each text from the first on a byte, by its bit in the bitmap; none where there is no bitmap."""
    if validity is None:
        return b""
    view = _view(validity, "validity")
    if 8 * len(view) < first + count:
        raise ValueError(f"the validity has {8 * len(view)} bits, and {first + count} are wanted")
    return b"".join(map(_NULLS.__getitem__, view[first // 8: (first + count + 7) // 8]))[first % 8:][:count]


def _whole(number: Any, what: str) -> int:
    """A number that is not below 0."""
    if not isinstance(number, int) or isinstance(number, bool):
        raise TypeError(f"the {what} is an int, and no {type(number).__name__}")
    if number < 0:
        raise ValueError(f"the {what} is below 0: {number}")
    return number


def array_of(texts: Any, offsets: Any, validity: Any, first: Any, count: Any, large: bool) -> Array:
    """So many texts from the first on, or all that there are from there."""
    width = 8 if large else 4
    numbers, first = _numbers(offsets, width), _whole(first, "offset")
    count = max(0, len(numbers) - 1 - first) if count is None else _whole(count, "length")
    if len(numbers) <= first + count:
        raise ValueError(f"there are {len(numbers)} offsets, and {first + count + 1} are wanted")
    return Array(_view(texts, "texts"), numbers[first: first + count + 1], width, _nulls(validity, first, count))
