"""The shared library, and its functions by ctypes."""
import ctypes
import os
from pathlib import Path
from typing import Any, Callable, Union

BytesLike = Union[bytes, bytearray, memoryview]

BYTES, COUNT, NUMBER, BUFFER = ctypes.c_char_p, ctypes.c_size_t, ctypes.c_uint32, ctypes.c_void_p
WRITTEN = (BUFFER, COUNT, ctypes.POINTER(COUNT))
DONE, OUT_OF_MEMORY, NO_ROOM, REFUSED = 0, 1, 2, 5

_NAME = "libstrkw.so"


def _places() -> list[str]:
    """Where the library may be: by the variable, in the package, where it is built, or where the loader looks."""
    named = os.environ.get("STRKW_LIBRARY")
    if named is not None:
        return [named]
    package = Path(__file__).resolve().parent
    files = [package / _NAME, package.parents[1] / "out" / _NAME]
    return [str(file) for file in files if file.exists()] or [_NAME]


def _load() -> ctypes.CDLL:
    """The shared library, from the first of its places."""
    place = _places()[0]
    try:
        return ctypes.CDLL(place)
    except OSError as error:
        raise ImportError(
            f"strkw finds no library: {error}. Run bindings/build, or let STRKW_LIBRARY name {_NAME}") from error


LIBRARY = _load()


def function(name: str, *arguments: Any, result: Any = ctypes.c_uint8) -> Callable[..., Any]:
    """The function strkw_NAME of the library."""
    call = getattr(LIBRARY, "strkw_" + name.replace("-", "_"))
    call.argtypes, call.restype = arguments, result
    return call


def bytes_of(text: Any, what: str = "a text is a str or bytes-like") -> bytes:
    """UTF-8, or for a lone surrogate bytes that are not."""
    if isinstance(text, str):
        return text.encode("utf-8", "surrogatepass")
    if isinstance(text, (bytes, bytearray, memoryview)):
        return bytes(text)
    raise TypeError(f"{what}, and no {type(text).__name__}")


def written(call: Callable[..., int], *arguments: Any, room: int) -> tuple[int, bytes]:
    """The status of a call, and what it writes, with as much room as it needs."""
    count = COUNT()
    while True:
        out = ctypes.create_string_buffer(room)
        status = call(*arguments, out, room, ctypes.byref(count))
        if status == OUT_OF_MEMORY:
            raise MemoryError
        if status != NO_ROOM:
            return status, out.raw[: count.value]
        room = count.value
