"""JSON values whose numbers are as they are written."""
import json
import re
from dataclasses import dataclass

# The greatest whole number of 64 bits.
MOST = 2 ** 64 - 1


@dataclass(frozen=True)
class Number:
    """A number, as it is written."""
    written: str

    def is_kept(self):
        """Whether it is a whole number of 64 bits, with a sign or without; -0 is none."""
        whole = re.fullmatch(r"-?\d+", self.written) and self.written != "-0"
        return bool(whole) and -2 ** 63 <= int(self.written) <= MOST


def parsed(text):
    """The value of a JSON text, with its numbers as they are written."""
    return json.loads(text, parse_int=Number, parse_float=Number)


def compact(value):
    """The compact JSON text of a value."""
    if isinstance(value, Number):
        return value.written
    if isinstance(value, (list, tuple)):
        return "[" + ",".join(map(compact, value)) + "]"
    if isinstance(value, dict):
        return "{" + ",".join(compact(name) + ":" + compact(it) for name, it in value.items()) + "}"
    return json.dumps(value, ensure_ascii=False)


def printed(value):
    """The compact JSON text of a value, with the members of an object sorted by the bytes of their keys."""
    if isinstance(value, (list, tuple)):
        return "[" + ",".join(map(printed, value)) + "]"
    if isinstance(value, dict):
        members = sorted(value.items(), key=lambda it: it[0].encode())
        return "{" + ",".join(compact(name) + ":" + printed(it) for name, it in members) + "}"
    return compact(value)


def holds_fraction(value):
    """Whether a value holds, at any depth, a number that is no whole number of 64 bits."""
    if isinstance(value, Number):
        return not value.is_kept()
    if isinstance(value, dict):
        value = list(value.values())
    return isinstance(value, list) and any(map(holds_fraction, value))


def is_limit(value):
    """Whether it is a whole number from 0 to the greatest of 64 bits, and written as one."""
    return isinstance(value, Number) and value.is_kept() and int(value.written) >= 0
