"""The string checks of Neldrafi: formats, encodings, and the string keywords of JSON Schema.

One text by a format:

>>> import strkw
>>> strkw.is_format("date", "2024-02-29"), strkw.is_email("joe@example.com")
(True, True)

Texts by a schema object:

>>> schema = strkw.Schema(7, {"pattern": "^[a-z]+$", "maxLength": 8})
>>> schema.is_valid("ada"), schema.are_valid(["ada", "Ada"])
(True, [True, False])
>>> [error.message for error in schema.iter_errors("Ada")]
['"Ada" does not match "^[a-z]+$"']

The strings of an array of Apache Arrow are checked where they lie, by `check_array` of a Schema.

`email`, `regex`, `idn-email` and `idn-hostname` are formats that a schema object does not know. By the argument
companion_formats=True it knows `email` and `regex`, and from draft 7 on `idn-email` and `idn-hostname`. `checks` of a
Schema registers others.

The library needs an x86-64 processor of the level x86-64-v2, as those since about 2009 are, which the name of a wheel
cannot say. It is the file that the environment variable STRKW_LIBRARY names, or else libstrkw.so: in the folder of this
package, in `bindings/out`, or where the loader of the system finds it.
"""
from strkw._formats import (
    ENCODINGS, FORMATS, answer, is_email, is_encoded, is_format, is_idn_email, is_idn_hostname, is_regex,
    jsonschema_format_checker)
from strkw._schemas import DRAFTS, Schema, ValidationError, check_texts

__version__ = "0.1.0"

__all__ = [
    "DRAFTS", "ENCODINGS", "FORMATS", "Schema", "ValidationError", "answer", "check_texts", "is_email", "is_encoded",
    "is_format", "is_idn_email", "is_idn_hostname", "is_regex", "jsonschema_format_checker",
]

for _public in (Schema, ValidationError, answer, check_texts, is_email, is_encoded, is_format, is_idn_email,
                is_idn_hostname, is_regex, jsonschema_format_checker):
    _public.__module__ = "strkw"
del _public
