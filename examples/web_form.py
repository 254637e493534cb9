"""Checks the fields of a form that a browser sends, as a WSGI application.

web_form.py PORT serves it by HTTP on this machine alone. Without a port it answers one request as a CGI program.
"""
import sys
from urllib.parse import parse_qs
from wsgiref.handlers import CGIHandler
from wsgiref.simple_server import make_server

import strkw

LONGEST_BODY = 10_000
FIELDS = {
    "name": strkw.Schema(202012, {"pattern": "^\\p{L}[\\p{L} .'-]*$", "maxLength": 40}),
    "born": strkw.Schema(202012, {"format": "date"}),
    "mail": strkw.Schema(202012, {"format": "email"}, checks={"email": strkw.is_email}),
}


def problems(form):
    """A line for each field that is missing, stands twice, or is not as its schema says."""
    for name, schema in FIELDS.items():
        values = form.get(name, [])
        if len(values) != 1:
            yield f"{name}: stands {len(values)} times"
        else:
            yield from (f"{name}: {error.message}" for error in schema.iter_errors(values[0]))


def form_of(environ):
    """The fields of a request. ValueError where it is too long, or is no form."""
    length = int(environ.get("CONTENT_LENGTH") or 0)
    if not 0 <= length <= LONGEST_BODY:
        raise ValueError(f"a form has at most {LONGEST_BODY} bytes")
    body = environ["wsgi.input"].read(length).decode("ascii")
    return parse_qs(body, keep_blank_values=True, strict_parsing=True, errors="strict", max_num_fields=20)


def application(environ, start_response):
    """Answers a form with what is wrong in it, a line for each."""
    try:
        told = list(problems(form_of(environ)))
        status = "422 Unprocessable Content" if told else "200 OK"
    except ValueError as why:
        told, status = [f"no form: {why}"], "400 Bad Request"
    start_response(status, [("Content-Type", "text/plain; charset=utf-8")])
    return [f"{line}\n".encode() for line in told or ["thank you"]]


if __name__ == "__main__":
    if len(sys.argv) > 1:
        make_server("localhost", int(sys.argv[1]), application).serve_forever()
    CGIHandler().run(application)
