"""Built-in formats as the library has them: the table of all, and each by its name with its example."""
import formats

from rows.keywords.common import made, named
from rows.keywords.values import compact


def by_name():
    """The table of the formats, and a row for each name with its example."""
    library = list(formats.formats_of_library())
    table = [line for it in library for line in told_by_program(it, library)]
    yield made(compact({"table": "built-in formats"}), table)
    yield from (named(name, [example]) for name, example in {it.name: it.example for it in library}.items())


def told_by_program(it, library):
    """What the program prints of a format: its texts, its window, and how it stands to each of the others."""
    yield f"{it.variant} is {it.name}"
    yield f"  {it.example}: true, no text: {str('' in it.in_tables.accepted).lower()}"
    if it.window_texts:
        yield "  {} to {}".format(*it.in_tables.window)
    yield from (f"  {text}: true" for text in it.window_texts)
    place = library.index(it)
    yield f"  {'>' * place}={'<' * (len(library) - place - 1)}, hashed by place: true"
