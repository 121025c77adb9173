"""Runs made wrong, of one that is lawful: each line left out, doubled, or behind the next one, and each value in a line
another or gone. What a session prints follows from its file, so each of them is to be found out."""

import json

from judge import line_of
from wrong import moved, with_line, without

REPLIES = ["Done", "NoNs", "NoLink", "Empty", "Gone true", "Gone false", "Has true", "Has false", "Fault"]


def changed(value):
    """Values near this one, each with what was done."""
    if isinstance(value, dict):
        for key, each in value.items():
            yield f"without {key}", {name: it for name, it in value.items() if name != key}
            yield from ((f"{key} {done}", {**value, key: it}) for done, it in changed(each))
    elif isinstance(value, list):
        for place, each in enumerate(value):
            yield f"without {place}", [*value[:place], *value[place + 1 :]]
            yield from ((f"{place} {done}", [*value[:place], it, *value[place + 1 :]]) for done, it in changed(each))
    elif isinstance(value, bool):
        yield "not so", not value
    elif isinstance(value, int):
        yield "one more", value + 1
    else:
        yield "longer", f"{value}0"


def of_line(line):
    """Other lines in its place."""
    value = json.loads(line)
    yield from changed(value)
    yield from ((f"reply {it}", {**value, "reply": it}) for it in REPLIES if it != value.get("reply", it))


def altered(lines):
    """Each wrong run by its name, with its lines."""
    for place, line in enumerate(lines):
        yield f"{line} is left out", without(lines, place)
        yield f"{line} is doubled", with_line(lines, place, line)
        for done, it in of_line(line):
            yield f"{line} {done}", [*lines[:place], line_of(it), *lines[place + 1 :]]
        for later in lines[place + 1 : place + 2]:
            if {**json.loads(line), "i": 0} != {**json.loads(later), "i": 0}:
                yield f"{line} comes later", moved(lines, place + 1, place)
