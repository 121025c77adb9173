"""JSON as the program takes it, with the place of each value in its text."""

import json
import re

MOST_DEPTH = 127
LEAST_NUMBER, MOST_NUMBER = -(2**63), 2**64 - 1
SPACE = re.compile(r"[ \t\n\r]*")
# a surrogate that has no partner, which no text of Unicode holds
LONE = re.compile(r"[\ud800-\udfff]")


class WrongNumber(str):
    """A number, as it is written, that isn't whole or has more than 64 bits."""


def whole(text):
    # a long number isn't even read
    fits = len(text) < 21 and text != "-0" and LEAST_NUMBER <= int(text) <= MOST_NUMBER
    return int(text) if fits else WrongNumber(text)


def fraction(text):
    if float(text) in (float("inf"), float("-inf")):
        raise ValueError(f"{text} is out of range")
    return WrongNumber(text)


def refuse(text):
    raise ValueError(f"{text} isn't JSON")


def members(value):
    """The places inside a value, each with what is there."""
    if isinstance(value, dict):
        return list(value.items())
    return list(enumerate(value)) if isinstance(value, list) else []


def everywhere(value, place=()):
    """All places of a value, each before those inside it."""
    yield place, value
    for key, inside in members(value):
        yield from everywhere(inside, (*place, key))


def of_text(text):
    """The value of a text. It raises a ValueError where the text isn't JSON."""
    value = json.loads(text, parse_int=whole, parse_float=fraction, parse_constant=refuse)
    for place, inside in everywhere(value):
        if len(place) + isinstance(inside, (dict, list)) > MOST_DEPTH:
            raise ValueError(f"lists and objects are more than {MOST_DEPTH} deep")
        if any(isinstance(it, str) and LONE.search(it) for it in (*place[-1:], inside)):
            raise ValueError("half of a surrogate pair in a text")
    return value


def offsets(text):
    """Where each place of a JSON text begins, of two equal keys the last."""
    decoder, found = json.JSONDecoder(), {}

    def walk(at, place):
        at = SPACE.match(text, at).end()
        found[place] = at
        if text[at] not in "{[":
            return decoder.raw_decode(text, at)[1]
        for number in range(len(text)):
            at = SPACE.match(text, at + 1).end()
            if text[at] in "}]":
                break
            key = number
            if text[found[place]] == "{":
                key, at = decoder.raw_decode(text, at)
                at = SPACE.match(text, at).end() + 1
            at = SPACE.match(text, walk(at, (*place, key))).end()
            if text[at] in "}]":
                break
        return at + 1

    walk(0, ())
    return found


def path_of(place):
    """A place as one writes it, such as plugins[0].ipam; the whole file is the empty text."""
    return "".join(f"[{it}]" if isinstance(it, int) else f".{it}" for it in place).removeprefix(".")


def line_and_column(text, at):
    *before, last = text[:at].split("\n")
    return len(before) + 1, len(last) + 1
