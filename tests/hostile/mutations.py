#!/usr/bin/env python3
"""Runs the program on lists, pod, packet and session files with something changed in them, and looks how each run ends.

    mutations.py [PROGRAM [COUNT [SEED]]]

COUNT times, 400 where it isn't given, one file of an example or of a row of ../rows has a bit, a byte, a word, a
number, a bracket or its length changed, once or several times, by a generator of random numbers that begins with SEED.
Each run ends with a status of 0, 1 or 3, with nothing printed but JSON lines, and a second run prints the same. A file
that ends otherwise is printed.
"""

import json
import pathlib
import random
import re
import subprocess
import sys

sys.dont_write_bytecode = True
sys.path.insert(0, str(pathlib.Path(__file__).resolve().parent.parent))
sys.path.insert(0, str(pathlib.Path(__file__).resolve().parent.parent / "rows"))

from program import FAILURE, REFUSED, SUCCESS, TOP, compact, in_folder, lines_of, program_of, run
from run import content_of, worked_rows

COUNT = 400
SEED = 1
# the most changes that one file has
MOST_CHANGES = 4
# the most bytes of a file that is changed
MOST_BYTES = 20_000
NUMBERS = [b"0", b"-1", b"1e3", b"0.5", b"255", b"65536", b"4294967296", b"18446744073709551616", b"1" * 40]
BYTES = [b"\x00", b'"', b"\\", b"\xff", b"\xc3\xa9", b"\n", b",", b":", b"::", b"/", b".", b"%", b"[", b"]", b"{", b"}"]
TOKEN = re.compile(rb'"(?:[^"\\]|\\.)*"|-?[0-9.eE+-]+|true|false|null')
NUMBER = re.compile(rb"-?\d+")


def bit(rng, text, _):
    place = rng.randrange(len(text))
    return text[:place] + bytes([text[place] ^ 1 << rng.randrange(8)]) + text[place + 1 :]


def byte(rng, text, _):
    place = rng.randrange(len(text))
    return text[:place] + rng.choice(BYTES) + text[place + rng.randrange(2) :]


def token(rng, text, others):
    """A text, a number or a word in place of another, from any of the files."""
    places = list(TOKEN.finditer(text))
    if not places:
        return text
    place = rng.choice(places)
    return text[: place.start()] + rng.choice(others) + text[place.end() :]


def number(rng, text, _):
    places = list(NUMBER.finditer(text))
    if not places:
        return text
    place = rng.choice(places)
    return text[: place.start()] + rng.choice(NUMBERS) + text[place.end() :]


def nesting(rng, text, _):
    """A value within more brackets than may nest, or just as many."""
    places = list(TOKEN.finditer(text))
    if not places:
        return text
    place = rng.choice(places)
    depth = rng.choice([1, 60, 126, 127, 128, 300])
    opening, closing = rng.choice([(b"[", b"]"), (b'{"a":', b"}")])
    return text[: place.start()] + opening * depth + place.group() + closing * depth + text[place.end() :]


def length(rng, text, _):
    """A part is left out, or stands several times."""
    first, last = sorted(rng.randrange(len(text) + 1) for _ in range(2))
    return text[:first] + text[first:last] * rng.choice([0, 0, 2, 50]) + text[last:]


CHANGES = [bit, byte, token, number, nesting, length]


def bytes_of(content):
    return content if isinstance(content, bytes) else compact(content).encode("utf-8")


def sources():
    """The files of the examples and of the rows whose words are taken, with the words of their run."""
    for folder in sorted(it for it in (TOP / "examples").iterdir() if (it / "net.json").exists()):
        files = {it.name: it.read_bytes() for it in folder.glob("*.json")}
        yield files, ["--trace", "--dump", "--requests", "pods.json", "net.json"]
    told, lists = worked_rows()
    for row in told:
        if row["status"] not in (SUCCESS, FAILURE, REFUSED):
            continue
        given = {name: content_of(it, lists) for name, it in row.get("files", {}).items()}
        if given and all(isinstance(it, (bytes, dict, list)) for it in given.values()):
            files = {name: bytes_of(it) for name, it in given.items()}
            if all(0 < len(it) <= MOST_BYTES for it in files.values()):
                yield files, [str(it) for it in row["words"]]


def is_json(line):
    try:
        return isinstance(json.loads(line), dict)
    except ValueError:
        return False


def wrong_of(program, words, files):
    """What is wrong with how the program ends on these files."""
    with in_folder(files) as folder:
        try:
            first, second = run(program, words, folder), run(program, words, folder)
        except subprocess.TimeoutExpired:
            return "isn't over in time"
    if first.returncode not in (SUCCESS, FAILURE, REFUSED):
        return f"status {first.returncode}"
    if not all(map(is_json, lines_of(first.stdout))):
        return "prints what is no JSON line"
    # threads may order a round's entries in other ways
    if "--threads" not in words and (first.returncode, first.stdout) != (second.returncode, second.stdout):
        return "ends in another way when it runs again"
    return None


def main():
    program = program_of(sys.argv[1:2])
    count = int(sys.argv[2]) if len(sys.argv) > 2 else COUNT
    rng = random.Random(int(sys.argv[3]) if len(sys.argv) > 3 else SEED)
    given = list(sources())
    tokens = [it for files, _ in given for text in files.values() for it in TOKEN.findall(text)]
    wrong = 0
    for _ in range(count):
        files, words = rng.choice(given)
        name = rng.choice(sorted(files))
        text = files[name]
        for _ in range(rng.randrange(1, MOST_CHANGES + 1)):
            text = rng.choice(CHANGES)(rng, text, tokens) or b" "
        complaint = wrong_of(program, words, {**files, name: text})
        if complaint:
            wrong += 1
            print(f"{complaint}: {words}, {name} is {text!r}")
    print(f"mutations: {count} tried, {wrong} wrong")
    sys.exit(wrong > 0)


if __name__ == "__main__":
    main()
