#!/usr/bin/env python3
"""Checks network lists without the program: what is refused, and what is taken and surely wrong.

Of a folder it takes the files that libcni would: *.conf, *.conflist and *.json. Each line has file, line and column,
the place, the reason and what to do. Of a pod file it tells the keys that are ignored. Ends with 1 where it told
anything but a key that CNI knows.

With --mend it prints one list as the program takes it, where engines.json has what to change in such a list, and tells
each change and what is lost by it on standard error. Ends with 1, and prints no list, where it can't mend it.
"""

import argparse
import dataclasses
import itertools
import json
import pathlib
import sys

sys.dont_write_bytecode = True

import keys
import lists
import mending
import places

SUFFIXES = (".conf", ".conflist", ".json")
# a range set with fewer addresses is told
FEW = 2
UNKNOWN = "engines.json doesn't say what to write for these in an engine's list"
LEVELS = {"refused": "error", "warning": "warning", "ignored": "note"}


@dataclasses.dataclass(frozen=True)
class Finding:
    """What is told of a file: a level, a place in the text, and a sentence."""

    file: str
    line: int
    column: int
    level: str
    text: str

    def __str__(self):
        return f"{self.file}:{self.line}:{self.column}: {self.level}: {self.text}"


@dataclasses.dataclass(frozen=True)
class File:
    """A file that is JSON."""

    name: str
    text: str
    value: object

    def finding(self, level, place, sentence):
        """A finding at this place, or where it would stand if it isn't there."""
        found = places.offsets(self.text)
        shown = next(place[:end] for end in range(len(place), -1, -1) if place[:end] in found)
        line, column = places.line_and_column(self.text, found[shown])
        named = places.path_of(place)
        return Finding(self.name, line, column, level, f"{named}: {sentence}" if named else sentence)


def fault_of(text, at, said):
    """Where a text stops being JSON, and what to do; what the reader of JSON says where it isn't a usual mistake."""
    if text[at : at + 1] == ",":
        at += len(text[at:]) - len(text[at + 1 :].lstrip())
    if text.startswith("\ufeff"):
        return at, "the file begins with a byte order mark; save it without one"
    if not text.strip():
        return at, f"the file is empty; write {lists.SMALLEST}"
    if text.startswith(("//", "/*", "#"), at):
        return at, "JSON has no comments; leave it out"
    if text[at : at + 1] in ("}", "]") and text[:at].rstrip().endswith(","):
        return at, "there is a comma before the end; leave it out"
    return at, said


def read(name):
    """The file of this name, or a finding where it isn't JSON."""
    try:
        data = pathlib.Path(name).read_bytes()
        text = data.decode("utf-8")
        return File(name, text, places.of_text(text))
    except UnicodeDecodeError as error:
        line, column = places.line_and_column(data[: error.start].decode("utf-8"), error.start)
        return Finding(name, line, column, "refused", "this isn't UTF-8; save it as UTF-8")
    except json.JSONDecodeError as error:
        at, sentence = fault_of(text, error.pos, error.msg)
        return Finding(name, *places.line_and_column(text, at), "refused", sentence)
    except (ValueError, RecursionError) as error:
        return Finding(name, 1, 1, "refused", str(error) or "lists and objects are too deep")


# ---- what is taken, and surely wrong


def plugins_of(value):
    """The plugins of a list, with their numbers; the first makes the link."""
    return [(number, it) for number, it in enumerate(value["plugins"]) if isinstance(it, dict)]


def unpublished(value):
    for number, plugin in plugins_of(value):
        wants = plugin.get("capabilities") or {}
        if plugin.get("type") == "portmap" and not wants.get("portMappings"):
            reason = "no port is ever published, since the plugin isn't handed the mappings"
            yield ("plugins", number), f'{reason}; write "capabilities":{{"portMappings":true}}'


def without_gateway(value):
    _, first = plugins_of(value)[0]
    is_gateway = first.get("isGateway") or first.get("isDefaultGateway")
    if first.get("type") == "bridge" and first.get("ipMasq") and not is_gateway:
        yield ("plugins", 0, "ipMasq"), "what is masqueraded has no gateway on the bridge; write \"isGateway\":true"


def range_sets(value):
    """The range sets of a list that is taken: of each range its place, first address, last and gateway."""
    ipam = value["plugins"][0].get("ipam")
    for ranges in [] if lists.is_empty(ipam) else lists.sets_of(ipam, ("plugins", 0, "ipam")):
        yield [(place, *lists.ends_of(given)) for place, given in ranges]


def small_pools(value):
    for ranges in range_sets(value):
        count = sum(int(last) - int(first) + 1 - (first <= gateway <= last) for _, first, last, gateway in ranges)
        if count < FEW:
            yield ranges[0][0], f"addresses for containers: {count}; write a larger subnet"


WARNINGS = (unpublished, without_gateway, small_pools)


def shared_subnets(files):
    """Two networks of one subnet: each leases for itself, so that two containers get one address."""
    ranges = [(file, *it) for file in files for of_set in range_sets(file.value) for it in of_set]
    for (one, _, first, last, _), (two, place, start, end, _) in itertools.combinations(ranges, 2):
        meet = first.version == start.version and first <= end and start <= last
        if meet and one.value["name"] != two.value["name"]:
            yield two.finding("warning", place, f"{one.value['name']} of {one.name} leases these addresses too")


def same_names(files):
    first = {}
    for file in files:
        other = first.setdefault(file.value["name"], file)
        if other is not file:
            yield file.finding("warning", ("name",), f"{other.name} has this name too; the program takes one of them")


# ---- all of it


def ignored(file, place, named):
    """A key that no page names; these are named there."""
    if keys.is_known(place[-1]):
        return file.finding("ignored", place, "CNI knows this key; it has no effect here")
    near = keys.nearest(place[-1], named)
    return file.finding("warning", place, "this key is ignored" + (f"; the nearest name is {near}" if near else ""))


def findings_of(file):
    """What is told of one file alone, and whether it is a list that is taken."""
    value, is_pod_file = file.value, keys.is_pod_file(file.value)
    refusals = [] if is_pod_file else list(lists.refusals(value))
    found = [file.finding("refused", it.place, f"{it.reason}; {it.remedy}") for it in refusals]
    found += [ignored(file, place, named) for place, named in keys.unnamed_in(value)]
    is_taken = not is_pod_file and not refusals
    if is_taken:
        found += [file.finding("warning", place, it) for warn in WARNINGS for place, it in warn(value)]
    return found, is_taken


def files_in(names):
    for name in names:
        path = pathlib.Path(name)
        inside = sorted(it for it in path.iterdir() if it.suffix in SUFFIXES) if path.is_dir() else [path]
        yield from map(str, inside)


def check(names):
    """What is told of these files, each alone and beside the others."""
    found, taken = [], []
    for file in map(read, files_in(names)):
        if isinstance(file, Finding):
            found.append(file)
            continue
        of_file, is_taken = findings_of(file)
        found += of_file
        taken += [file] * is_taken
    return [*found, *same_names(taken), *shared_subnets(taken)]


def told_of_mending(name):
    """A list as the program takes it, or None, and what is told of it."""
    file = read(name)
    if isinstance(file, Finding):
        return None, [file]
    refusals = list(lists.refusals(file.value))
    if not refusals:
        return file.value, []
    done = mending.mend(file.value, refusals)
    if done is None:
        told = [file.finding("not mended", it.place, f"{it.reason}; {it.remedy}") for it in refusals]
        return None, [*told, file.finding("not mended", (), UNKNOWN)]
    mended, changes = done
    return mended, [file.finding("mended", it.place, it.sentence) for it in changes]


def mend(name):
    mended, told = told_of_mending(name)
    print("".join(f"{it}\n" for it in told), end="", file=sys.stderr)
    if mended is None:
        return 1
    print(json.dumps(mended, indent=2, ensure_ascii=False))
    return 0


def sarif(found):
    """The findings as SARIF 2.1.0 (OASIS), of one run."""
    results = [
        {
            "level": LEVELS[it.level],
            "ruleId": it.level,
            "message": {"text": it.text},
            "locations": [
                {
                    "physicalLocation": {
                        "artifactLocation": {"uri": it.file},
                        "region": {"startLine": it.line, "startColumn": it.column},
                    }
                }
            ],
        }
        for it in found
    ]
    tool = {"driver": {"name": "check.py", "rules": [{"id": it} for it in LEVELS]}}
    return json.dumps({"version": "2.1.0", "runs": [{"tool": tool, "results": results}]}, indent=2)


def main():
    words = argparse.ArgumentParser(description=__doc__, formatter_class=argparse.RawDescriptionHelpFormatter)
    words.add_argument("--all", action="store_true", help="tell keys too that CNI knows and the program ignores")
    words.add_argument("--sarif", action="store_true", help="print SARIF 2.1.0")
    words.add_argument("--mend", action="store_true", help="print one list as the program takes it")
    words.add_argument("names", nargs="+", metavar="FILE|FOLDER")
    given = words.parse_args()
    if given.mend:
        return mend(*given.names) if len(given.names) == 1 else words.error("--mend takes one file")
    told = [it for it in check(given.names) if given.all or it.level != "ignored"]
    print(sarif(told) if given.sarif else "".join(f"{it}\n" for it in told), end="\n" * given.sarif)
    return 1 if any(it.level != "ignored" for it in told) else 0


if __name__ == "__main__":
    try:
        sys.exit(main())
    except OSError as error:
        sys.exit(f"check.py: {error}")
