#!/usr/bin/env python3
"""Prints the objects of one kind in a dump as a table.

    ./cnitool --dump PODS LIST .. | tools/table.py KIND [KEY ..]

A column for each KEY, or for all keys that the objects have. What is absent or empty, as the host's namespace, is `-`.
"""

import json
import sys


def cell(value):
    if value in ("", None):
        return "-"
    return value if isinstance(value, str) else json.dumps(value, separators=(",", ":"))


def table(objects, keys):
    """The lines of a table whose first line is the keys, each column as wide as it must be."""
    rows = [keys, *([cell(it.get(key)) for key in keys] for it in objects)]
    widths = [max(map(len, column)) for column in zip(*rows)]
    return ["  ".join(map(str.ljust, row, widths)).rstrip() for row in rows]


def main():
    if len(sys.argv) < 2 or sys.argv[1].startswith("-"):
        sys.exit(__doc__)
    kind, *keys = sys.argv[1:]
    values = [value for value in map(json.loads, sys.stdin) if "kind" in value]
    objects = [value for value in values if value.pop("kind") == kind]
    if not objects:
        sys.exit(f"table.py: no {kind} in this dump" if values else "table.py: this is no dump")
    keys = keys or list(dict.fromkeys(key for it in objects for key in it))
    print("\n".join(table(objects, keys)))


if __name__ == "__main__":
    main()
