#!/usr/bin/env python3
"""Times what grows in a session on the program, and prints ratios within this one run. It is no test.

    sessions.py [PROGRAM [SMALL LARGE]]

Sizes are 6,552 and 65,536 where none are named, and even. Each row is the processor's time for one item at the large
size over that at the small one, each less the time of the same file without what is timed:

- one:       so many tasks, an ADD and a DEL of `guard` in turn, all of one attachment;
- many:      the same, each ADD of an attachment of its own;
- checks:    half as many ADDs of `dummy`, and a CHECK of each;
- collected: a GC that keeps every second of so many attachments, but one;
- options:   one ADD with so many options that no plugin needs;
- sets:      one ADD of `guard` and its DEL, with so many range sets.
"""
import sys

from rounds import seconds
from program import program_of, session, task
from scale import tell

OPENING = {"namespaces": ["/ns/0"]}
FROM = {"from": "192.0.2.7"}


def files(tasks, rest, **more):
    """The session file with these tasks, and the same with the rest of them."""
    return tuple({"session.json": session(*it, opening=OPENING, **more)} for it in (tasks, rest))


def guarded(container):
    """An ADD of `guard` and its DEL."""
    return [task("ADD", "guard", container, "/ns/0", FROM), task("DEL", "guard", container, "/ns/0")]


def one(count):
    return files(guarded("c") * (count // 2), [])


def many(count):
    return files([it for number in range(count // 2) for it in guarded(f"c{number}")], [])


def checks(count):
    names = [f"c{number}" for number in range(count // 2)]
    added = [{**task("ADD", "dummy", name, "/ns/0"), "ifname": f"e{number}"} for number, name in enumerate(names)]
    return files([*added, *[{**it, "verb": "CHECK"} for it in added]], added)


def collected(count):
    added = [task("ADD", "guard", f"c{number}", "/ns/0", FROM) for number in range(count - 1)]
    valid = [{"containerID": f"c{number}", "ifname": "eth0"} for number in range(0, count, 2)]
    return files([*added, {"verb": "GC", "valid": valid}], added)


def options(count):
    given = {f"o{number}": "x" for number in range(count)}
    return files([task("ADD", "guard", "c", "/ns/0", {**given, **FROM})], [task("ADD", "guard", "c", "/ns/0", FROM)])


def sets(count):
    ranges = [[{"subnet": f"10.{number // 8192}.{number // 32 % 256}.{number % 32 * 8}/29"}] for number in range(count)]
    return files(guarded("c"), [], ipam={"type": "host-local", "ranges": ranges})


def of_session(program, given, folder):
    return seconds(program, [f"reg:{name}" for name in given], folder)


def main():
    program = program_of(sys.argv[1:])
    small, large = [int(it) for it in sys.argv[2:]] or [6552, 65536]
    for kind in (one, many, checks, collected, options, sets):
        tell(program, kind, small, large, of_session)


if __name__ == "__main__":
    main()
