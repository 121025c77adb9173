#!/usr/bin/env python3
"""Tells the processor seconds of the checks that a process starts, by crate and kind.

    seconds.py PID

Looks once a second at the checks below that process, until it gets the signal TERM; then it prints a table:

    proof    of a crate, from nothing
    tests    the proof of its tests, which takes in the crate's own
    first    the check that its edits begin with
    edits    the checks of the bodies that must be refused
    build    of the program that was proved, by both compilers

What is kept takes no time, and what lasts under a second isn't seen.
"""

import collections
import os
import pathlib
import re
import signal
import sys
import time

KINDS = ("proof", "tests", "first", "edits", "build")
PER_SECOND = os.sysconf("SC_CLK_TCK")
SEED = re.compile(r"--incremental \S*/rt-edits-[^/ ]*/seed( |$)")


class Ended(Exception):
    """The signal has come."""


def end(*_):
    raise Ended


def stat_of(place):
    """A process's parent, its ticks with those of its children that ended, and what it was started as."""
    stat = (place / "stat").read_text(encoding="utf-8").rpartition(")")[2].split()
    words = (place / "cmdline").read_bytes().decode("utf-8", "replace").replace("\0", " ")
    return int(stat[1]), sum(map(int, stat[11:15])), words


def processes():
    found = {}
    for place in pathlib.Path("/proc").iterdir():
        if place.name.isdigit():
            try:
                found[int(place.name)] = stat_of(place)
            except (OSError, ValueError, IndexError):
                # it has ended meanwhile
                continue
    return found


def check_of(words):
    """The crate and the kind of a check; None of another process."""
    match = re.search(r"\brattle (build|check) .*?--crate-name (\w+)", words)
    if match is None:
        return None
    if " --crate-checked " in words:
        return match[2], "build"
    # a crate's check is written to a folder, an edit's is not
    if match[1] == "check" and " -o " not in words:
        return match[2], "first" if SEED.search(words) else "edits"
    return match[2], "tests" if " --test " in words else "proof"


def checks_below(top):
    """The checks below a process, each with the ticks that it and what it started took so far."""
    found = processes()
    below = collections.defaultdict(list)
    for pid, (parent, _, _) in found.items():
        below[parent].append(pid)

    def ticks(pid):
        return found[pid][1] + sum(map(ticks, below[pid]))

    left = [top]
    while left:
        pid = left.pop()
        check = check_of(found[pid][2]) if pid in found else None
        if check:
            yield pid, check, ticks(pid)
        else:
            left += below[pid]


def table(seconds):
    crates = sorted({crate for crate, _ in seconds}, key=lambda it: -sum(seconds[it, kind] for kind in KINDS))
    rows = [(crate, [seconds[crate, kind] for kind in KINDS]) for crate in crates]
    rows.append(("all", [sum(column) for column in zip(*(cells for _, cells in rows))]))
    yield f"{'processor seconds':<20}" + "".join(f"{it:>8}" for it in (*KINDS, "all"))
    for name, cells in rows:
        yield f"{name:<20}" + "".join(f"{it or '':>8}" for it in (*cells, sum(cells)))


def main():
    signal.signal(signal.SIGTERM, end)
    most = {}
    try:
        while True:
            for pid, check, ticks in checks_below(int(sys.argv[1])):
                most[pid, check] = max(ticks, most.get((pid, check), 0))
            time.sleep(1)
    except Ended:
        seconds = collections.Counter()
        for (_, check), ticks in most.items():
            seconds[check] += round(ticks / PER_SECOND)
        if seconds:
            print("\n".join(table(seconds)))


if __name__ == "__main__":
    main()
