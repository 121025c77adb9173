#!/usr/bin/env python3
"""Prints each kernel call of a run, and below it the objects that it took away (`-`) and made (`+`).

    tools/changes.py PROGRAM PODS [LIST ..]

The program is run anew up to each call, by `--stop-at` and without the later rounds. Ends with the status of the whole
run.
"""

import itertools
import json
import pathlib
import signal
import sys
import tempfile

sys.dont_write_bytecode = True

from runs import CARRIED_OUT, lines_with, run


def dump_after(call, rounds, pods, program, lists):
    """The dump after that many calls, of which the last falls in the last of these rounds."""
    with tempfile.NamedTemporaryFile("w", suffix=".json") as file:
        json.dump({**pods, "rounds": rounds}, file)
        file.flush()
        stop = ["--stop-at", str(call)] if call else []
        return lines_with("kind", run([program, "--dump", *stop, file.name, *lists]).stdout)


def changes(calls, pods, program, lists):
    """The lines of the calls, with those of what each changed."""
    ends = list(itertools.accumulate(map(len, pods["rounds"])))
    old = dump_after(0, [], pods, program, lists)
    for number, line in enumerate(calls, 1):
        last = next(place for place, end in enumerate(ends, 1) if json.loads(line)["n"] <= end)
        new = dump_after(number, pods["rounds"][:last], pods, program, lists)
        yield line
        yield from (f"  - {it}" for it in old if it not in new)
        yield from (f"  + {it}" for it in new if it not in old)
        old = new


def main():
    if len(sys.argv) < 3 or sys.argv[2].startswith(("-", "gen:", "reg:")):
        sys.exit(__doc__)
    program, file, *lists = sys.argv[1:]
    whole = run([program, "--trace", file, *lists])
    if whole.returncode not in CARRIED_OUT:
        print(whole.stdout, end="")
        return whole.returncode
    pods = json.loads(pathlib.Path(file).read_text(encoding="utf-8"))
    for line in changes(lines_with("call", whole.stdout), pods, program, lists):
        print(line)
    return whole.returncode


if __name__ == "__main__":
    signal.signal(signal.SIGPIPE, signal.SIG_DFL)
    try:
        sys.exit(main())
    except OSError as error:
        sys.exit(f"changes.py: {error}")
