#!/usr/bin/env python3
"""Prints a run as a table: a line a command, with what it is about, how many calls it made and how it ended.

    tools/show.py PROGRAM PODS [LIST ..]
    tools/show.py PROGRAM reg:FILE

Ends with the status of the run.
"""

import collections
import signal
import sys

sys.dont_write_bytecode = True

from runs import CARRIED_OUT, commands_of, read, run, values_with
from table import table

COLUMNS = ("n", "verb", "about", "calls", "outcome")
# the fields that say what a command is about; of a verb that isn't here it is a network
FIELDS = {
    **dict.fromkeys(("ADD", "CHECK", "DEL"), ("network", "container", "ifname")),
    **dict.fromkeys(("NSADD", "NSDEL"), ("netns",)),
    "DROP": ("netns", "ifname"),
    "FLUSH": ("table",),
}
# what the program takes where the field is left out
LEFT_OUT = {"ifname": "eth0"}


def about(command):
    fields = FIELDS.get(command["verb"], ("network",))
    return "/".join(command.get(it) or LEFT_OUT.get(it, "") for it in fields)


def outcome(answer):
    """How a command ended: the addresses of its result, or what its answer says."""
    if "result" in answer:
        return " ".join(it["address"] for it in answer["result"].get("ips", [])) or "no address"
    if "error" in answer:
        error = answer["error"]
        return " ".join(filter(None, (str(error["code"]), error["msg"], error["details"])))
    if "stopped" in answer:
        return f"stopped after {answer['stopped']} calls"
    if "skipped" in answer:
        return f"skipped by {answer['skipped']}"
    return answer["versions"]["cniVersion"] if "versions" in answer else "ok"


def rows(printed, commands):
    """A row for each answer of a run with a trace."""
    calls = collections.Counter(it["n"] for it in values_with("call", printed))
    for answer in values_with("verb", printed):
        number, command = answer["n"], commands[answer["n"] - 1]
        yield dict(zip(COLUMNS, (number, answer["verb"], about(command), calls[number], outcome(answer))))


def main():
    if len(sys.argv) < 3 or sys.argv[2].startswith(("-", "gen:")):
        sys.exit(__doc__)
    program, file, *lists = sys.argv[1:]
    ended = run([program, "--trace", file, *lists])
    if ended.returncode not in CARRIED_OUT:
        print(ended.stdout, end="")
        return ended.returncode
    print("\n".join(table(list(rows(ended.stdout, commands_of(read(file), file))), list(COLUMNS))))
    return ended.returncode


if __name__ == "__main__":
    signal.signal(signal.SIGPIPE, signal.SIG_DFL)
    try:
        sys.exit(main())
    except OSError as error:
        sys.exit(f"show.py: {error}")
