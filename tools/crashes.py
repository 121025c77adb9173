#!/usr/bin/env python3
"""Crashes the last command of a pod file, or the last task of a session file, after each of its calls, and prints what
survives.

    tools/crashes.py [--svg] PROGRAM PODS [LIST ..]
    tools/crashes.py [--svg] PROGRAM reg:FILE

A line a call: how many objects of each kind belong to the command's attachment, or of a GC to its network, when the
command is stopped behind that call, and how it ends when it is tried again. `--svg` draws the same. The program runs
twice for each line. Ends with 0, or with the status of a run that wasn't carried out.
"""

import collections
import json
import signal
import sys
import tempfile

sys.dont_write_bytecode = True

from diagram import COLOURS, FAINT, LINE_HEIGHT, PAD, PLAIN, SVG, escape, width_of
from runs import CARRIED_OUT, SESSION, commands_of, read, run, values_with
from show import about, outcome
from table import table

KINDS = ("link", "address", "route", "rule", "setting", "lease", "cached")
COLUMNS = ("calls", "last call", *KINDS, "tried again")
LEFT, *_ = COLOURS


def run_of(pods, word, program, lists):
    """The run of what is as the file that the word names."""
    with tempfile.NamedTemporaryFile("w", suffix=".json") as file:
        json.dump(pods, file)
        file.flush()
        prefix = SESSION if word.startswith(SESSION) else ""
        return run([program, "--trace", "--dump", prefix + file.name, *lists])


def in_last_place(pods, word, first, *rest):
    """The same with these, one after another, in the place of the last command or task."""
    if word.startswith(SESSION):
        return {**pods, "tasks": [*pods["tasks"][:-1], first, *rest]}
    *before, last = filter(None, pods["rounds"])
    return {**pods, "rounds": [*before, [*last[:-1], first], *([it] for it in rest)]}


def survivors(printed, owner):
    """How many objects of each kind the owner, an attachment or all of a network, has at the end of a run."""
    owned = (it["kind"] for it in values_with("tag", printed) if f"{it['tag']}/".startswith(f"{owner}/"))
    return collections.Counter(owned)


def crashes(calls, commands, pods, word, program, lists):
    """A row for each call of the last command or task."""
    for number, call in enumerate(calls, 1):
        command = commands[-1]
        crashed = {**command, "stop": number}
        printed = run_of(in_last_place(pods, word, crashed, command), word, program, lists).stdout
        stopped = run_of(in_last_place(pods, word, crashed), word, program, lists).stdout
        left = survivors(stopped, about(command))
        again = outcome(values_with("verb", printed)[-1])
        yield dict(zip(COLUMNS, (number, call["call"], *(left[it] or None for it in KINDS), again)))


def cell(x, y, width, column, value):
    """A cell of the picture: of a kind a box with how many are left, if any."""
    if column in KINDS and value:
        yield f'<rect x="{x}" y="{y - 12}" width="{width}" height="15" rx="3" fill="{LEFT}"/>'
        yield f'<text x="{x + width // 2}" y="{y}" fill="#ffffff" text-anchor="middle">{value}</text>'
    elif value:
        yield f'<text x="{x}" y="{y}" fill="{PLAIN}">{escape(str(value))}</text>'


def picture(rows):
    """The table as SVG."""
    widths = [max(width_of(str(it)) for it in (column, *(row[column] or "" for row in rows))) for column in COLUMNS]
    places = [PAD + sum(widths[:number]) + 2 * PAD * number for number in range(len(COLUMNS))]
    height = LINE_HEIGHT * (len(rows) + 1) + 2 * PAD
    right = places[-1] + widths[-1] + PAD
    drawn = [SVG.format(right, height), "<title>What each crash leaves</title>"]
    drawn.append(f'<rect width="{right}" height="{height}" fill="#ffffff"/>')
    for x, column in zip(places, COLUMNS):
        drawn.append(f'<text x="{x}" y="{PAD + 12}" fill="{FAINT}">{column}</text>')
    for number, row in enumerate(rows, 1):
        y = PAD + 12 + LINE_HEIGHT * number
        drawn += [it for x, width, key in zip(places, widths, COLUMNS) for it in cell(x, y, width, key, row[key])]
    return "\n".join([*drawn, "</svg>"])


def main():
    words = [it for it in sys.argv[1:] if it != "--svg"]
    if len(words) < 2 or words[1].startswith(("-", "gen:")):
        sys.exit(__doc__)
    program, file, *lists = words
    pods = read(file)
    whole = run_of(pods, file, program, lists)
    if whole.returncode not in CARRIED_OUT:
        print(whole.stdout, end="")
        return whole.returncode
    commands = commands_of(pods, file)
    calls = [it for it in values_with("call", whole.stdout) if it["n"] == len(commands)]
    rows = list(crashes(calls, commands, pods, file, program, lists))
    print(picture(rows) if "--svg" in sys.argv else "\n".join(table(rows, list(COLUMNS))))
    return 0


if __name__ == "__main__":
    signal.signal(signal.SIGPIPE, signal.SIG_DFL)
    try:
        sys.exit(main())
    except OSError as error:
        sys.exit(f"crashes.py: {error}")
