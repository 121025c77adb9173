#!/usr/bin/env python3
"""Reads back what each plugin is handed, of COUNT pod files and network lists that are drawn at random.

    run.py [PROGRAM [COUNT [SEED]]]

COUNT is 100 and SEED 1 where they aren't given. Of each line of a request the plugin's own object, the result before
it, the mappings, the valid list and the words are to be what files and answers say (due.py), and those commands have
lines that were done. Besides, each list is put together again from what its plugins are handed: the program is to print
the same on it. It fails, too, where requests of some sort weren't met at all. Runs in which a line is altered
(altered.py) are to be found out.
"""

import collections
import json
import pathlib
import random
import sys

sys.dont_write_bytecode = True
HERE = pathlib.Path(__file__).resolve().parent
sys.path.insert(0, str(HERE.parent))

from altered import altered, sample
from drawing import drawn
from due import Reading
from handed import ABSENT, Handed
from program import FAILURE, SUCCESS, count_failed, lines_of, program_of, run_on

COUNT, SEED = 100, 1
# what is to be met
SORTS = ("ADD", "CHECK", "DEL", "GC", "STATUS", "a result", "mappings", "attachments to keep", "nothing to keep")
PARTS = ("number", "plugin", "env", "own", "version", "network", "previous", "runtime", "valid")


def parted(lines):
    """The lines of the answers, and those of the requests."""
    return [it for it in lines if "verb" in json.loads(it)], [it for it in lines if "request" in json.loads(it)]


def complaints(values, lines):
    """What isn't as it is due, a text each."""
    pods, *lists = values.values()
    answers, requests = parted(lines)
    if lines != [*answers, *requests]:
        yield "lines of another kind or order"
    due = [*Reading(pods, lists).due(answers)]
    handed = [*map(Handed, requests)]
    if len(handed) != len(due):
        yield f"{len(handed)} requests, due are {len(due)}"
    for got, it in zip(handed, due):
        name = f"command {it.number}, plugin {it.plugin}"
        if not got.is_as_printed or got.members != ["env", "n", "plugin", "request"]:
            yield f"{name}: the line is spelled otherwise"
        if got.others:
            yield f"{name}: keys of the runtime: {got.others}"
        for part in PARTS:
            if not is_same(getattr(got, part), getattr(it, part)):
                yield f"{name}: {part} is {getattr(got, part)}, due is {getattr(it, part)}"


def is_same(one, other):
    """Whether they are one value of JSON, in which 1 isn't true."""
    return json.dumps(one, sort_keys=True) == json.dumps(other, sort_keys=True)


def put_together(values, lines):
    """The files with each list's plugins as they are handed to them, where the list has a request."""
    own = {}
    for it in map(Handed, parted(lines)[1]):
        own.setdefault(it.network, {})[it.plugin] = it.own
    for name, it in values.items():
        handed = own.get(it.get("name"), {}) if "plugins" in it else {}
        yield name, {**it, "plugins": [handed[place] for place in sorted(handed)]} if handed else it


def meet(met, handed):
    """Counts a request by what it has."""
    met["requests"] += 1
    met[handed.env["CNI_COMMAND"]] += 1
    met["a result"] += handed.previous != ABSENT
    met["mappings"] += handed.runtime != ABSENT
    if handed.valid != ABSENT:
        met["attachments to keep" if handed.valid else "nothing to keep"] += 1


def wrong_in(program, words, files, values, met):
    done = run_on(program, words, files)
    if done.returncode not in (SUCCESS, FAILURE):
        return [f"status {done.returncode}, {done.stdout[:200]}"]
    lines = lines_of(done.stdout)
    wrong = [*complaints(values, lines)]
    for it in map(Handed, parted(lines)[1]):
        meet(met, it)
    again = run_on(program, words, dict(put_together(values, lines)))
    if (again.returncode, again.stdout) != (done.returncode, done.stdout):
        wrong.append("the lists that are put together again print something else")
    return wrong


def of_draws(program, count, seed, met):
    for number in range(count):
        words, files, values = drawn(random.Random(f"{seed}/{number}"))
        wrong = wrong_in(program, words, files, values, met)
        yield f"draw {number} of seed {seed}", [*wrong, str([words, files])] if wrong else []


def of_alterations(program):
    """A run, and each alteration of it, which is to be found out."""
    values = sample()
    done = run_on(program, ["--requests", *values], values)
    lines = lines_of(done.stdout)
    yield "sample", [*complaints(values, lines)]
    for name, other in altered(lines):
        yield name, [] if [*complaints(values, other)] else ["isn't found out"]


def main():
    program = program_of(sys.argv[1:2])
    count = int(sys.argv[2]) if len(sys.argv) > 2 else COUNT
    seed = sys.argv[3] if len(sys.argv) > 3 else SEED
    met = collections.Counter()
    parts = {"draws": of_draws(program, count, seed, met), "alterations": of_alterations(program)}
    failed = 0
    for name, found in parts.items():
        found = [*found]
        wrong = count_failed(found)
        failed += wrong
        print(f"requests, {name}: {len(found) - wrong} passed, {wrong} failed")
    never = [it for it in SORTS if not met[it]]
    print(f"requests: {met['requests']} read back" + f"; never met: {', '.join(never)}" * bool(never))
    return 1 if failed or never else 0


if __name__ == "__main__":
    sys.exit(main())
