#!/usr/bin/env python3
"""Judges runs of a built program: those of the rows that are answered, each with its trace and dump, and COUNT of pod
files that are drawn at random, on 1 to 16 threads.

    run.py [PROGRAM [COUNT [SEED]]]

COUNT is 200 and SEED 1 where they aren't given. Each run is to be lawful (judge.py) and as docs/GUARANTEES.md says
(moments.py, promises.py). Runs that aren't lawful (wrong.py), and histories that break a promise (broken.py), are to be
found out. What isn't so is printed, of a drawn run with its words and files.
"""

import json
import pathlib
import random
import sys

sys.dont_write_bytecode = True
sys.path.insert(0, str(pathlib.Path(__file__).resolve().parent.parent))
sys.path.insert(0, str(pathlib.Path(__file__).resolve().parent.parent / "rows"))

import broken
from draw import ASKED, drawn
from judge import Run, complaints
from program import FAILURE, SUCCESS, TOP, compact, count_failed, lines_of, program_of, read_json, run_on
from promises import PARTS, broken_parts
from run import content_of, each_of
from wrong import altered, in_another_order, sample

COUNT, SEED = 200, 1


def carried_out(words, files, status, lines):
    """A run that ended with this status and these lines, carried out again, and what isn't lawful of it."""
    pods, *lists = (files[it] for it in words if it in files)
    run = Run(pods, lists, words)
    return run, [*complaints(run, words, status, lines)]


def judged(words, files, status, lines):
    """What is wrong with the run."""
    run, unlawful = carried_out(words, files, status, lines)
    return unlawful or [f"{name}: {text}" for name, texts in broken_parts(run).items() for text in texts]


def wrong_in(program, words, files):
    done = run_on(program, words, files)
    if done.returncode not in (SUCCESS, FAILURE):
        return [f"status {done.returncode}"]
    return judged(words, files, done.returncode, lines_of(done.stdout))


def read(content):
    return json.loads(content) if isinstance(content, bytes) else content


def rows():
    """The rows that are answered, each by its name with its words and files."""
    table = read_json(TOP / "tests/rows/rows.json")
    more = read_json(TOP / "tests/rows/requests.json")
    for row in (each for it in [*table["rows"], *more] for each in each_of(it)):
        files = {name: content_of(it, table["lists"]) for name, it in row.get("files", {}).items()}
        if row["status"] in (SUCCESS, FAILURE) and "stdout_to" not in row and "pods.json" in files:
            words = [str(it) for it in row["words"] if it not in ASKED]
            yield row["name"], [*ASKED, *words], {name: read(it) for name, it in files.items()}


def of_rows(program):
    for name, words, files in rows():
        yield name, wrong_in(program, words, files)


def of_draws(program, count, seed):
    for number in range(count):
        words, files = drawn(random.Random(f"{seed}/{number}"))
        wrong = wrong_in(program, words, files)
        yield f"draw {number} of seed {seed}", [*wrong, compact([words, files])] if wrong else []


def of_alterations(program):
    """A lawful run in two orders, and each alteration of it, which is to be found out."""
    words, files = sample()
    done = run_on(program, words, files)
    lines = lines_of(done.stdout)
    yield "sample", judged(words, files, done.returncode, lines)
    shared = ["--threads", "2", *words]
    yield "sample in another order", judged(shared, files, done.returncode, in_another_order(lines))
    for name, status, other in altered(done.returncode, lines):
        _, unlawful = carried_out(words, files, status, other)
        yield name, [] if unlawful else ["isn't found out"]


def of_histories(program):
    """A run that keeps every promise, and for each promise histories that break it, which are to be found out."""
    words, files = broken.sample()
    done = run_on(program, words, files)
    given = words, files, done.returncode, lines_of(done.stdout)
    yield "sample", judged(*given)
    unbroken = {part.__name__ for part in PARTS}
    for name, part, change in broken.broken_histories():
        run, _ = carried_out(*given)
        change(run)
        unbroken.discard(part)
        yield name, [] if part in broken_parts(run) else ["isn't found out"]
    yield "each promise", [f"nothing breaks {', '.join(sorted(unbroken))}"] if unbroken else []


def main():
    program = program_of(sys.argv[1:2])
    count = int(sys.argv[2]) if len(sys.argv) > 2 else COUNT
    seed = sys.argv[3] if len(sys.argv) > 3 else SEED
    draws = of_draws(program, count, seed)
    parts = {"rows": of_rows(program), "draws": draws, "alterations": of_alterations(program)}
    parts["histories"] = of_histories(program)
    failed = 0
    for name, found in parts.items():
        found = list(found)
        wrong = count_failed(found)
        failed += wrong
        print(f"legal, {name}: {len(found) - wrong} passed, {wrong} failed")
    return 1 if failed else 0


if __name__ == "__main__":
    sys.exit(main())
