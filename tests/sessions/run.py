#!/usr/bin/env python3
"""Judges sessions that a built program runs: those of the rows that are answered, and COUNT session files that are
drawn at random.

    run.py [PROGRAM [COUNT [SEED]]]

COUNT is 60 and SEED 1 where they aren't given. Each run is to be lawful (session.py). Of a drawn session the first
tasks are run alone, too, however many they are: what is printed between tasks is to be as docs/REGISTRY.md promises
(law.py). What isn't so is printed, of a drawn session with its file. It fails, too, where answers of some sort weren't
met at all. Runs that aren't lawful (altered.py), and programs that break a sentence of the law (programs.py), are to be
found out.
"""

import collections
import json
import pathlib
import random
import sys

sys.dont_write_bytecode = True
HERE = pathlib.Path(__file__).resolve().parent
sys.path[:0] = [str(HERE.parent / "rows"), str(HERE), str(HERE.parent), str(HERE.parent / "legal")]

from altered import altered
from drawing import drawn
from history import History
from judge import complaints
from law import LAW, broken
from program import FAILURE, SUCCESS, TOP, compact, count_failed, lines_of, program_of, read_json, run_on
from programs import WRONG
from run import content_of, each_of
from samples import SAMPLES, TWO_POOLS
from session import Session

COUNT, SEED = 60, 1
ASKED = ["--trace", "--dump"]
# each task of a row is held against the model, so those of a few rows are too many
MOST_TASKS = 100
# what is to be met, by verb: the codes of errors, and the keys of other answers
SORTS = {
    "ADD": [4, 7, 100, 101, 102, 103, "result", "stopped"],
    "CHECK": [3, 4, 103, 110, "ok", "stopped"],
    "DEL": [4, 103, "ok", "stopped"],
    "GC": [103, "ok", "stopped"],
}


class Unlawful(Exception):
    """A run that isn't lawful, with the texts that say why."""


def lawful_lines(program, conf):
    """What is printed of a session, which is to be lawful."""
    done = run_on(program, [*ASKED, "reg:s.json"], {"s.json": conf})
    if done.returncode not in (SUCCESS, FAILURE):
        raise Unlawful(f"status {done.returncode}")
    lines = lines_of(done.stdout)
    wrong = [*complaints(Session(conf), ASKED, done.returncode, lines)]
    if wrong:
        raise Unlawful(*wrong)
    return lines


def wrong_in(history_of, conf, met):
    """What isn't as is promised of a session; the sorts of its answers are counted."""
    try:
        history = history_of(conf)
        unkept = broken(history)
    except Unlawful as why:
        return [*why.args]
    for it in history.seen:
        met.update((it.verb, sort) for sort in (*it.answer, (it.error or {}).get("code")))
    return [f"{name}: {text}" for name, texts in unkept.items() for text in texts]


def rows():
    """The session files of the rows that are answered, each with its row's name."""
    for row in (each for it in read_json(TOP / "tests/rows/sessions.json") for each in each_of(it)):
        if row["status"] in (SUCCESS, FAILURE) and "stdout_to" not in row:
            name = next(it.removeprefix("reg:") for it in map(str, row["words"]) if it.startswith("reg:"))
            content = content_of(row["files"][name], {})
            conf = json.loads(content) if isinstance(content, bytes) else content
            if len(conf["tasks"]) <= MOST_TASKS:
                yield row["name"], conf


def of_rows(program):
    for name, conf in rows():
        try:
            lawful_lines(program, conf)
            yield name, []
        except Unlawful as why:
            yield name, why.args


def of_draws(history_of, count, seed):
    met = collections.Counter()
    for number in range(count):
        conf = drawn(random.Random(f"{seed}/{number}"))
        wrong = wrong_in(history_of, conf, met)
        yield f"draw {number} of seed {seed}", [*wrong, compact(conf)] if wrong else []
    never = [f"{verb} {sort}" for verb, sorts in SORTS.items() for sort in sorts if not met[verb, sort]]
    yield "answers", [f"never met: {', '.join(never)}"] if never else []


def of_alterations(program):
    """A run that is lawful, and each alteration of it, which is to be found out."""
    try:
        lines = lawful_lines(program, TWO_POOLS)
    except Unlawful as why:
        yield "sample", why.args
        return
    runs = [("the status is another", SUCCESS, lines), *((name, FAILURE, it) for name, it in altered(lines))]
    for name, status, it in runs:
        yield name, [] if [*complaints(Session(TWO_POOLS), ASKED, status, it)] else ["isn't found out"]


def of_programs(history_of):
    """Sessions that are as is promised, and for each sentence programs that break it on one of them."""
    for number, conf in enumerate(SAMPLES):
        yield f"sample {number}", wrong_in(history_of, conf, collections.Counter())
    for sentence, programs in WRONG.items():
        for name, it in programs.items():
            histories = (History(conf, lambda first, it=it: it(first).printed()) for conf in SAMPLES)
            yield name, [] if any(sentence in broken(each) for each in histories) else ["isn't found out"]
    unbroken = {it.__name__ for it in LAW} - WRONG.keys()
    yield "each sentence", [f"nothing breaks {', '.join(sorted(unbroken))}"] if unbroken else []


def main():
    program = program_of(sys.argv[1:2])
    count = int(sys.argv[2]) if len(sys.argv) > 2 else COUNT
    seed = sys.argv[3] if len(sys.argv) > 3 else SEED

    def history_of(conf):
        return History(conf, lambda first: lawful_lines(program, first))

    parts = {"rows": of_rows(program), "draws": of_draws(history_of, count, seed)}
    parts |= {"alterations": of_alterations(program), "programs": of_programs(history_of)}
    failed = 0
    for name, found in parts.items():
        found = list(found)
        wrong = count_failed(found)
        failed += wrong
        print(f"sessions, {name}: {len(found) - wrong} passed, {wrong} failed")
    return 1 if failed else 0


if __name__ == "__main__":
    sys.exit(main())
