#!/usr/bin/env python3
"""Times the program on pods of one verb a round, and prints ratios within this one run. It is no test.

    rounds.py [PROGRAM [N ..]]

Each size N gives rounds of N commands, one a container, each timed less the same file without these:

- faults: ADDs whose first call is a listed fault, so that no kernel call is made: what the book costs;
- gone:   DELs of what isn't there, four kernel calls each on lists that are empty: what the book costs with its calls;
- adds:   ADDs;
- checks: CHECKs of what the ADDs of a round before made;
- dels:   DELs of the same.

`adds`, `checks` and `dels` show what the kernel costs. A time is the processor's, the least of RUNS, the sizes in turn.
What isn't over within MOST_SECONDS is ended, and no figure is given.
"""
import pathlib
import resource
import subprocess
import sys

sys.dont_write_bytecode = True
sys.path.insert(0, str(pathlib.Path(__file__).resolve().parent.parent / "tests"))

from program import MOST_SECONDS, bridge, command, in_folder, network_list, program_of, run

RUNS = 10
NET = network_list("pods", bridge(subnet="10.0.0.0/8"))
# the steps of a command: its calls, and the one that gives its answer
STEPS = {"faults": 2, "gone": 5, "adds": 7, "checks": 7, "dels": 8}
VERBS = {"faults": "ADD", "gone": "DEL", "adds": "ADD", "checks": "CHECK", "dels": "DEL"}


def round_of(verb, count, faults):
    made = (command(verb, "pods", f"c{i}", f"/ns/{i}") for i in range(count))
    return [{**it, "faults": [1]} if faults else it for it in made]


def files(kind, count):
    """The pod file of that kind, and the same without the commands that are timed."""
    opening = {} if kind == "gone" else {"namespaces": [f"/ns/{i}" for i in range(count)]}
    before = [round_of("ADD", count, False)] if kind in ("checks", "dels") else []
    timed = round_of(VERBS[kind], count, kind == "faults")
    return {"opening": opening, "rounds": [*before, timed]}, {"opening": opening, "rounds": before}


def used():
    children = resource.getrusage(resource.RUSAGE_CHILDREN)
    return children.ru_utime + children.ru_stime


def seconds(program, words, folder):
    """The processor's time for one run; none where it isn't over in time."""
    start = used()
    try:
        run(program, words, folder, subprocess.DEVNULL)
    except subprocess.TimeoutExpired:
        return None
    return used() - start


def least_in_turn(program, pods):
    """The least seconds of each pod file, all run in turn, since a machine's speed changes from one minute to the next;
    none for one that isn't over in time."""
    times = {file: [] for file in pods}
    with in_folder({**pods, "net.json": NET}) as folder:
        for _ in range(RUNS):
            for file, taken in times.items():
                if None not in taken:
                    taken.append(seconds(program, [file, "net.json"], folder))
    return {file: None if None in taken else min(taken) for file, taken in times.items()}


def timed(program, kind, sizes):
    """The seconds that the commands of each size take; none for one that isn't over in time."""
    pods = {}
    for size in sizes:
        pods[f"{size}.json"], pods[f"{size}-rest.json"] = files(kind, size)
    least = least_in_turn(program, pods)
    both = {size: (least[f"{size}.json"], least[f"{size}-rest.json"]) for size in sizes}
    return {size: None if None in taken else taken[0] - taken[1] for size, taken in both.items()}


def main():
    program = program_of(sys.argv[1:])
    sizes = [int(it) for it in sys.argv[2:]] or [1000, 10000]
    for kind, steps in STEPS.items():
        first = None
        for size, taken in timed(program, kind, sizes).items():
            if taken is None or taken <= 0:
                why = f"not over within {MOST_SECONDS} s" if taken is None else "too short to be timed"
                print(f"{kind:7} N={size:6} {why}", flush=True)
                continue
            a_step = taken / (size * steps)
            first = first or (size, a_step)
            print(
                f"{kind:7} N={size:6} {taken:8.4f} s {1 / a_step:12.0f} steps/s   "
                f"a step: x{a_step / first[1]:.2f} of N={first[0]}",
                flush=True,
            )


if __name__ == "__main__":
    main()
