#!/usr/bin/env python3
"""Times generated pods on the program, beside another program that makes the same calls, and prints ratios within this
one run. It is no test.

    generated.py PEER [PROGRAM [N ..]]

PEER takes `gen:N` as the program does and keeps the same history. For each N, 1,000 and 10,000 where none is named,
both run in turn, RUNS times: the least processor time, the peak of memory, and the time a call against that of the
first N. At the last N the program also runs with four threads, by the time that passes. What isn't over within
MOST_SECONDS is ended, and no figure is given.
"""
import json
import os
import pathlib
import signal
import subprocess
import sys
import time

sys.dont_write_bytecode = True
sys.path.insert(0, str(pathlib.Path(__file__).resolve().parent.parent / "tests"))

from program import MOST_SECONDS, program_of

RUNS = 5


class Run:
    """One run: processor time and time that passed, in seconds, the peak of memory in KiB, and the calls that were
    made. None of them where it was ended."""

    def __init__(self, words):
        start = time.monotonic()
        child = subprocess.Popen(words, stdout=subprocess.PIPE)
        signal.signal(signal.SIGALRM, lambda *_: child.kill())
        signal.alarm(MOST_SECONDS)
        printed = child.stdout.read()
        _, status, used = os.wait4(child.pid, 0)
        signal.alarm(0)
        child.stdout.close()
        child.returncode = os.waitstatus_to_exitcode(status)
        self.passed = time.monotonic() - start
        self.processor = used.ru_utime + used.ru_stime
        self.memory = used.ru_maxrss
        self.calls = json.loads(printed)["calls"] if child.returncode == 0 else None


def least(runs, figure):
    """The least of the runs' figures; none where one of them was ended."""
    return None if any(it.calls is None for it in runs) else min(getattr(it, figure) for it in runs)


def in_turn(*commands):
    """So many runs of each command, in turn; a command of which one was ended runs no more."""
    runs = [[] for _ in commands]
    for _ in range(RUNS):
        for words, done in zip(commands, runs):
            if not done or done[-1].calls is not None:
                done.append(Run(words))
    return runs


def main():
    if len(sys.argv) < 2:
        sys.exit("generated.py PEER [PROGRAM [N ..]]")
    peer = str(pathlib.Path(sys.argv[1]).resolve())
    program = program_of(sys.argv[2:3])
    sizes = [int(it) for it in sys.argv[3:]] or [1000, 10000]
    first = None
    for size in sizes:
        ours, theirs = in_turn([program, f"gen:{size}"], [peer, f"gen:{size}"])
        taken = least(ours, "processor")
        if taken is None:
            print(f"gen:{size} not over within {MOST_SECONDS} s", flush=True)
            continue
        a_call = taken / ours[0].calls
        first = first or (size, a_call)
        memory, of_peer = least(ours, "memory"), least(theirs, "processor")
        print(
            f"gen:{size} {taken:.3f} s, x{taken / of_peer:.2f} of the peer; {memory} KiB, "
            f"x{memory / least(theirs, 'memory'):.2f} of the peer; a call: x{a_call / first[1]:.2f} of gen:{first[0]}",
            flush=True,
        )
    alone, threads = in_turn([program, f"gen:{sizes[-1]}"], [program, "--threads", "4", f"gen:{sizes[-1]}"])
    if least(alone, "passed") and least(threads, "passed"):
        print(f"gen:{sizes[-1]} with four threads: x{least(threads, 'passed') / least(alone, 'passed'):.2f} of the time with one")


if __name__ == "__main__":
    main()
