#!/usr/bin/env python3
"""Times the readers, and prints ratios within this one run. It is no test.

    readers.py [PROGRAM]

Reading JSON alone is what the program does with the same bytes inside one pair of brackets: it reads them as JSON,
finds that the top is no object, and refuses them. So each row is the time for the file over the time for the file in
brackets. What isn't over within MOST_SECONDS is ended, and no figure is given.
"""
import os
import pathlib
import select
import signal
import subprocess
import sys
import time

sys.dont_write_bytecode = True
sys.path.insert(0, str(pathlib.Path(__file__).resolve().parent.parent / "tests"))

from program import MOST_SECONDS, NO_PODS, bridge, command, compact, in_folder, least, network_list, program_of

# the most bytes of a file, and the most commands or range sets in it
MOST_BYTES = 16_777_216
MOST = 65_536
RUNS = 3


def pod_file(size):
    """A pod file of as many commands as there may be, of a network that no list has, of nearly that many bytes."""
    deleted = command("DEL", "none", "c", "/ns/a")
    fill = (size - MOST * (len(compact(deleted)) + 16) - 64) // MOST
    rounds = [[{**deleted, "args": "A=" + "b" * max(fill, 0)}] for _ in range(MOST)]
    return compact({"rounds": rounds}).encode()


def list_of_sets():
    """A list of as many sets as there may be, of one range each."""
    sets = [[{"subnet": f"10.{i // 256}.{i % 256}.0/24"}] for i in range(MOST)]
    return compact(network_list("many", bridge(ranges=sets))).encode()


def measured(program, words, folder):
    """The seconds of one run, and the most bytes of memory that it takes; none where it isn't over in time."""
    start = time.perf_counter()
    child = subprocess.Popen([program, *words], cwd=folder, stdout=subprocess.DEVNULL)
    # a wait of Popen's own would throw away what this child used, and what all children used is the most of any run
    handle = os.pidfd_open(child.pid)
    is_over, _, _ = select.select([handle], [], [], MOST_SECONDS)
    if not is_over:
        signal.pidfd_send_signal(handle, signal.SIGKILL)
    _, _, used = os.wait4(child.pid, 0)
    taken = time.perf_counter() - start
    os.close(handle)
    return (taken, used.ru_maxrss * 1024) if is_over else None


def seconds(program, words, folder):
    found = measured(program, words, folder)
    return None if found is None else found[0]


def row(name, program, before, file, whole):
    """Times the file behind the files before it, as it is and in brackets."""
    files = {**before, file: whole}
    alone = least(RUNS, seconds, program, {**before, file: b"[" + whole[: MOST_BYTES - 2] + b"]"})
    read = least(RUNS, seconds, program, files)
    with in_folder(files) as folder:
        last = measured(program, files, folder)
    if None in (alone, read, last):
        print(f"{name:13} {len(whole):9} bytes not over within {MOST_SECONDS} s", flush=True)
        return
    _, most = last
    print(
        f"{name:13} {len(whole):9} bytes {read:8.3f} s: x{read / alone:.2f} of reading the JSON alone, "
        f"peak memory x{most / len(whole):.1f} of the file",
        flush=True,
    )


def main():
    program = program_of(sys.argv[1:])
    row("pod file", program, {}, "pods.json", pod_file(MOST_BYTES))
    row("network list", program, {"pods.json": NO_PODS}, "net.json", list_of_sets())


if __name__ == "__main__":
    main()
