#!/usr/bin/env python3
"""Runs a built program on the recorded sequences of hostlocal.json, and compares the addresses that it leases.

    run.py [PROGRAM]

Each sequence is one network list, whose sets are the recorded ones, and one pod file, whose rounds are the recorded
ADDs and DELs, one a round and each container in a namespace of its own. Of each ADD the leased addresses are compared,
or the number of the set that has none left; of each DEL that it succeeds; and at the end, by the dump, the address that
each set leased last.

The plugin's default end of an IPv6 range is the subnet's last address, and the program's the one before it. So an IPv6
range must have its `rangeEnd` to be compared, and each recorded one has.
"""

import json
import pathlib
import sys

sys.dont_write_bytecode = True
sys.path.insert(0, str(pathlib.Path(__file__).resolve().parent.parent))

from program import (
    FAILURE,
    SUCCESS,
    bridge,
    command,
    count_failed,
    lines_of,
    network_list,
    program_of,
    run_on,
)
from recorded import is_ipv6, recordings


def list_of(sets):
    assert all("rangeEnd" in given for given_set in filter(is_ipv6, sets) for given in given_set)
    return network_list("peer", bridge(ranges=sets))


def pod_file(operations):
    containers = [operation["add"] for operation in operations if "add" in operation]
    rounds = []
    for operation in operations:
        verb = "ADD" if "add" in operation else "DEL"
        container = operation[verb.lower()]
        rounds.append([command(verb, "peer", container, f"/ns/{container}")])
    return {"opening": {"namespaces": [f"/ns/{container}" for container in containers]}, "rounds": rounds}


def wanted_answer(operation):
    if "del" in operation:
        return "deleted"
    if "empty_set" in operation:
        return f"pool empty, set {operation['empty_set']}"
    return operation["ips"]


def answer_of(line):
    if "result" in line:
        return [entry["address"] for entry in line["result"].get("ips", [])]
    if "error" in line:
        return f"{line['error']['msg']}, {line['error']['details']}"
    return "deleted" if line.get("ok") else "neither"


def lasts_of(lines, count):
    """The last address of each set, by number. A set that has leased nothing has none."""
    found = {line["set"]: line["address"] for line in lines if line.get("kind") == "last"}
    return [found.get(number) for number in range(count)]


def printed(program, files):
    """The status of a run with these files, and the lines that it prints."""
    done = run_on(program, ["--dump", *files], files)
    return done.returncode, [json.loads(line) for line in lines_of(done.stdout)]


def differences(program, recorded):
    """What is other than recorded, a text each."""
    sets, operations = recorded["sets"], recorded["sequence"]
    status, lines = printed(program, {"pods.json": pod_file(operations), "net.json": list_of(sets)})
    if status not in (SUCCESS, FAILURE):
        yield f"status {status}: {lines}"
        return
    answers = [answer_of(line) for line in lines if "verb" in line]
    if len(answers) != len(operations):
        yield f"{len(answers)} answers to {len(operations)} commands"
    for place, (operation, answer) in enumerate(zip(operations, answers), 1):
        wanted = wanted_answer(operation)
        if answer != wanted:
            yield f"command {place}: {answer} and not {wanted}"
    if lasts_of(lines, len(sets)) != recorded["lasts"]:
        yield f"last addresses: {lasts_of(lines, len(sets))} and not {recorded['lasts']}"


def main():
    program = program_of(sys.argv[1:])
    sequences = recordings()["sequences"]
    failed = count_failed(
        (f"sequence {number}", [*differences(program, recorded)]) for number, recorded in enumerate(sequences)
    )
    sets = [given_set for recorded in sequences for given_set in recorded["sets"]]
    print(
        f"recorded sequences: {len(sequences) - failed} of {len(sequences)} agree, "
        f"with {len(sets)} sets, {sum(map(is_ipv6, sets))} of them IPv6"
    )
    return 1 if failed else 0


if __name__ == "__main__":
    sys.exit(main())
