#!/usr/bin/env python3
"""Holds generated pods against the same pods in a file.

    run.py [PROGRAM]

For some N the list and the pod file that `gen:N` stands for are written out here, by docs/FORMATS.md. Trace and dump of
both runs are to be the same, line by line; of the command lines `gen:N` prints the numbers.
"""

import json
import pathlib
import sys

sys.dont_write_bytecode = True
sys.path.insert(0, str(pathlib.Path(__file__).resolve().parent.parent))

from program import FAILURE, SUCCESS, bridge, command, count_failed, lines_of, network_list, program_of, run_on

SIZES = [1, 2, 10, 37]
PORTMAP = {"type": "portmap", "capabilities": {"portMappings": True}}
NET = network_list(
    "gen", {**bridge(subnet="10.0.0.0/8"), "isGateway": True, "ipMasq": True}, PORTMAP, {"type": "firewall"}
)


def pod(verb, number):
    mapping = {"hostPort": 1024 + number, "containerPort": 80, "protocol": "tcp"}
    return {**command(verb, "gen", f"p{number}", f"/ns/p{number}"), "ifname": "eth0", "portMappings": [mapping]}


def pods(count):
    numbers = range(1, count + 1)
    kept = [it for it in numbers if it % 4 == 1]
    valid = [{"containerID": f"p{it}", "ifname": "eth0"} for it in kept]
    return {
        "opening": {"namespaces": [f"/ns/p{it}" for it in numbers]},
        "rounds": [
            [pod("ADD", it) for it in numbers],
            [pod("CHECK", it) for it in numbers],
            [pod("DEL", it) for it in numbers if it % 2 == 0],
            [{"verb": "GC", "network": "gen", "valid": valid}],
            [pod("CHECK", it) for it in kept],
        ],
    }


def is_refused(line):
    told = json.loads(line)
    return "error" in told or "stopped" in told


def complaints(program, count):
    written = pods(count)
    commands = sum(map(len, written["rounds"]))
    of_files = run_on(program, ["--trace", "--dump", "pods.json", "net.json"], {"pods.json": written, "net.json": NET})
    generated = run_on(program, ["--trace", "--dump", f"gen:{count}"], {})
    answers, rest = lines_of(of_files.stdout)[:commands], lines_of(of_files.stdout)[commands:]
    first, *others = lines_of(generated.stdout) or [""]
    refused = sum(map(is_refused, answers))
    status = FAILURE if refused else SUCCESS
    wanted = {
        "calls": sum("call" in json.loads(it) for it in rest),
        "commands": commands,
        "leases": sum(json.loads(it).get("kind") == "lease" for it in rest),
        "ok": commands - refused,
    }
    if (of_files.returncode, generated.returncode) != (status, status):
        yield f"status {generated.returncode}, of the files {of_files.returncode}"
    if others != rest:
        yield "trace or dump is another than that of the files"
    if not first or json.loads(first) != wanted:
        yield f"{first} in place of {wanted}"


def main():
    program = program_of(sys.argv[1:])
    failed = count_failed((f"gen:{it}", list(complaints(program, it))) for it in SIZES)
    print(f"generated: {len(SIZES) - failed} passed, {failed} failed")
    sys.exit(failed > 0)


if __name__ == "__main__":
    main()
