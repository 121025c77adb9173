#!/usr/bin/env python3
"""Times what is printed besides answers on the program, and prints ratios within this one run. It is no test.

    asked.py [PROGRAM [SMALL LARGE [RULES PACKETS]]]

Sizes are 1,000 and 10,000 commands, 60,000 rules and 65,536 packets where none are named.

- requests:  a request line of LARGE ADDs against one of SMALL, each run less the same without `--requests`; the peak of
             memory that the lines add, against their bytes; the time of the whole run against that without them;
- packets:   PACKETS packets on RULES rules against the sum of the same packets on no rule and of the rules without
             packets: where ports differ, where all have one port and differ in the address of the host, and where all
             packets have one port.
"""

import ipaddress
import subprocess
import sys

from rounds import seconds
from program import bridge, command, in_folder, network_list, program_of, run

RUNS = 5
SIZES = [1000, 10000, 60000, 65536]
PORTMAP = {"type": "portmap", "capabilities": {"portMappings": True}, "snat": False}
NET = network_list("pods", bridge(subnet="10.0.0.0/8"), PORTMAP, {"type": "firewall"})


# starts a program and tells the peak of its memory. The system counts that of who starts it too, so this is to be small
PEAK_OF = """
import os, sys
child = os.spawnv(os.P_NOWAIT, sys.argv[1], sys.argv[1:])
print(os.wait4(child, 0)[2].ru_maxrss * 1024, file=sys.stderr)
"""


def peak(program, words, folder):
    """The peak of memory of one run, in bytes."""
    how = {"cwd": folder, "stdout": subprocess.DEVNULL, "stderr": subprocess.PIPE, "check": True}
    told = subprocess.run([sys.executable, "-S", "-c", PEAK_OF, program, *words], **how)
    return int(told.stderr)


def least_in_turn(program, words_of, folder):
    """The least seconds of each run by its words, all run in turn."""
    times = {name: [] for name in words_of}
    for _ in range(RUNS):
        for name, words in words_of.items():
            times[name].append(seconds(program, words, folder))
    return {name: min(taken) for name, taken in times.items()}


def added(count):
    spaces = [f"/ns/{i}" for i in range(count)]
    adds = [command("ADD", "pods", f"c{i}", it) for i, it in enumerate(spaces)]
    return {"opening": {"namespaces": spaces}, "rounds": [adds]}


def requests(program, small, large):
    files = {f"{count}.json": added(count) for count in (small, large)}
    with in_folder({"net.json": NET, **files}) as folder:
        plain = {count: [f"{count}.json", "net.json"] for count in (small, large)}
        asked = {f"{count} asked": ["--requests", *plain[count]] for count in plain}
        taken = least_in_turn(program, {**plain, **asked}, folder)
        grown = peak(program, asked[f"{large} asked"], folder) - peak(program, plain[large], folder)
        printed = run(program, asked[f"{large} asked"], folder).stdout
    lines = sum(len(it) + 1 for it in printed.splitlines() if it.startswith(b'{"env"'))
    a_line = {count: (taken[f"{count} asked"] - taken[count]) / count for count in plain}
    print(f"requests   {a_line[large] * 1e6:8.2f} us an ADD, x{a_line[large] / a_line[small]:.2f} of N={small}")
    print(f"requests   x{taken[f'{large} asked'] / taken[large]:.2f} of the run without them")
    print(f"requests   {grown / lines:.2f} bytes of memory a byte of their lines", flush=True)


def mapping(number, one_port):
    """A port of its own, by protocol and number; or one port of an address of its own."""
    if one_port:
        return {"hostPort": 80, "containerPort": 80, "hostIP": str(ipaddress.ip_address("20.0.0.0") + number)}
    return {"hostPort": 1 + number % 30000, "containerPort": 80, "protocol": "udp" if number // 30000 else "tcp"}


def packet(number, one_port):
    port = 80 if one_port else 1 + number % 30000
    dst = str(ipaddress.ip_address("20.0.0.0") + number)
    return {"protocol": "tcp", "src": "192.0.2.7", "dst": dst, "dport": port}


def packets(program, name, count, rules, one_rule_port, one_packet_port):
    mapped = [mapping(number, one_rule_port) for number in range(rules)]
    published = {**command("ADD", "pods", "c", "/ns/0"), "portMappings": mapped}
    files = {
        "net.json": NET,
        "rules.json": {"opening": {"namespaces": ["/ns/0"]}, "rounds": [[published]]},
        "none.json": {"rounds": []},
        "packets.json": [packet(number, one_packet_port) for number in range(count)],
    }
    probe = ["--probe", "packets.json"]
    with in_folder(files) as folder:
        words_of = {
            "both": [*probe, "rules.json", "net.json"],
            "packets": [*probe, "none.json", "net.json"],
            "rules": ["rules.json", "net.json"],
        }
        taken = least_in_turn(program, words_of, folder)
    print(f"packets    x{taken['both'] / (taken['packets'] + taken['rules']):.2f} of the sum, {name}", flush=True)


def main():
    program = program_of(sys.argv[1:])
    given = [int(it) for it in sys.argv[2:]]
    small, large, rules, count = [*given, *SIZES[len(given) :]]
    requests(program, small, large)
    packets(program, "ports of their own", count, rules, False, False)
    packets(program, "rules of one port", count, rules, True, True)
    packets(program, "packets of one port", count, rules, False, True)


if __name__ == "__main__":
    main()
