#!/usr/bin/env python3
"""Tells of each packet by which rules it fares as it does, and whose they are.

    ./cnitool --dump --probe PACKETS PODS LIST .. | tools/fates.py PACKETS

The program prints what becomes of each packet. Here the rules of its dump are gone through once more, by this script's
own reading of them. A rule is written as `iptables -S` does, behind the step at which it is asked. It ends with 1 where
the two readings differ.
"""

import json
import signal
import sys

sys.dont_write_bytecode = True

from rules import destination_of, first_match, jump_of, match_of
from runs import values_with

PUBLISHED, RETURNING, OUTGOING, FORWARDED = "CNI-HOSTPORT-DNAT", "CNI-HOSTPORT-MASQ", "CNI-MASQ", "CNI-FORWARD"
# what is said of a step at which no rule matches
NO_RULE = {"forward": "no rule: the host's policy decides"}


def deciding(rules, packet):
    """The packet at the destination that it is sent to, and the rule that decides at each step."""
    opens = not packet.get("established")
    published = first_match(rules, PUBLISHED, packet) if opens else None
    dst, dport = destination_of(published) if published else (packet["dst"], packet["dport"])
    sent = {**packet, "dst": dst, "dport": dport}
    returning = first_match(rules, RETURNING, sent) if opens else None
    outgoing = first_match(rules, OUTGOING, sent) if opens else None
    return sent, {
        "prerouting": published,
        "forward": first_match(rules, FORWARDED, sent),
        "postrouting": returning or outgoing,
    }


def fate_of(rules, packet):
    """What becomes of a packet, as the program prints it."""
    sent, steps = deciding(rules, packet)
    last = steps["postrouting"]
    return {
        "accepted": steps["forward"] is not None,
        "dport": sent["dport"],
        "dst": sent["dst"],
        "masqueraded": last is not None and last["target"] == "MASQUERADE",
        "rewritten": steps["prerouting"] is not None,
    }


def said(step, rule, left_over):
    """A rule and its owner, or that there is none."""
    if rule is None:
        return NO_RULE.get(step, "no rule")
    owner = rule["tag"] + ", no cached result" * (rule["tag"] in left_over)
    return f"-A {rule['chain']} {match_of(rule)} {jump_of(rule)} ({owner})"


def lines_of(number, packet, rules, left_over):
    sent, steps = deciding(rules, packet)
    state = ", established" * bool(packet.get("established"))
    to = f" goes to {sent['dst']} port {sent['dport']}" if steps["prerouting"] else ""
    yield f"packet {number}: {packet['protocol']} {packet['src']} -> {packet['dst']} port {packet['dport']}{state}{to}"
    for step, rule in steps.items():
        yield f"  {step:<11}  {said(step, rule, left_over)}"


def main():
    signal.signal(signal.SIGPIPE, signal.SIG_DFL)
    if len(sys.argv) != 2 or sys.argv[1].startswith("-"):
        sys.exit(__doc__)
    with open(sys.argv[1], encoding="utf-8") as file:
        packets = json.load(file)
    text = sys.stdin.read()
    objects, fates = values_with("kind", text), values_with("packet", text)
    if len(fates) != len(packets):
        sys.exit(f"fates.py: {len(fates)} packets were probed, and {len(packets)} are in {sys.argv[1]}")
    rules = [it for it in objects if it["kind"] == "rule"]
    left_over = {it["tag"] for it in rules} - {it["tag"] for it in objects if it["kind"] == "cached"}
    differ = 0
    for number, (packet, printed) in enumerate(zip(packets, fates)):
        print(*lines_of(number, packet, rules, left_over), sep="\n")
        if {**fate_of(rules, packet), "packet": number} != printed:
            differ = 1
            print(f"  the program says otherwise: {json.dumps(printed)}")
    sys.exit(differ)


if __name__ == "__main__":
    main()
