#!/usr/bin/env python3
"""Asks a built program what becomes of packets, on COUNT hosts that pod files drawn at random lead to.

    run.py [PROGRAM [COUNT [SEED]]]

COUNT is 100 and SEED 1 where they aren't given. Each fate is to be what the rules of the dump come to (tools/fates.py),
and on a complete host what the cached results say (cached.py). What isn't so is printed with its files. It fails, too,
where hosts or packets of some sort weren't met at all, since then nothing was said of them. Altered fates, and hosts
that no run leads to (altered.py), are to be found out.
"""

import collections
import json
import pathlib
import random
import sys

sys.dont_write_bytecode = True
HERE = pathlib.Path(__file__).resolve().parent
sys.path += [str(HERE.parent), str(HERE.parent / "legal"), str(HERE.parent.parent / "tools")]

from altered import incomplete_hosts, sample, wrong_fates, wrong_hosts
from cached import Host
from drawing import drawn
from fates import RETURNING, deciding, fate_of
from program import FAILURE, SUCCESS, compact, count_failed, lines_of, program_of, run_on
from rules import first_match

COUNT, SEED = 100, 1
# what is to be met
SORTS = (
    "complete", "rewritten", "left", "several publish",
    "accepted", "not accepted", "masqueraded", "not masqueraded",
)


def carried_out(program, lists, pods, packets):
    """The status of a run, the objects of its dump and the fates."""
    files = {"packets.json": packets, "pods.json": pods, **{f"{it['name']}.json": it for it in lists}}
    done = run_on(program, ["--dump", "--probe", *files], files)
    values = [json.loads(it) for it in lines_of(done.stdout)]
    return done.returncode, [it for it in values if "kind" in it], [it for it in values if "packet" in it]


def by_cached(host, packet, fate, met):
    """What isn't as the cached results say, a text each; `met` counts what was said."""
    opens = not packet.get("established")
    sent = host.rewriting(packet) if opens else None
    met["rewritten" if sent else "left"] += 1
    met["several publish"] += opens and len([1 for it in host.attachments for _ in it.publishing(packet)]) > 1
    if fate["rewritten"] != (sent is not None) or (sent and (fate["dst"], fate["dport"]) != sent[:2]):
        yield f"rewritten: {sent}"
    rules = host.of.get("rule", [])
    returns = first_match(rules, RETURNING, deciding(rules, packet)[0])
    masqueraded = host.masquerading(packet, fate) if opens and not returns else None
    if masqueraded is not None:
        met["masqueraded" if masqueraded else "not masqueraded"] += 1
        if fate["masqueraded"] != masqueraded:
            yield f"masqueraded: {masqueraded}"
    accepted = host.accepting(packet)
    met["accepted" if accepted else "not accepted"] += 1
    if fate["accepted"] != accepted:
        yield f"accepted: {accepted}"


def fates_by_rules(objects, packets):
    """What becomes of packets by the rules among these objects, as the program prints it."""
    rules = [it for it in objects if it["kind"] == "rule"]
    return [{**fate_of(rules, it), "packet": number} for number, it in enumerate(packets)]


def complaints(lists, objects, packets, fates, met):
    """What isn't so of these fates on the host of these objects, a text each."""
    host = Host({it["name"]: it for it in lists}, objects)
    complete = host.is_complete()
    met["complete" if complete else "incomplete"] += 1
    for packet, fate, by_rules in zip(packets, fates, fates_by_rules(objects, packets)):
        if fate != by_rules:
            yield f"{compact(packet)} by the rules: {compact(fate)}"
        for text in by_cached(host, packet, fate, met) if complete else []:
            yield f"{compact(packet)} by the cached results: {compact(fate)}, {text}"


def wrong_in(program, lists, pods, packets, met):
    status, objects, fates = carried_out(program, lists, pods, packets)
    if status not in (SUCCESS, FAILURE) or len(fates) != len(packets):
        return [f"status {status}, {len(fates)} fates"]
    return [*complaints(lists, objects, packets, fates, met)]


def of_draws(program, count, rng, met):
    for number in range(count):
        files = drawn(rng)
        wrong = wrong_in(program, *files, met)
        yield f"draw {number}", [*wrong, *map(compact, files)] if wrong else []


def of_alterations(program):
    """A host, and each alteration of its fates and of itself, which is to be found out, or to be incomplete."""
    lists, pods, packets = sample()
    _, objects, fates = carried_out(program, lists, pods, packets)
    met = collections.Counter()
    yield "sample", [*complaints(lists, objects, packets, fates, met)] if objects else ["there is no host"]
    for name, other in wrong_fates(fates):
        yield name, [] if [*complaints(lists, objects, packets, other, met)] else ["isn't found out"]
    for name, other in wrong_hosts(objects):
        found = [*complaints(lists, other, packets, fates_by_rules(other, packets), met)]
        yield name, [] if found else ["isn't found out"]
    yield "complete hosts", ["there is none, or another isn't"] if met["incomplete"] else []
    for name, other in incomplete_hosts(objects):
        yield name, ["is complete"] if Host({it["name"]: it for it in lists}, other).is_complete() else []


def main():
    program = program_of(sys.argv[1:])
    count, seed = (int(it) for it in (sys.argv[2:] + [COUNT, SEED][len(sys.argv[2:]) :]))
    met = collections.Counter()
    wrong = count_failed(of_draws(program, count, random.Random(seed), met))
    never = [it for it in SORTS if not met[it]]
    print(f"packets, draws: {wrong} wrong on {met['complete']} complete hosts and {met['incomplete']} others")
    if never:
        print(f"packets: never met: {', '.join(never)}")
    found = [*of_alterations(program)]
    failed = count_failed(found)
    print(f"packets, alterations: {len(found) - failed} passed, {failed} failed")
    return 1 if wrong or never or failed else 0


if __name__ == "__main__":
    sys.exit(main())
