#!/usr/bin/env python3
"""Times the program on input that is chosen to slow it, and prints ratios within this one run. It is no test.

    hostile.py [PROGRAM [BEFORE [PART [ROW ..]]]]

BEFORE is an earlier build of the program, or `-` where there is none. Sizes are divided by PART, which is 1 where it
isn't given. All rows are timed where none is named. Each compares two runs of one size and with names of one length, or
of two sizes by what one item takes:

- namespaces, containers, routes, sixes: an opening of 10,000 namespaces, 2,000 ADDs, and one ADD with 2,000 IPv6 routes
  or IPv6 range sets, which a hasher with a fixed key finds alike (colliding.py), against others; and the same beside
  that one of 200 unnamed texts by which they crowd most in tables whose hasher has a key of what was read;
- joined: 960 ADDs whose names, joined, are one text, against others;
- ended, marked: an opening of 10,000 namespaces, and an ADD with 2,000 IPv6 routes, that are alike in what is compared
  first, against others;
- collections: 2,000 GCs of a network that has nothing, beside 20,000 attachments of another against beside 2,000;
- removals: 20,000 namespaces that go against as many that come;
- turns: a GC, an NSDEL and a DROP by turns among 60 networks, with 18,000 attachments against 1,800;
- ranges: the memory of 2,000 ADDs with sets of 1,000 ranges against sets of one;
- sets: an ADD and its DEL with 65,536 sets against 6,554, ascending, descending and shuffled;
- texts: JSON of 8 MB against 0.8 MB, of brackets as deep as may be, and of one key again and again;
- generated: `gen:10000` against BEFORE, and with four threads against one;
- others: what the other benchmarks time (inputs.py), against BEFORE.

Behind a ratio stands what it must be at most, where it must. A time is the processor's, the least of RUNS in turn. What
isn't over within MOST_SECONDS is ended, and no figure is given.
"""

import concurrent.futures
import ipaddress
import os
import random
import statistics
import subprocess
import sys
import time

from rounds import seconds
import colliding
from asked import peak
from inputs import words_and_files
from program import MOST_SECONDS, NO_PODS, bridge, command, compact, in_folder, network_list, program_of

RUNS = 10
RUNS_OF_BOTH = 20
UNNAMED = 200
DEEPEST = 126
ETH0 = "eth0"


def spaces(count):
    return [f"/ns/{number}" for number in range(count)]


def pods(opening, *rounds):
    return {"opening": {"namespaces": opening}, "rounds": [*rounds]}


def alone(commands):
    """Each command in a round of its own."""
    return [[it] for it in commands]


def least_in_turn(program, runs, files, count=RUNS):
    """The least seconds of each run by its words, all run in turn, and fewer where they take long; none for one that
    isn't over in time."""
    times = {name: [] for name in runs}
    with in_folder(files) as folder:
        for _ in range(count):
            for name, words in runs.items():
                if None not in times[name] and sum(times[name]) < MOST_SECONDS / 4:
                    times[name].append(seconds(program, words, folder))
    return {name: None if None in it else min(it) for name, it in times.items()}


def tell(name, ratio, must=None):
    """Prints a row; a ratio is none where a run wasn't over in time, or too short to be timed."""
    said = "no figure" if ratio is None else f"x{ratio:.2f}"
    needed = f"   must: {must}" if must else ""
    print(f"{name:<68} {said:>9}{needed}", flush=True)


def tell_items(name, large, small):
    """The row of what an item takes of so many, against that of fewer."""
    (many, of_many), (few, of_few) = large, small
    found = ratio(of_many, of_few)
    tell(f"{name}, of {many} against {few}", found and found * few / many)


def ratio(one, other):
    return None if one is None or not other or other <= 0 else one / other


def less(whole, rest):
    return None if whole is None or rest is None else whole - rest


# ---- what a hasher finds alike


def crowding_of(given):
    return colliding.crowding(*given)


def crowded(words, value, rest, keys):
    """The pod file with that unnamed text of all by which the keys crowd most, as bytes."""
    texts = [compact({**value, "x": f"{number:03}"}).encode("utf-8") for number in range(UNNAMED)]
    digests = [colliding.digest_of(words, [it, *rest]) for it in texts]
    with concurrent.futures.ProcessPoolExecutor() as pool:
        found = list(pool.map(crowding_of, [(it, keys) for it in digests], chunksize=8))
    return texts[found.index(max(found))]


def tell_alike(program, name, alike, plain, keys):
    """The row of a pod file and a list whose names are alike, and of others; and of the first crowded by its keys."""
    (pods_alike, list_alike), (pods_plain, list_plain) = alike, plain
    net = compact(list_alike).encode("utf-8")
    runs = {it: [f"{it}.json", f"{it}.net.json"] for it in ("alike", "crowded", "plain")}
    files = {
        "alike.json": {**pods_alike, "x": "000"},
        "alike.net.json": net,
        "crowded.json": crowded(runs["crowded"], pods_alike, [net], keys),
        "crowded.net.json": net,
        "plain.json": {**pods_plain, "x": "000"},
        "plain.net.json": list_plain,
    }
    taken = least_in_turn(program, runs, files)
    tell(f"{name} that are alike", ratio(taken["alike"], taken["plain"]), 1.5)
    tell(f"{name} that are alike, the most crowded of {UNNAMED}", ratio(taken["crowded"], taken["plain"]), 1.5)


def namespaces(program, part):
    count = 10000 // part
    net = network_list("pods", bridge(subnet="10.0.0.0/8"))
    alike, plain = colliding.namespaces(count)
    keys = [colliding.text_key(it) for it in alike]
    tell_alike(program, f"an opening of {count} namespaces", (pods(alike), net), (pods(plain), net), keys)


def containers(program, part):
    count = 2000 // part
    network, alike, plain = colliding.containers(count)
    net = network_list(network, bridge(subnet="10.0.0.0/8"))
    keys = [colliding.text_key(network, it, ETH0) for it in alike]

    def added(names):
        adds = [command("ADD", network, it, space) for it, space in zip(names, spaces(count))]
        return pods(spaces(count), adds), net

    tell_alike(program, f"{count} ADDs of containers", added(alike), added(plain), keys)


def address_key(number, prefix):
    """The words of a network of the /64 whose addresses are alike: family, bits and prefix."""
    return [1, number, colliding.MULTIPLIER, *colliding.words_of(bytes([prefix]))]


def in_64(upper, number, prefix):
    return f"{upper}:0:0:{number >> 16:x}:{number & 0xFFFF:x}/{prefix}"


def one_add(ipam):
    """An ADD by this list."""
    return pods(spaces(1), [command("ADD", "pods", "c", spaces(1)[0])]), network_list("pods", ipam)


def routes(program, part):
    count = 2000 // part

    def of(upper):
        wanted = [{"dst": in_64(upper, number, 128)} for number in range(count)]
        return one_add(bridge(subnet="fd00::/64", routes=wanted))

    keys = [colliding.text_key("/ns/0") + address_key(it, 128) + colliding.text_key(ETH0) for it in range(count)]
    tell_alike(program, f"an ADD with {count} IPv6 routes", of(colliding.ALIKE_64), of(colliding.PLAIN_64), keys)


def sixes(program, part):
    count = 2000 // part

    def of(upper):
        return one_add(bridge(ranges=[[{"subnet": in_64(upper, 4 * number, 126)}] for number in range(count)]))

    keys = [colliding.text_key("/ns/0", ETH0) + address_key(4 * it + 2, 126)[:-1] for it in range(count)]
    tell_alike(program, f"an ADD with {count} IPv6 sets", of(colliding.ALIKE_64), of(colliding.PLAIN_64), keys)


def joined(program, _):
    """ADDs and CHECKs of attachments whose names joined are one text, against others."""
    alike, plain = colliding.joined()
    files, runs = {}, {}
    for kind, attachments in (("alike", alike), ("plain", plain)):
        commands = [
            {**command("ADD", network, container, space), "ifname": ifname}
            for (network, container, ifname), space in zip(attachments, spaces(len(attachments)))
        ]
        networks = dict.fromkeys(network for network, _, _ in attachments)
        lists = {f"{it}.json": network_list(it, bridge(subnet="10.0.0.0/8")) for it in networks}
        checks = [{**it, "verb": "CHECK"} for it in commands]
        files |= {f"{kind}.json": pods(spaces(len(attachments)), commands, checks), **lists}
        runs[kind] = [f"{kind}.json", *lists]
    taken = least_in_turn(program, runs, files)
    tell(f"{len(alike)} ADDs and CHECKs of names that are alike joined", ratio(taken["alike"], taken["plain"]), 1.5)


# ---- what is compared first


def ended(program, part):
    """Names that end alike, against as long ones that begin alike."""
    count = 10000 // part
    files = {
        "alike.json": pods([f"/ns/{number:05}/of-a-container" for number in range(count)]),
        "plain.json": pods([f"/ns/of-a-container/{number:05}" for number in range(count)]),
        "net.json": network_list("pods", bridge(subnet="10.0.0.0/8")),
    }
    taken = least_in_turn(program, {it: [f"{it}.json", "net.json"] for it in ("alike", "plain")}, files)
    tell(f"an opening of {count} namespaces that end alike", ratio(taken["alike"], taken["plain"]), 1.5)


def marked(program, part):
    """Routes whose addresses have halves of one sum, against others."""
    count = 2000 // part
    files = {}
    for kind, step in (("alike", 1), ("plain", 2)):
        upper, lower = 0xFD00 << 48, 1 << 40
        halves = [(upper + step * number, lower - number) for number in range(count)]
        wanted = [{"dst": f"{ipaddress.IPv6Address(high << 64 | low)}/128"} for high, low in halves]
        files[f"{kind}.json"], files[f"{kind}.net.json"] = one_add(bridge(subnet="fd01::/64", routes=wanted))
    runs = {it: [f"{it}.json", f"{it}.net.json"] for it in ("alike", "plain")}
    taken = least_in_turn(program, runs, files)
    tell(f"an ADD with {count} IPv6 routes whose halves have one sum", ratio(taken["alike"], taken["plain"]), 1.5)


# ---- many networks, and what was


def collections(program, part):
    """Of a network that has nothing, beside many attachments of another: ten times as many where so few take no more
    than a tenth of the ADDs before them, since then the difference is lost in the noise."""
    large, small, swept = 20000 // part, 2000 // part, 2000 // part
    added, of_large, of_small = swept_beside(program, large, small, swept)
    if of_large is not None and of_large < added / 10:
        swept *= 10
        added, of_large, of_small = swept_beside(program, large, small, swept)
    tell(f"{swept} GCs of nothing, beside {large} attachments against {small}", ratio(of_large, of_small), 2)


def swept_beside(program, large, small, swept):
    """The seconds of the many ADDs, and of so many GCs beside many attachments and beside few."""
    files = {f"{it}.net.json": network_list(it, bridge(subnet="10.0.0.0/8")) for it in ("pods", "none")}
    runs = {}
    for count in (large, small):
        adds = [command("ADD", "pods", f"c{it}", space) for it, space in enumerate(spaces(count))]
        files[f"{count}.json"] = pods(spaces(count), adds)
        files[f"{count}-gc.json"] = pods(spaces(count), adds, *alone([{"verb": "GC", "network": "none"}] * swept))
        runs |= {(count, it): [f"{count}{it}.json", "pods.net.json", "none.net.json"] for it in ("", "-gc")}
    taken = least_in_turn(program, runs, files)
    return taken[large, ""], *(less(taken[count, "-gc"], taken[count, ""]) for count in (large, small))


def removals(program, part):
    """Namespaces that go, against as many that come, each less the same without."""
    names = spaces(20000 // part)
    files = {"net.json": network_list("pods", bridge(subnet="10.0.0.0/8"))}
    files |= {"rest.json": pods(names), "none.json": NO_PODS}
    files["gone.json"] = pods(names, *alone({"verb": "NSDEL", "netns": it} for it in names))
    files["come.json"] = pods([], *alone({"verb": "NSADD", "netns": it} for it in names))
    runs = {it: [f"{it}.json", "net.json"] for it in ("gone", "rest", "come", "none")}
    taken = least_in_turn(program, runs, files)
    gone, come = less(taken["gone"], taken["rest"]), less(taken["come"], taken["none"])
    tell(f"{len(names)} NSDELs of what is there against as many NSADDs", ratio(gone, come), 2)


def by_turns(count):
    """So many attachments of 30 networks; then by turns a GC of one of 30 others, the end of a namespace with an
    attachment, and the end of a link that was there. The same without these."""
    names = spaces(count)
    adds = [command("ADD", f"n{it % 30}", f"c{it}", space) for it, space in enumerate(names)]
    opening = {"namespaces": names, "links": [{"name": "old", "kind": "device", "ns": it} for it in names]}
    changes = []
    for number, space in enumerate(names[: count // 9]):
        changes.append({"verb": "GC", "network": f"n{30 + number % 30}", "valid": []})
        changes.append({"verb": "NSDEL", "netns": space})
        changes.append({"verb": "DROP", "netns": names[-1 - number], "ifname": "old"})
    return {"opening": opening, "rounds": [adds, *alone(changes)]}, {"opening": opening, "rounds": [adds]}


def turns(program, part):
    large, small = 18000 // part, 1800 // part
    lists = {f"n{it}.json": network_list(f"n{it}", bridge(subnet="10.0.0.0/8")) for it in range(60)}
    files, runs = dict(lists), {}
    for count in (large, small):
        files[f"{count}.json"], files[f"{count}-rest.json"] = by_turns(count)
        runs |= {(count, it): [f"{count}{it}.json", *lists] for it in ("", "-rest")}
    taken = least_in_turn(program, runs, files)
    of_large, of_small = (less(taken[count, ""], taken[count, "-rest"]) for count in (large, small))
    tell_items("a GC, NSDEL, DROP by turns", (large, of_large), (small, of_small))


def ranges(program, part):
    count, many = 2000 // part, 1000
    names = spaces(count)
    adds = [command("ADD", "pods", f"c{it}", space) for it, space in enumerate(names)]
    files = {"adds.json": pods(names, adds), "none.json": pods(names)}
    subnets = [{"subnet": f"10.{it // 256}.{it % 256}.0/24"} for it in range(many)]
    files |= {"many.json": network_list("pods", bridge(ranges=[subnets]))}
    files |= {"one.json": network_list("pods", bridge(subnet="10.0.0.0/8"))}
    with in_folder(files) as folder:
        peaks = {(it, net): peak(program, [it, net], folder) for net in files for it in ("adds.json", "none.json")}
    of_many, of_one = (peaks["adds.json", net] - peaks["none.json", net] for net in ("many.json", "one.json"))
    tell(f"memory of {count} ADDs, {many} ranges a set against one", ratio(of_many, of_one), 1.5)


# ---- told besides


def sets(program, part):
    large, small = 65536 // part, 6554 // part
    for name in ("ascending", "descending", "shuffled"):
        files, runs = {}, {}
        for count in (large, small):
            subnets = [f"10.{it >> 14 & 255}.{it >> 6 & 255}.{(it & 63) << 2}/30" for it in range(count)]
            in_order = {"ascending": subnets, "descending": subnets[::-1]}
            listed = in_order.get(name) or random.Random(1).sample(subnets, count)
            commands = [command(verb, "pods", "c", "/ns/0") for verb in ("ADD", "DEL")]
            files[f"{count}.json"] = network_list("pods", bridge(ranges=[[{"subnet": it}] for it in listed]))
            files |= {"both.json": pods(spaces(1), *alone(commands)), "none.json": NO_PODS}
            runs |= {(count, it): [it, f"{count}.json"] for it in ("both.json", "none.json")}
        taken = least_in_turn(program, runs, files)
        of_large, of_small = (less(taken[count, "both.json"], taken[count, "none.json"]) for count in (large, small))
        tell_items(f"a set of an ADD and DEL, {name}", (large, of_large), (small, of_small))


def deep(number):
    return f'"x{number}":{"[" * DEEPEST}{"]" * DEEPEST},'


def doubled(_):
    return '"x":0,'


def texts(program, part):
    """Pod files of keys that mean nothing, each less one without them."""
    large, small = 8_000_000 // part, 800_000 // part
    for member in (deep, doubled):
        inside = {it: "".join(map(member, range(it // len(member(1000))))) for it in (large, small)}
        files = {f"{it}.json": f'{{{inside[it]}"rounds":[]}}'.encode("utf-8") for it in inside}
        files["none.json"] = NO_PODS
        taken = least_in_turn(program, {it: [it] for it in files}, files)
        of_large, of_small = (less(taken[f"{it}.json"], taken["none.json"]) for it in (large, small))
        tell_items(f"a byte of {member.__name__} JSON", (large, of_large), (small, of_small))


def passed(program, words):
    start = time.monotonic()
    subprocess.run([program, *words], stdout=subprocess.DEVNULL, check=False, timeout=MOST_SECONDS)
    return time.monotonic() - start


def of_both(builds, words, folder, count):
    """The least seconds of the program over those of the version before, run in turn; none where one isn't over in
    time."""
    times = [[seconds(it, words, folder) for it in builds] for _ in range(count)]
    ours, before = zip(*times)
    return None if None in (*ours, *before) else ratio(min(ours), min(before))


def generated(program, part, before):
    word = f"gen:{10000 // part}"
    if before:
        builds = (program, before)
        found = of_both(builds, [word], os.curdir, RUNS_OF_BOTH)
        tell(f"{word} against the version before", found, "no more")
        memory = ratio(*(peak(it, [word], os.curdir) for it in builds))
        tell(f"memory of {word} against the version before", memory, "no more")
    each = [(passed(program, [word]), passed(program, ["--threads", "4", word])) for _ in range(RUNS)]
    one, four = (statistics.median(it) for it in zip(*each))
    tell(f"{word} with four threads against one, by medians of the time that passes", four / one)


def others(program, part, before):
    """Each input of the other benchmarks on both builds in turn."""
    for name, words, files in words_and_files(part) if before else []:
        with in_folder(files) as folder:
            found = of_both((program, before), words, folder, RUNS_OF_BOTH)
            tell(f"{name}, against the version before", found, 1.15)


ROWS = (namespaces, containers, routes, sixes, joined, ended, marked, collections, removals, turns, ranges, sets, texts)


def main():
    program = program_of(sys.argv[1:2])
    before = program_of(sys.argv[2:3]) if len(sys.argv) > 2 and sys.argv[2] != "-" else None
    part = int(sys.argv[3]) if len(sys.argv) > 3 else 1
    for row in ROWS:
        if row.__name__ in sys.argv[4:] or not sys.argv[4:]:
            row(program, part)
    for row in (generated, others):
        if row.__name__ in sys.argv[4:] or not sys.argv[4:]:
            row(program, part, before)


if __name__ == "__main__":
    main()
