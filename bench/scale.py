#!/usr/bin/env python3
"""Times one large thing at two sizes on the program, and prints ratios within this one run. It is no test.

    scale.py [PROGRAM [SMALL LARGE]]

Sizes are 2,000 and 20,000 where none is named. Each row is the processor's time for one item at the large size over
that at the small one, each less the time of the same files without what is timed:

- mappings:  one ADD with so many port mappings;
- routes:    one ADD with so many routes;
- collected: a GC that keeps every second of so many attachments of one network, an attachment each.

The last row is an opening of three times as many namespaces as the large size and as many links as that, over the same
bytes read as JSON alone, which is what the program does with them inside one pair of brackets. What isn't over within
MOST_SECONDS is ended, and no figure is given.
"""
import sys

from rounds import seconds
from program import NO_PODS, bridge, command, compact, least, network_list, program_of

RUNS = 5
NET = network_list("pods", bridge(subnet="10.0.0.0/8"))


def names(count):
    return {"namespaces": [f"/ns/{i}" for i in range(count)]}


def mappings(count):
    """A list with `portmap`, and an ADD with so many mappings, or none."""
    mapped = [
        {"containerPort": 1 + i % 60000, "hostPort": 1 + i, "protocol": "udp" if i % 2 else "tcp"} for i in range(count)
    ]
    first = bridge(subnet="10.0.0.0/8")
    listed = network_list("pods", first, {"type": "portmap", "capabilities": {"portMappings": True}})
    with_them = {**command("ADD", "pods", "c", "/ns/0"), "portMappings": mapped}
    without = command("ADD", "pods", "c", "/ns/0")
    opening = names(1)
    return (
        {"pods.json": {"opening": opening, "rounds": [[with_them]]}, "net.json": listed},
        {"pods.json": {"opening": opening, "rounds": [[without]]}, "net.json": listed},
    )


def routes(count):
    """A list with so many routes and an ADD, and the same list without the ADD."""
    wanted = [{"dst": f"20.{i // 256}.{i % 256}.0/24"} for i in range(count)]
    listed = network_list("pods", bridge(subnet="10.0.0.0/8", routes=wanted))
    opening = names(1)
    return (
        {"pods.json": {"opening": opening, "rounds": [[command("ADD", "pods", "c", "/ns/0")]]}, "net.json": listed},
        {"pods.json": {"opening": opening, "rounds": []}, "net.json": listed},
    )


def collected(count):
    """So many ADDs and a GC that keeps every second, and the same without the GC."""
    added = [command("ADD", "pods", f"c{i}", f"/ns/{i}") for i in range(count)]
    valid = [{"containerID": f"c{i}", "ifname": "eth0"} for i in range(0, count, 2)]
    swept = {"verb": "GC", "network": "pods", "valid": valid}
    return (
        {"pods.json": {"opening": names(count), "rounds": [added, [swept]]}, "net.json": NET},
        {"pods.json": {"opening": names(count), "rounds": [added]}, "net.json": NET},
    )


def an_item(program, kind, count, of_one):
    """The time for one of so many items; none where a run isn't over in time."""
    whole, rest = (least(RUNS, of_one, program, files) for files in kind(count))
    return None if whole is None or rest is None else (whole - rest) / count


def tell(program, kind, small, large, of_one=seconds):
    """Prints the row of what an item takes of so many, by the seconds of one run."""
    of_small, of_large = (an_item(program, kind, count, of_one) for count in (small, large))
    name = kind.__name__
    if of_small is None or of_large is None:
        print(f"{name:10} not over in time", flush=True)
    else:
        print(f"{name:10} {of_large * 1e6:8.2f} us an item, x{of_large / of_small:.2f} of N={small}", flush=True)


def opened(count):
    """An opening of so many links, and of three times as many namespaces."""
    links = [{"name": f"ens{i}", "kind": "device"} for i in range(count)]
    return {"opening": {**names(3 * count), "links": links}, "rounds": []}


def opening_over_json(program, count):
    """The time for an opening over that for its JSON."""

    def timed(files):
        return least(RUNS, seconds, program, files)

    pods = opened(count)
    read = timed({"pods.json": pods, "net.json": NET})
    alone = timed({"pods.json": f"[{compact(pods)}]".encode(), "net.json": NET})
    none = timed({"pods.json": NO_PODS, "net.json": NET})
    return None if read is None or alone is None else (read - none) / (alone - none)


def main():
    program = program_of(sys.argv[1:])
    small, large = [int(it) for it in sys.argv[2:]] or [2000, 20000]
    for kind in (mappings, routes, collected):
        tell(program, kind, small, large)
    print(f"opening    x{opening_over_json(program, large):.2f} of its JSON", flush=True)


if __name__ == "__main__":
    main()
