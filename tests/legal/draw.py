"""Pod files drawn at random, on network lists of a table or drawn too: all verbs, stops, faults, fields that are
refused, small pools, and networks that share a bridge, an interface name or a subnet."""

import pathlib
import sys

sys.path.insert(0, str(pathlib.Path(__file__).resolve().parent.parent))

from networks import network
from program import bridge, network_list

PORTMAP = {"type": "portmap", "capabilities": {"portMappings": True}}
FIREWALL = {"type": "firewall"}
TUNING = {"type": "tuning", "sysctl": {"net.core.somaxconn": "500", "net.a": "1"}, "mac": "02:AB:00:00:00:01"}
BOTH = [[{"subnet": "10.88.0.0/30"}, {"subnet": "10.88.0.8/30"}], [{"subnet": "fd00:88::/126"}]]
DEFAULT = [{"dst": "0.0.0.0/0"}]
GATEWAY = {"isDefaultGateway": True, "ipMasq": True, "hairpinMode": True}
PTP = {"type": "ptp", "ipMasq": True, "ipam": bridge(subnet="10.4.0.0/24", routes=DEFAULT)["ipam"]}
SIX_FIRST = bridge(subnet="fd00:4::/64", ranges=[[{"subnet": "10.4.0.0/29"}]])["ipam"]
DUAL_PTP = {"type": "ptp", "mtu": 1400, "ipam": SIX_FIRST}
MACVLAN = {"type": "macvlan", "master": "eth1", "mode": "vepa", "ipam": bridge(ranges=BOTH)["ipam"]}
PODMAN = {**bridge(subnet="10.89.0.0/24"), **GATEWAY}
LISTS = [
    network_list("pods", bridge(subnet="10.88.0.0/16")),
    network_list("small", {**bridge(subnet="10.1.0.0/29"), "isGateway": True}),
    network_list("two", {**bridge(ranges=BOTH, routes=DEFAULT), **GATEWAY}),
    {**network_list("podman", PODMAN, PORTMAP, FIREWALL, TUNING), "cniVersion": "1.0.0"},
    network_list("dual", {**bridge(ranges=BOTH), **GATEWAY}, PORTMAP, FIREWALL, {"type": "tuning", "promisc": True}),
    {**network_list("old", bridge(subnet="10.7.0.0/24"), FIREWALL), "cniVersion": "0.4.0", "disableCheck": "true"},
    network_list("link", PTP, TUNING),
    network_list("both", DUAL_PTP, {**PORTMAP, "snat": False}),
    network_list("over", MACVLAN, {"type": "tuning", "mtu": 1300, "txQLen": 5}),
    network_list("bare", {"type": "bridge", "promiscMode": True}, TUNING, FIREWALL),
    {**network_list("kept", {**bridge(subnet="10.1.0.0/29"), "mtu": 9000}, PORTMAP), "disableGC": True},
]
# what the opening has: mostly a master, and at times what stands where a bridge is to be
MASTER = {"name": "eth1", "kind": "device"}
IN_THE_WAY = [{"name": "cni0", "kind": "device"}, {"name": "cni0", "kind": "bridge", "mtu": 900}]
SPACES = ["/ns/a", "/ns/b", "/ns/c", "/ns/d"]
CONTAINERS = ["c1", "c2", "c3", "c4", "c5"]
# what each run is to print besides answers
ASKED = ["--trace", "--dump", "--requests"]
# how often each verb is drawn, of those that may share a round and of those that may not
TOGETHER = {"ADD": 12, "DEL": 6, "CHECK": 4, "VERSION": 1}
ALONE = {"GC": 4, "STATUS": 2, "NSADD": 1, "NSDEL": 2, "DROP": 2, "FLUSH": 1}
VERBS = {**TOGETHER, **ALONE}
OUTSIDE = ["NSDEL", "DROP", "FLUSH"]
WRONG = [
    {"container": "-c"},
    {"netns": ""},
    {"ifname": "a/b"},
    {"args": "K"},
    {"args": "K=V;IP=10.0.0.9"},
    {"portMappings": [{"hostPort": 0, "containerPort": 80}]},
]


def mapping(rng):
    host = rng.choice([{}, {}, {"hostIP": "10.0.0.1"}, {"hostIP": "FD00::1"}, {"hostIP": "::"}])
    ports = {"hostPort": rng.choice([8080, 8081]), "containerPort": rng.choice([80, 443])}
    return {**ports, "protocol": rng.choice(["tcp", "udp"]), **host}


def broken_off(rng):
    """A stop, faults, both or neither."""
    stop = {"stop": rng.randrange(20)} if rng.random() < 0.15 else {}
    faults = {"faults": rng.sample(range(1, 30), rng.randrange(1, 4))} if rng.random() < 0.15 else {}
    return {**stop, **faults}


def attachment(rng, lists):
    place, number = rng.randrange(len(CONTAINERS)), rng.randrange(len(lists))
    names = {"container": CONTAINERS[place], "netns": (SPACES + SPACES)[place]}
    return {"network": lists[number]["name"], **names, "ifname": f"eth{number if rng.random() < 0.8 else 0}"}


def command(rng, verb, lists, attachments):
    told = {"verb": verb, **broken_off(rng)}
    if verb in ("NSADD", "NSDEL"):
        return {**told, "netns": rng.choice([*SPACES, "/ns/z"])}
    if verb == "DROP":
        return {**told, "netns": rng.choice(SPACES), "ifname": rng.choice(["eth0", "eth0", "eth1", "eth2"])}
    if verb == "FLUSH":
        return {**told, "table": rng.choice(["nat", "filter"])}
    if verb in ("GC", "STATUS"):
        told["network"] = rng.choice(lists)["name"]
        kept = [it for it in attachments if rng.random() < 0.5]
        return {**told, "valid": [{"containerID": it["container"], "ifname": it["ifname"]} for it in kept]}
    told |= rng.choice(attachments)
    if rng.random() < 0.5:
        told["portMappings"] = [mapping(rng) for _ in range(rng.randrange(3))]
    return {**told, **(rng.choice(WRONG) if rng.random() < 0.04 else {})}


def a_round(rng, *of):
    verb = rng.choices(list(VERBS), VERBS.values())[0]
    if verb in ALONE:
        return [command(rng, verb, *of)]
    verbs = [verb, *(rng.choice(["ADD", "ADD", "ADD", "DEL", "DEL", "CHECK"]) for _ in range(rng.randrange(5)))]
    return [command(rng, it, *of) for it in verbs]


def rounds_of(rng, lists, attachments):
    """A round, and after a change from outside mostly CHECKs of all attachments."""
    first = a_round(rng, lists, attachments)
    changed = first[0]["verb"] in OUTSIDE and rng.random() < 0.7
    return [first, [{"verb": "CHECK", **it} for it in attachments]] if changed else [first]


def lists_of(rng):
    """Lists of the table, or drawn by themselves."""
    if rng.random() < 0.5:
        return rng.sample(LISTS, rng.randrange(2, 4))
    return [network(rng, name) for name in ["one", "two", "three"][: rng.randrange(2, 4)]]


def drawn(rng):
    """Words and files of a run."""
    lists = lists_of(rng)
    links = [MASTER] * (rng.random() < 0.8) + [rng.choice(IN_THE_WAY)] * (rng.random() < 0.2)
    attachments = [attachment(rng, lists) for _ in range(rng.randrange(3, 9))]
    rounds = [it for _ in range(rng.randrange(3, 14)) for it in rounds_of(rng, lists, attachments)]
    opening = {"namespaces": SPACES[: rng.choice([3, 4, 4, 4])], "links": links}
    lists_by_file = {f"list{number}.json": it for number, it in enumerate(lists)}
    files = {"pods.json": {"opening": opening, "rounds": rounds}, **lists_by_file}
    stopped = ["--stop-at", str(rng.randrange(1, 120))] if rng.random() < 0.3 else []
    return ["--threads", str(rng.randrange(1, 17)), *stopped, *ASKED, *files], files
