"""Session files drawn at random: the three plugins with options right and wrong, no pools, one range set or two, small
and large, containers that share namespaces, stops and faults at any call, and what stands in the way."""

SPACES = ["/ns/a", "/ns/b"]
# a container with its namespace; those of one namespace are in each other's way where they ask for one interface name
CONTAINERS = [("c1", "/ns/a"), ("c2", "/ns/b"), ("c3", "/ns/a"), ("c-4.x", "/ns/b")]
LINKS = [{"name": "eth1", "kind": "device"}, {"name": "br0", "kind": "bridge", "mtu": 900}]
IN_THE_WAY = [{"name": "eth0", "kind": "device", "ns": "/ns/a"}, {"name": "eth9", "kind": "device", "ns": "/ns/b"}]
TWO = [{"subnet": "10.9.0.0/30"}, {"subnet": "10.9.1.0/29", "rangeStart": "10.9.1.3", "gateway": "10.9.1.4"}]
SIX = [{"subnet": "fd00::/125", "rangeEnd": "fd00::4"}]
# one address
LEAST = [{"subnet": "fd00::/126"}]
WIDE = {"subnet": "10.9.0.0/16", "rangeStart": "10.9.255.253", "rangeEnd": "10.9.255.255", "gateway": "192.0.2.1"}
POOLS = [
    None,
    {},
    {"type": "host-local", "subnet": "10.9.0.0/30"},
    {"type": "host-local", "subnet": "10.9.0.0/29", "ranges": [LEAST], "routes": [{"dst": "0.0.0.0/0"}]},
    {"type": "host-local", "ranges": [TWO]},
    {"type": "host-local", "ranges": [TWO, SIX]},
    {"type": "host-local", "subnet": "fd00:1::/64", "ranges": [[WIDE]]},
    {"type": "host-local", **WIDE, "ranges": [LEAST]},
]
FROM = ["192.0.2.1", "192.0.2.1", "fd00::1", "FD00:0::1", "::ffff:192.0.2.1"]
MTUS = ["68", "1400", "65535"]
MASTERS = ["eth1", "eth1", "eth1", "br0", "eth9", "eth0", "abcdefghijklmno"]
IDS = ["1", "5", "4094"]
RIGHT = {
    "guard": lambda rng: {"from": rng.choice(FROM)},
    "dummy": lambda rng: {"mtu": rng.choice(MTUS)} if rng.random() < 0.4 else {},
    "vlan": lambda rng: {"master": rng.choice(MASTERS), "vlanId": rng.choice(IDS), **RIGHT["dummy"](rng)},
}
WRONG_OPTIONS = {
    "from": [None, "", "192.0.2.1/32", "fe80::1%1", "10.0.0.01"],
    "master": [None, "", "a/b", "abcdefghijklmnop"],
    "vlanId": [None, "0", "007", "4095", "+1"],
    "mtu": ["", "67", "068", "65536", "1500 "],
}
UNNAMED = [{}, {"zzz": ""}, {"aaa": "x", "name": None}]
WRONG_WORDS = [
    {"container": "-c"},
    {"container": None},
    {"netns": ""},
    {"netns": "/ns/none"},
    {"ifname": "a/b"},
    {"ifname": "abcdefghijklmno"},
    {"ifname": "abcdefghijklmnop"},
    {"ifname": "", "container": "c 1"},
]
# what becomes of an attachment, verb by verb
SCENES = [
    ["ADD"],
    ["ADD", "CHECK"],
    ["ADD", "DEL", "CHECK"],
    ["ADD", "DEL", "CHECK", "DEL"],
    ["ADD", "GC", "CHECK"],
    ["ADD", "GC", "GC"],
    ["ADD", "ADD", "CHECK"],
    ["DEL", "DEL"],
    ["CHECK", "DEL", "CHECK"],
]
# a GC that takes leases, but not the first link, and no cached result
HALF_SWEPT = {"faults": [2, 9], "stop": 9}
# no attachment of the network
STRANGERS = [{"containerID": "", "ifname": "/"}, {"containerID": "c1", "ifname": "eth7"}]


def broken_off(rng, part):
    """A stop, faults, both or neither."""
    stop = {"stop": rng.randrange(rng.randrange(1, 10))} if rng.random() < part / 2 else {}
    faults = {"faults": rng.choices(range(1, 9), k=rng.randrange(1, 4))} if rng.random() < part else {}
    return {**stop, **faults}


def configuration(rng):
    """The `type` and the options of an ADD."""
    kind = rng.choice(sorted(RIGHT))
    options = {**RIGHT[kind](rng), **rng.choice(UNNAMED)}
    if rng.random() < 0.15:
        options |= {key: rng.choice(them) for key, them in WRONG_OPTIONS.items() if rng.random() < 0.5}
    return {"type": "none" if rng.random() < 0.03 else kind, "options": options}


def attachment(rng, containers):
    container, netns = rng.choice(containers)
    return {"container": container, "netns": netns, **rng.choice([{}, {"ifname": "eth0"}, {"ifname": "eth2"}])}


def valid_of(rng, attachments):
    kept = [it for it in attachments if rng.random() < 0.5]
    named = [{"containerID": it["container"], "ifname": it.get("ifname", "eth0")} for it in kept]
    return [*named, *(STRANGERS if rng.random() < 0.2 else [])]


def words(rng, verb, attachments, own):
    """The words of a task of an attachment."""
    if verb == "GC":
        return {"valid": valid_of(rng, attachments)} if rng.random() < 0.9 else {}
    wrong = rng.choice(WRONG_WORDS) if rng.random() < 0.06 else {}
    unused = {"type": "none", "netns": "/ns/none"} if rng.random() < 0.2 else {}
    return {**own, **(configuration(rng) if verb == "ADD" else unused), **wrong}


def scene(rng, attachments):
    """Tasks of one attachment; the last but one is often broken off."""
    own, verbs = rng.choice(attachments), rng.choice(SCENES)
    for place, verb in enumerate(verbs, 2):
        broken = broken_off(rng, 0.5 if place == len(verbs) else 0.15)
        half = HALF_SWEPT if verb == "GC" and rng.random() < 0.2 else {}
        yield {"verb": verb, **broken, **half, **words(rng, verb, attachments, own)}


def drawn(rng):
    """A session file."""
    containers = CONTAINERS[: rng.randrange(1, 5)]
    attachments = [attachment(rng, containers) for _ in range(rng.randrange(2, 5))]
    spaces = SPACES[: 1 if rng.random() < 0.1 else 2]
    in_the_way = [it for it in IN_THE_WAY if it["ns"] in spaces and rng.random() < 0.15]
    links = [*(it for it in LINKS if rng.random() < 0.9), *in_the_way]
    tasks = [each for _ in range(rng.randrange(2, 6)) for each in scene(rng, attachments)]
    opening = {"namespaces": spaces, "links": links}
    return {"network": rng.choice(["s", "net-1.x"]), "ipam": rng.choice(POOLS), "opening": opening, "tasks": tasks}
