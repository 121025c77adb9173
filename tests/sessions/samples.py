"""Two sessions in which each sentence of the law says something."""

SPACES = {"c1": "/ns/a", "c2": "/ns/b"}
OPENING = {"namespaces": ["/ns/a", "/ns/b"], "links": [{"name": "eth1", "kind": "device"}]}
FROM = {"type": "guard", "options": {"from": "192.0.2.1"}}


def task(verb, container, **more):
    return {"verb": verb, "container": container, "netns": SPACES[container], **more}


def vlan(master):
    return {"type": "vlan", "options": {"master": master, "vlanId": "100", "mtu": "1400"}}


def sample(ranges, *tasks):
    return {"network": "s", "ipam": {"type": "host-local", "ranges": ranges}, "opening": OPENING, "tasks": [*tasks]}


# the second pool has one address
TWO_POOLS = sample(
    [[{"subnet": "10.9.0.0/29"}], [{"subnet": "fd00::/126"}]],
    task("ADD", "c1", type="dummy"),
    task("ADD", "c2", **vlan("eth1")),
    task("CHECK", "c1"),
    task("ADD", "c1", **FROM),
    task("DEL", "c1", faults=[4]),
    task("CHECK", "c1"),
    task("DEL", "c1"),
    task("ADD", "c1", type="dummy", stop=4),
    {"verb": "GC"},
)
ONE_POOL = sample(
    [[{"subnet": "10.9.0.0/29"}]],
    task("ADD", "c1", **FROM),
    task("ADD", "c2", **FROM),
    task("DEL", "c2"),
    task("DEL", "c2"),
    task("DEL", "c1"),
    task("ADD", "c1", type="dummy"),
    task("DEL", "c1"),
    task("ADD", "c1", type="dummy"),
    task("ADD", "c1", ifname="eth2", **vlan("eth1")),
    task("ADD", "c2", **vlan("eth7")),
    {"verb": "GC", "valid": [{"containerID": "c1", "ifname": "eth0"}]},
)
SAMPLES = [TWO_POOLS, ONE_POOL]
