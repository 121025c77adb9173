"""Network lists, pod files and packets drawn at random: subnets that overlap, published ports that clash, host
addresses that restrict or don't, crashes, faults, and changes from outside."""

import ipaddress

SUBNETS = {
    4: ["10.1.0.0/29", "10.1.0.8/29", "10.1.0.0/24", "10.2.0.0/29", "224.0.0.0/29"],
    6: ["fd00:1::/125", "fd00:1::/64", "fd00:2::/125", "ff02::/125"],
}
# two sets that cut one subnet
CUT = [
    [{"subnet": "10.1.0.0/24", "rangeEnd": "10.1.0.3"}],
    [{"subnet": "10.1.0.0/24", "rangeStart": "10.1.0.4"}],
]
HOST_ADDRESSES = ["", "", "", "0.0.0.0", "::", "0::0", "198.51.100.1", "2001:db8::1", "10.1.0.2"]
# where packets come from and go to: in subnets, outside, published, to many, none
PLACES = {
    4: "10.1.0.2 10.1.0.3 10.1.0.4 10.1.0.7 10.1.0.10 10.1.0.200 10.2.0.2 10.2.0.3 192.0.2.7 198.51.100.1 224.0.0.2 "
    "224.0.0.9 224.1.1.1 127.0.0.1 0.0.0.0".split(),
    6: "fd00:1::2 fd00:1::3 fd00:1::7 fd00:1::100 fd00:2::2 2001:db8::1 ff02::2 ff02::5 ff0e::1 ::1 ::".split(),
}
SPACES = [f"/ns/{number}" for number in range(5)]
VERBS = {"ADD": 72, "DEL": 14, "CHECK": 5, "GC": 4, "NSDEL": 3, "FLUSH": 2}
PACKETS = 40


def chance(rng, part):
    return rng.random() < part


def sets_of(rng):
    """Range sets that don't overlap."""
    if chance(rng, 0.15):
        return CUT
    found = []
    for _ in range(rng.choice([1, 1, 1, 2, 2, 3])):
        subnet = ipaddress.ip_network(rng.choice(SUBNETS[4 if chance(rng, 0.6) else 6]))
        if not any(subnet.version == it.version and subnet.overlaps(it) for it in found):
            found.append(subnet)
    return [[{"subnet": str(it)}] for it in found]


def first_plugin(rng):
    kind = rng.choice(["bridge", "bridge", "ptp", "macvlan"])
    conf = {"type": kind, **({"master": "eth1"} if kind == "macvlan" else {"ipMasq": chance(rng, 0.6)})}
    if kind == "bridge":
        conf["isGateway"] = chance(rng, 0.5)
    if kind == "ptp" or chance(rng, 0.9):
        conf["ipam"] = {"type": "host-local", "ranges": sets_of(rng)}
    return conf


def list_of(rng, name):
    takes = {"portMappings": chance(rng, 0.85)}
    portmap = {"type": "portmap", "capabilities": takes, "snat": chance(rng, 0.6)}
    offered = [(0.75, portmap), (0.6, {"type": "firewall"}), (0.2, {"type": "tuning", "mtu": 1400})]
    chained = [it for part, it in offered if chance(rng, part)]
    rng.shuffle(chained)
    return {"cniVersion": "1.1.0", "name": name, "plugins": [first_plugin(rng), *chained]}


def mapping(rng):
    ports = {"hostPort": rng.choice([80, 8080, 8081]), "containerPort": rng.choice([80, 81, 8080])}
    return {**ports, "protocol": rng.choice(["tcp", "tcp", "udp", ""]), "hostIP": rng.choice(HOST_ADDRESSES)}


def fields_of(rng, verb):
    if verb == "FLUSH":
        return {"table": rng.choice(["nat", "filter"])}
    if verb == "NSDEL":
        return {"netns": rng.choice(SPACES)}
    container, ifname = rng.choice(["c0", "c1", "c2", "c3"]), rng.choice(["eth0", "eth0", "eth1"])
    if verb == "GC":
        return {"valid": [{"containerID": container, "ifname": ifname}]}
    named = {"container": container, "ifname": ifname}
    if verb != "ADD":
        return named
    return {**named, "netns": rng.choice(SPACES), "portMappings": [mapping(rng) for _ in range(rng.randrange(5))]}


def command(rng, networks):
    verb = rng.choices(list(VERBS), VERBS.values())[0]
    told = {"verb": verb, **fields_of(rng, verb)}
    if verb not in ("FLUSH", "NSDEL"):
        told["network"] = rng.choice(networks)
    if verb in ("ADD", "DEL", "GC"):
        told |= {"stop": rng.randrange(20)} if chance(rng, 0.08) else {}
        told |= {"faults": [rng.randrange(1, 20)]} if chance(rng, 0.06) else {}
    return told


def packet(rng):
    places = PLACES[4 if chance(rng, 0.6) else 6]
    state = {"established": True} if chance(rng, 0.25) else {}
    ends = {"src": rng.choice(places), "dst": rng.choice(places)}
    protocol, port = rng.choice(["tcp", "tcp", "udp", "sctp"]), rng.choice([80, 81, 8080, 8081])
    return {"protocol": protocol, **ends, "dport": port, **state}


def drawn(rng):
    """Network lists, a pod file and packets."""
    networks = ["n1", "n2", "n3"][: rng.choice([1, 2, 2, 3])]
    lists = [list_of(rng, it) for it in networks]
    opening = {"namespaces": SPACES, "links": [{"name": "eth1", "kind": "device"}]}
    rounds = [[command(rng, networks)] for _ in range(rng.choice([1, 2, 3, 4, 6, 8]))]
    return lists, {"opening": opening, "rounds": rounds}, [packet(rng) for _ in range(PACKETS)]
