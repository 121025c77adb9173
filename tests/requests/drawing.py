"""Network lists and pod files drawn at random for the requests of a run: no command is broken off."""

import pathlib
import sys

sys.path.insert(0, str(pathlib.Path(__file__).resolve().parent.parent / "legal"))

from networks import chance, network, spelled

NAMES = ["one", "2", "a.b-c_d"]
SPACES = ["/ns/a", "b", "/ns/é\n\"", "/ns/😀 \u2028"]
CONTAINERS = ["c1", "c2", "C.3-_"]
INTERFACES = ["eth0", "eth0", "eth1", "é1", "\"\\"]
# each with exactly one `=` and a key, or refused
ARGUMENTS = ["", "", "", "", "A=b", "K=é;L=", "\"=\\;x=\x00", "A", "IP=10.1.0.2"]
HOSTS = [{}, {"hostIP": ""}, {"hostIP": "0.0.0.0"}, {"hostIP": "::"}, {"hostIP": "10.0.0.1"}, {"hostIP": "FD00:0::1"}]
PROTOCOLS = [{}, {"protocol": ""}, {"protocol": "tcp"}, {"protocol": "udp"}, {"protocol": "sctp"}]
VERBS = {"ADD": 40, "DEL": 15, "CHECK": 15, "GC": 8, "STATUS": 6, "VERSION": 2, "NSDEL": 2, "FLUSH": 2}
COMMANDS = 14


def mapping(rng):
    ports = {"hostPort": rng.choice([1, 8080, 65535]), "containerPort": rng.choice([80, 443])}
    return {**ports, **rng.choice(PROTOCOLS), **rng.choice(HOSTS)}


def valid(rng, attachments):
    """Of the attachments mostly each, and one of another name."""
    kept = [{"containerID": it["container"], "ifname": it["ifname"]} for it in attachments if chance(rng, 0.8)]
    return [*kept, {"containerID": rng.choice(["", "é/", "c"]), "ifname": rng.choice(["", "eth0", "\n"])}]


def attachment(rng, networks):
    names = {"container": rng.choice(CONTAINERS), "ifname": rng.choice(INTERFACES)}
    return {"network": rng.choice(networks), **names}


def command(rng, verb, attachments):
    if verb == "NSDEL":
        return {"verb": verb, "netns": rng.choice(SPACES)}
    if verb == "FLUSH":
        return {"verb": verb, "table": rng.choice(["nat", "filter"])}
    names = rng.choice(attachments)
    told = {"verb": verb, "network": names["network"]}
    if verb == "GC":
        return {**told, **({"valid": valid(rng, attachments)} if chance(rng, 0.8) else {})}
    if verb in ("STATUS", "VERSION"):
        return told
    mappings = {"portMappings": [mapping(rng) for _ in range(rng.randrange(3))]} if chance(rng, 0.7) else {}
    return {**told, **names, "netns": rng.choice(SPACES), **mappings, "args": rng.choice(ARGUMENTS)}


def drawn(rng):
    """Words, files as bytes, and the same files as values."""
    lists = [network(rng, it) for it in rng.sample(NAMES, rng.randrange(1, 4))]
    names = [it["name"] for it in lists]
    verbs = rng.choices(list(VERBS), VERBS.values(), k=COMMANDS)
    attachments = [attachment(rng, names) for _ in range(rng.randrange(1, 4))]
    rounds = [[command(rng, it, attachments)] for it in verbs]
    opening = {"namespaces": SPACES, "links": [{"name": "eth1", "kind": "device"}]}
    values = {"pods.json": {"opening": opening, "rounds": rounds}}
    values |= {f"list{place}.json": it for place, it in enumerate(lists)}
    files = {name: spelled(rng, it).encode("utf-8") for name, it in values.items()}
    return ["--requests", *values], files, values
