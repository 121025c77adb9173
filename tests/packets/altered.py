"""A complete host with packets, and what is altered of them in one thing: fates that it doesn't come to, hosts that no
run leads to, and hosts that aren't complete."""

import pathlib
import sys

sys.path.insert(0, str(pathlib.Path(__file__).resolve().parent.parent))

from program import bridge, command, network_list

OUTSIDE, HOST = "192.0.2.7", "198.51.100.1"
# the addresses of two attachments, and another of the first one's subnet
ONE, TWO, NEAR = "10.1.0.2", "10.2.0.2", "10.1.0.9"
PORTMAP = {"type": "portmap", "capabilities": {"portMappings": True}}
PACKETS = [
    (OUTSIDE, HOST, 80),
    (OUTSIDE, HOST, 81),
    (ONE, OUTSIDE, 81),
    (ONE, NEAR, 81),
    (ONE, "224.0.0.9", 81),
    (OUTSIDE, ONE, 81),
    (OUTSIDE, TWO, 81),
]


def sample():
    """Its network lists, its pod file and its packets: two attachments publish one port, and the first lets through."""
    open_list = network_list("open", {**bridge(subnet="10.1.0.0/24"), "ipMasq": True}, PORTMAP, {"type": "firewall"})
    shut_list = network_list("shut", {**bridge(subnet="10.2.0.0/24"), "ipMasq": True}, PORTMAP)
    published = {"portMappings": [{"hostPort": 80, "containerPort": 8080}]}
    rounds = [[{**command("ADD", name, "c", f"/ns/{name}"), **published}] for name in ("open", "shut")]
    pods = {"opening": {"namespaces": ["/ns/open", "/ns/shut"]}, "rounds": rounds}
    packets = [{"protocol": "tcp", "src": src, "dst": dst, "dport": port} for src, dst, port in PACKETS]
    later = [{**packets[place], "established": True} for place in (5, 0)]
    return [open_list, shut_list], pods, [*packets, *later]


def with_members(values, place, **members):
    return [*values[:place], {**values[place], **members}, *values[place + 1 :]]


def wrong_fates(fates):
    """Fates of the packets on that host, as some other program could print them."""
    yield "a published port isn't sent on", with_members(fates, 0, rewritten=False, dst=HOST, dport=80)
    yield "it is sent to another attachment", with_members(fates, 0, dst=TWO)
    yield "it is sent to another port", with_members(fates, 0, dport=80)
    yield "a port that nobody publishes is sent on", with_members(fates, 1, rewritten=True, dst=ONE)
    yield "what leaves isn't masqueraded", with_members(fates, 2, masqueraded=False)
    yield "what stays in the subnet is masqueraded", with_members(fates, 3, masqueraded=True)
    yield "what goes to many is masqueraded", with_members(fates, 4, masqueraded=True)
    yield "a new connection is let in", with_members(fates, 5, accepted=True)
    yield "an answer isn't let in", with_members(fates, 7, accepted=False)
    yield "an established connection is sent on", with_members(fates, 8, rewritten=True, dst=ONE, dport=8080)


def rules_of(objects, **members):
    return [it for it in objects if it["kind"] == "rule" and members.items() <= it.items()]


def before_rules(objects, rule):
    """The objects, with that rule before all others."""
    place = objects.index(rules_of(objects)[0])
    return [*objects[:place], rule, *objects[place:]]


def wrong_hosts(objects):
    """Hosts that have all that their cached results want, and a rule that nobody wants besides."""
    published = rules_of(objects, chain="CNI-HOSTPORT-DNAT")[0]
    within, leaving = rules_of(objects, chain="CNI-MASQ", tag="open/c/eth0")
    allowed = rules_of(objects, chain="CNI-FORWARD", established=True)[0]
    always = {key: it for key, it in allowed.items() if key != "established"}
    anywhere = {key: it for key, it in leaving.items() if key not in ("dst", "not_dst")}
    yield "another port is published", before_rules(objects, {**published, "dport": 81})
    yield "the port is published to another port", before_rules(objects, {**published, "target": f"DNAT {ONE}:81"})
    yield "the port is published to nobody", before_rules(objects, {**published, "target": f"DNAT {NEAR}:8080"})
    yield "new connections are let in", before_rules(objects, always)
    yield "another address is let through", before_rules(objects, {**always, "dst": f"{TWO}/32"})
    yield "what goes to many is masqueraded", before_rules(objects, {**anywhere, "src": f"{ONE}/32"})
    yield "nothing that leaves is masqueraded", before_rules(objects, {**within, "dst": "0.0.0.0/0"})


def incomplete_hosts(objects):
    """Hosts of which nothing is said."""
    for kind in ("rule", "lease", "cached"):
        gone = next(it for it in objects if it["kind"] == kind and it["tag"] == "open/c/eth0")
        yield f"a {kind} is gone", [it for it in objects if it is not gone]
    setting = {"key": "net.a", "kind": "setting", "ns": "/ns/open", "tag": "open/z/eth0", "value": "1"}
    yield "somebody has an object and no cached result", [*objects, setting]
