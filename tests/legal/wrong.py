"""A lawful run, and runs that aren't: in each, one thing is altered of the first one's lines, or its status."""

import json

from draw import ASKED
from judge import line_of
from program import bridge, network_list

PORTMAP = {"type": "portmap", "capabilities": {"portMappings": True}}
BOTH = [[{"subnet": "10.88.0.0/16"}], [{"subnet": "fd00:88::/64"}]]
DUAL = network_list("dual", {**bridge(ranges=BOTH), "isDefaultGateway": True}, PORTMAP)
PODS = {**network_list("pods", bridge(subnet="10.9.0.0/24")), "disableCheck": True}


def sample():
    """Words and files of the lawful run: on one thread, with a stop, a fault, a refusal, a skip and a round cut off."""
    add = {"verb": "ADD", "network": "dual", "container": "c1", "netns": "/ns/a"}
    other = {"verb": "ADD", "network": "pods", "container": "c2", "netns": "/ns/b"}
    mapping = [{"hostPort": 8080, "containerPort": 80}]
    rounds = [
        [{**add, "portMappings": mapping}, other, {"verb": "DEL", "network": "pods", "container": "c2"}],
        [{**add, "verb": "CHECK"}, {**other, "verb": "CHECK"}],
        [{**other, "stop": 4}],
        [{**other, "container": "c3", "faults": [5]}],
        [{**other, "container": "c4"}],
        [{"verb": "GC", "network": "pods", "valid": []}],
        [{"verb": "DEL", "network": "dual", "container": "c1"}],
    ]
    pods = {"opening": {"namespaces": ["/ns/a", "/ns/b"]}, "rounds": rounds}
    files = {"pods.json": pods, "dual.json": DUAL, "net.json": PODS}
    return ["--stop-at", "79", *ASKED, *files], files


def place_of(lines, **members):
    """The place of the first line whose value has these members."""
    values = map(json.loads, lines)
    return next(k for k, it in enumerate(values) if all(it.get(key) == to for key, to in members.items()))


def numbered(lines):
    """The same with the entries numbered in their order."""
    made = 0
    for line in lines:
        it = json.loads(line)
        made += "call" in it
        yield line_of({**it, "i": made}) if "call" in it else line


def without(lines, place):
    return [*numbered([*lines[:place], *lines[place + 1 :]])]


def with_line(lines, place, line):
    return [*numbered([*lines[:place], line, *lines[place:]])]


def moved(lines, place, to):
    """A line comes earlier."""
    return without(with_line(lines, to, lines[place]), place + 1)


def other(lines, place, **members):
    return [*lines[:place], line_of({**json.loads(lines[place]), **members}), *lines[place + 1 :]]


def altered_traces(lines):
    """What isn't the next call of a command that may make it, or isn't its reply."""

    def at(n, call, **more):
        return place_of(lines, n=n, call=call, **more)

    yield "another address is leased", other(lines, at(1, "LeaseNext"), reply="Leased 10.88.0.3")
    yield "another call is made", other(lines, at(1, "AddrAdd"), call="RouteAdd")
    yield "a call is left out", without(lines, at(1, "GatewayEnsure"))
    yield "a call is made twice", with_line(lines, at(1, "LeaseNext"), lines[at(1, "LeaseNext")])
    yield "a call is made too early", moved(lines, at(1, "VethAdd"), at(1, "BridgeEnsure"))
    yield "a fault comes unasked", other(lines, at(1, "AddrAdd"), reply="Fault")
    yield "a fault that is asked for doesn't come", other(lines, at(7, "LinkDel"), reply="Gone false")
    yield "what is there is denied", other(lines, at(4, "HasObj"), reply="Has false")
    yield "what is deleted wasn't there", other(lines, at(3, "LinkDel"), reply="Gone false")
    yield "owners are counted wrongly", other(lines, at(9, "OwnersOf", reply="Owners 1"), reply="Owners 2")
    yield "another is in the way", other(lines, at(7, "VethAdd"), reply="Taken pods/c1/eth0")
    yield "a command overtakes one of its container", moved(lines, at(3, "CacheGet"), at(2, "LeaseNext"))
    yield "a round begins before the last one is over", moved(lines, at(9, "OwnersOf"), at(7, "CacheGet"))
    call = line_of({"call": "AddrAdd", "i": 0, "n": 6, "reply": "Done"})
    yield "a stopped command goes on", with_line(lines, at(7, "Begin"), call)
    call = line_of({"call": "LinkDel", "i": 0, "n": 10, "reply": "Gone true"})
    yield "a round that is cut off goes on", with_line(lines, place_of(lines, kind="namespace"), call)


def altered_answers(lines):
    """What doesn't follow from the trace."""

    def at(n):
        return place_of(lines[:10], n=n)

    result = json.loads(lines[at(1)])["result"]
    yield "a result has another gateway", other(lines, at(1), result={**result, "ips": result["ips"][::-1]})
    refused = json.loads(lines[at(7)])["error"]
    yield "an error has another code", other(lines, at(7), error={**refused, "code": 103})
    yield "an error names another owner", other(lines, at(7), error={**refused, "details": "pods/c1/eth0"})
    yield "a stop comes after more calls", other(lines, at(6), stopped=5)
    yield "a round is cut off elsewhere", other(lines, at(10), stopped=7)
    yield "another verb is skipped", other(lines, at(5), skipped="disableGC")
    yield "an answer is missing", without(lines, at(3))


def altered_requests(lines):
    """What no plugin would be handed."""

    def at(n, plugin):
        return place_of(lines, n=n, plugin=plugin)

    def without_key(place, key):
        request = json.loads(lines[place])["request"]
        return other(lines, place, request={name: it for name, it in request.items() if name != key})

    yield "a later plugin is handed no result", without_key(at(1, 1), "prevResult")
    yield "mappings aren't handed on", without_key(at(1, 1), "runtimeConfig")
    yield "a collection keeps nothing", without_key(at(9, 0), "cni.dev/valid-attachments")
    yield "the second plugin is asked first", moved(lines, at(1, 1), at(1, 0))
    yield "a plugin isn't asked", without(lines, at(3, 0))


def altered_dumps(lines):
    """What the calls don't leave."""

    def at(**members):
        return place_of(lines, **members)

    lease = at(kind="lease")
    yield "a lease is gone", without(lines, lease)
    yield "two objects stand in another order", moved(lines, lease + 1, lease)
    yield "a link has another MTU", other(lines, at(kind="link", link="veth"), mtu=1400)
    yield "a deleted rule is there", with_line(lines, lease, RULE)
    yield "another address was leased last", other(lines, at(kind="last", set=1), address="fd00:88::3")


RULE = line_of({"chain": "CNI-MASQ", "kind": "rule", "table": "nat", "tag": "dual/c1/eth0", "target": "ACCEPT"})


def altered(status, lines):
    """Each wrong run by its name, with its status and lines."""
    for alterations in (altered_traces, altered_answers, altered_requests, altered_dumps):
        for name, changed in alterations(lines):
            yield name, status, changed
    yield "the status says that nothing was refused", 1 - status, lines


def in_another_order(lines):
    """The same run as it could have been with two threads: calls of two containers in another order."""
    return moved(lines, place_of(lines, n=2, call="Begin"), place_of(lines, n=1, call="CachePut"))
