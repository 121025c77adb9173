"""What each verb calls, one call after another, and answers, by docs/FORMATS.md. A script is a generator: it yields
calls, is sent their replies, and returns what stands in the answer's line beside the command's number and verb."""

import ipaddress
import json
import re

from kernel import DONE, FAULT, KINDS, address_text
from plugins import VERSIONS, Att

NAME = re.compile(r"[A-Za-z0-9][A-Za-z0-9_.-]*")
DELETIONS = {"link": "LinkDel", "rule": "RuleDel", "setting": "SettingDel", "lease": "LeaseDel", "cached": "CacheDel"}
# the sweeps of a GC that go by one kind: the kind, and what is called for each of its owners, once or until all is gone
SWEEPS = [(kind, [(call, False)]) for kind, call in DELETIONS.items()]
NEWEST = "1.1.0"
OK = {"ok": True}


def error(version, code, msg, details=""):
    return {"error": {"cniVersion": version, "code": code, "details": details, "msg": msg}}


def fault(version, number):
    return error(version, 103, "kernel fault", f"call {number}")


# ---- fields


def is_interface(name):
    return 1 <= len(name.encode()) <= 15 and name not in (".", "..") and not re.search(r"[/:\s]", name)


def pairs(args):
    return [it.split("=") for it in args.split(";")]


def are_arguments(args):
    return args == "" or all(len(it) == 2 and it[0] for it in pairs(args))


def wrong_fields(version, c, *names):
    tests = {
        "CNI_CONTAINERID": NAME.fullmatch(c["container"]),
        "CNI_NETNS": c["netns"],
        "CNI_IFNAME": is_interface(c["ifname"]),
        "CNI_ARGS": are_arguments(c["args"]),
    }
    wrong = [name for name, right in tests.items() if name in names and not right]
    return error(version, 4, f"invalid environment variables: {', '.join(wrong)}") if wrong else None


def read_mapping(given):
    """The mapping as a cached result has it; None where it isn't taken."""
    ports = [given.get(key, 0) for key in ("containerPort", "hostPort")]
    protocol, host = given.get("protocol") or "tcp", given.get("hostIP", "")
    if not all(1 <= it <= 65535 for it in ports) or protocol not in ("tcp", "udp", "sctp"):
        return None
    at = {}
    if host not in ("", "0.0.0.0", "::"):
        try:
            at = {"hostIP": address_text(ipaddress.ip_address("" if "%" in host else host))}
        except ValueError:
            return None
    return {"containerPort": ports[0], **at, "hostPort": ports[1], "protocol": protocol}


def add_refusal(net, c):
    wrong = wrong_fields(net.version, c, "CNI_CONTAINERID", "CNI_NETNS", "CNI_IFNAME", "CNI_ARGS")
    if wrong:
        return wrong
    value = next((it[1] for it in pairs(c["args"]) if it[0] == "IP"), None)
    if value is not None:
        return error(net.version, 2, f"unsupported field IP: {json.dumps(value, ensure_ascii=False)}")
    if None in map(read_mapping, c["portMappings"]):
        return error(net.version, 7, "invalid network configuration: portMappings")
    return None


# ---- ADD and DEL


def refusal(net, c, reply, number, leases):
    """Why a reply that isn't Done refuses an ADD."""
    text = reply[0]
    if text == "NoNs":
        return error(net.version, 100, "namespace missing", c["netns"])
    if text == "NoLink":
        return error(net.version, 7, "invalid network configuration: master")
    if text == "Empty":
        return error(net.version, 102, "pool empty", f"set {leases}")
    if text.startswith("Taken "):
        return error(net.version, 101, "name taken", text.removeprefix("Taken "))
    return fault(net.version, number)


def undo(net, att, number, answer):
    """Takes back what the attachment has; a fault ends it, and is answered unless there is an answer already."""
    number += 1
    if (yield "CacheGet", att.tag) == FAULT:
        return answer or fault(net.version, number)
    for kind in net.kinds():
        reply = None
        while reply != "Gone false":
            number += 1
            reply, _ = yield DELETIONS[kind], att.tag
            if reply == "Fault":
                return answer or fault(net.version, number)
    return answer or OK


def mappings_of(net, c):
    return [read_mapping(it) for it in c["portMappings"]] if net.takes_mappings else []


def cached_of(net, att, mappings, addresses):
    published = {"portMappings": mappings} if mappings else {}
    result = net.result(att, addresses)
    return {"kind": "cached", "netns": att.netns, **published, "result": result, "tag": att.tag}


def add(net, c):
    wrong = add_refusal(net, c)
    if wrong:
        return wrong
    att = Att(net.name, c["container"], c["ifname"], c["netns"])
    reply = yield "Begin", att.tag, att.netns
    if reply != DONE:
        return refusal(net, c, reply, 1, 0)
    number, addresses = 1, []
    for call in net.before(att):
        number += 1
        reply = yield call
        if reply != DONE:
            return (yield from undo(net, att, number, refusal(net, c, reply, number, 0)))
    for place, ranges in enumerate(net.sets):
        number += 1
        reply = yield "LeaseNext", att.tag, net.name, place, ranges
        if reply[1] is None:
            return (yield from undo(net, att, number, refusal(net, c, reply, number, place)))
        addresses.append(reply[1])
    mappings = mappings_of(net, c)
    last = ("CachePut", cached_of(net, att, mappings, addresses))
    for call in [*net.after(att, mappings, addresses), last]:
        number += 1
        reply = yield call
        if reply != DONE:
            return (yield from undo(net, att, number, refusal(net, c, reply, number, 0)))
    return {"result": net.result(att, addresses)}


def delete(net, c):
    wrong = wrong_fields(net.version, c, "CNI_CONTAINERID", "CNI_IFNAME")
    return wrong or (yield from undo(net, Att(net.name, c["container"], c["ifname"]), 0, None))


# ---- CHECK and STATUS


def wanted(net, att, mappings, addresses):
    """All objects that an ADD of the attachment makes, in the order of a dump, without the cached result."""
    objects = [it for call in net.before(att) for it in call[1:] if isinstance(it, dict)]
    for call in net.after(att, mappings, addresses):
        if call[0] == "LinkSet":
            _, _, ns, name, values = call
            objects = [{**it, **values} if (it.get("ns"), it.get("name")) == (ns, name) else it for it in objects]
        elif isinstance(call[1], dict):
            objects.append(call[1])
    for it in addresses:
        objects.append({"address": address_text(it), "kind": "lease", "network": net.name, "tag": att.tag})
    return sorted(objects, key=lambda it: KINDS.index(it["kind"]))


def wanted_by(net, att, cached):
    """Those that the cached result says that there are."""
    at = Att(net.name, *att.tag.split("/")[1:], cached["netns"])
    ips = [ipaddress.ip_interface(it["address"]).ip for it in cached["result"].get("ips", [])]
    return wanted(net, at, cached.get("portMappings", []), ips)


def missed(it, rule):
    """How a CHECK names an object; a rule by its place."""
    ns = it.get("ns") or "-"
    return {
        "link": f"link {ns} {it.get('name')}",
        "address": f"address {ns} {it.get('link')} {it.get('address')}",
        "route": f"route {ns} {it.get('link')} {it.get('dst')}",
        "rule": f"rule {it.get('table')} {it.get('chain')} {rule}",
        "setting": f"setting {ns} {it.get('key')}",
        "lease": f"lease {it.get('address')}",
    }[it["kind"]]


def questions(net, att, cached):
    """What a CHECK asks for: how it is named, and a test of the host."""
    if net.bridge:
        first = cached["result"]["interfaces"][0]
        key = {"ns": "", "name": first["name"], "mac": first["mac"], "link": "bridge"}
        yield f"bridge {first['name']}", lambda host: host.first("link", **key) is not None
    yield from questions_for(wanted_by(net, att, cached))


def questions_for(objects):
    rules = 0
    for it in objects:
        rules += it["kind"] == "rule"
        yield missed(it, rules), lambda host, it=it: it in host.of[it["kind"]]


def asked(version, number, calls, code, msg):
    """Answers by the first question that is denied."""
    for name, call in calls:
        number += 1
        reply, _ = yield call
        if reply == "Has false":
            return error(version, code, msg, name)
        if reply == "Fault":
            return fault(version, number)
    return OK


def check(net, c):
    wrong = wrong_fields(net.version, c, "CNI_CONTAINERID", "CNI_IFNAME")
    if wrong:
        return wrong
    if net.no_check:
        return {"skipped": "disableCheck"}
    att = Att(net.name, c["container"], c["ifname"])
    reply, cached = yield "CacheGet", att.tag
    if reply == "Fault":
        return fault(net.version, 1)
    if cached is None:
        return error(net.version, 3, "container unknown", att.tag)
    calls = ((name, ("HasObj", is_there)) for name, is_there in questions(net, att, cached))
    return (yield from asked(net.version, 1, calls, 110, "check failed"))


def too_old(net, verb):
    old = net.version != NEWEST
    return error(net.version, 1, f"incompatible CNI version: {net.version}", verb) if old else None


def status(net, c):
    old = too_old(net, c["verb"])
    if old:
        return old
    calls = [(f"set {place}", ("PoolFree", net.name, ranges)) for place, ranges in enumerate(net.sets)]
    if net.master:
        calls.append((f"master {net.master}", ("HasObj", lambda host: host.master(net.master))))
    return (yield from asked(net.version, 0, calls, 50, "not available"))


# ---- GC


def is_stale(valid, tag):
    return tag.split("/")[1:] not in [[it["containerID"], it["ifname"]] for it in valid]


def collect(net, c):
    early = too_old(net, c["verb"]) or ({"skipped": "disableGC"} if net.no_gc else None)
    if early:
        return early
    first = [("CacheGet", True), *((DELETIONS[kind], False) for kind in net.kinds())]
    return (yield from swept(net, c, [("cached", first), *SWEEPS]))


def swept(net, c, sweeps):
    number, faults = 0, []
    for kind, steps in sweeps:
        number += 1
        reply, owners = yield "OwnersOf", net.name, kind
        faults += [number] if reply == "Fault" else []
        for tag in [it for it in owners or [] if is_stale(c["valid"], it)]:
            # a fault ends the owner's part of the sweep
            for call, single in steps:
                reply = None
                while reply not in ("Gone false", "Fault"):
                    number += 1
                    reply, _ = yield call, tag
                    if single and reply != "Fault":
                        break
                if reply == "Fault":
                    faults.append(number)
                    break
    named = ", ".join(f"call {it}" for it in faults)
    return error(net.version, 103, "kernel fault", named) if faults else OK


# ---- the others


def versions(net, _):
    return {"versions": {"cniVersion": net.version, "supportedVersions": VERSIONS}}
    yield


def change(c, *call):
    reply, _ = yield call
    if reply == "NoNs":
        return error(NEWEST, 100, "namespace missing", c["netns"])
    if reply.startswith("Taken "):
        return error(NEWEST, 101, "name taken", reply.removeprefix("Taken "))
    if reply == "Gone false":
        return error(NEWEST, 105, "nothing there", c["ifname"])
    return fault(NEWEST, 1) if reply == "Fault" else OK


def outside(_, c):
    names = {"NSADD": ["CNI_NETNS"], "NSDEL": ["CNI_NETNS"], "DROP": ["CNI_NETNS", "CNI_IFNAME"], "FLUSH": []}
    wrong = wrong_fields(NEWEST, c, *names[c["verb"]])
    if wrong:
        return wrong
    if c["verb"] == "FLUSH":
        return (yield from change(c, "Outside", "flush", c["table"]))
    if c["verb"] == "DROP":
        return (yield from change(c, "Outside", "drop", c["netns"], c["ifname"]))
    return (yield from change(c, "NsChange", c["netns"], c["verb"] == "NSADD"))


SCRIPTS = {"ADD": add, "DEL": delete, "CHECK": check, "GC": collect, "STATUS": status, "VERSION": versions}
FIELDS = {"container": "", "netns": "", "ifname": "eth0", "args": "", "network": "", "portMappings": [], "valid": []}


def script_of(lists, given):
    """The script of a command of a pod file."""
    c = {**FIELDS, **given}
    return SCRIPTS.get(c["verb"], outside)(lists.get(c["network"]), c)
