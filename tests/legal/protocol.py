"""The requests of a run: what each plugin would be handed, by docs/PROTOCOL.md."""

import ipaddress

from plugins import Att
from scripts import FIELDS, mappings_of

# keys of a plugin's object in whose place the runtime writes its own
RUNTIME_KEYS = ("cniVersion", "cniVersions", "name", "prevResult", "runtimeConfig")
RUNTIME_PREFIX = "cni.dev/"


def asks_for_mappings(conf):
    capabilities = conf.get("capabilities")
    return isinstance(capabilities, dict) and capabilities.get("portMappings") is True


def request(net, conf, prev=None, mappings=(), valid=None):
    own = {key: it for key, it in conf.items() if key not in RUNTIME_KEYS and not key.startswith(RUNTIME_PREFIX)}
    made = {**own, "cniVersion": net.version, "name": net.name}
    if prev is not None:
        made["prevResult"] = prev
    if mappings and asks_for_mappings(conf):
        made["runtimeConfig"] = {"portMappings": [*mappings]}
    if valid is not None:
        made["cni.dev/valid-attachments"] = valid
    return made


def words(c, netns):
    return {
        "CNI_ARGS": c["args"],
        "CNI_COMMAND": c["verb"],
        "CNI_CONTAINERID": c["container"],
        "CNI_IFNAME": c["ifname"],
        "CNI_NETNS": netns,
    }


def of_add(net, c, answer):
    """The requests of an ADD in list order, each with the result of the plugin before."""
    att = Att(net.name, c["container"], c["ifname"], c["netns"])
    addresses = [ipaddress.ip_interface(it["address"]).ip for it in answer["result"].get("ips", [])]
    for place, conf in enumerate(net.objects):
        prev = net.result(att, addresses, place - 1) if place else None
        yield request(net, conf, prev, mappings_of(net, c))


def of_cached(net, cached):
    """One with the cached result to each plugin; without one, where there is none."""
    mappings = cached.get("portMappings", []) if cached else []
    return [request(net, conf, cached["result"] if cached else None, mappings) for conf in net.objects]


def requests_of(net, c, answer, cached):
    """The words and the requests of a command that was done, in list order."""
    verb = c["verb"]
    if "result" in answer:
        return words(c, c["netns"]), [*of_add(net, c, answer)]
    if "ok" not in answer or verb not in ("CHECK", "DEL", "GC", "STATUS"):
        return {}, []
    if verb in ("GC", "STATUS"):
        valid = c["valid"] if verb == "GC" else None
        return {"CNI_COMMAND": verb}, [request(net, conf, valid=valid) for conf in net.objects]
    return words(c, cached["netns"] if verb == "CHECK" else c["netns"]), of_cached(net, cached)


def request_lines(run):
    """The lines of all commands of a run, each as its value."""
    found = {}
    for it in run.entries:
        if it.call[0] == "CacheGet" and it.reply[1] is not None:
            found.setdefault(it.command.number, it.reply[1])
    for command in run.commands:
        c = {**FIELDS, **command.given}
        env, requests = requests_of(run.lists.get(c["network"]), c, command.answer, found.get(command.number))
        lines = [
            {"env": env, "n": command.number, "plugin": place, "request": it} for place, it in enumerate(requests)
        ]
        yield from reversed(lines) if c["verb"] == "DEL" else lines
