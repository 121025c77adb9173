"""What the plugins of a run are to be handed, by its files and its answers: which commands, in which order, and what
each. It knows no calls and no kernel: what an attachment has cached is what its last ADD was answered."""

import hashlib
import ipaddress
import json

from handed import ABSENT, is_runtimes

VERSIONS = ("1.1.0", "1.0.0", "0.4.0")
FIELDS = {"container": "", "netns": "", "ifname": "eth0", "args": "", "portMappings": [], "valid": []}
WITHOUT_HOST = ("", "0.0.0.0", "::")


class Due:
    """What one plugin is to be handed by one command."""

    def __init__(self, number, plugin, env, network):
        self.number, self.plugin, self.env, self.own = number, plugin, env, network.own[plugin]
        self.version, self.network = network.version, network.name
        self.previous = self.valid = self.runtime = ABSENT

    def tell(self, previous, mappings):
        self.previous = previous
        asks = self.own.get("capabilities")
        if mappings and isinstance(asks, dict) and asks.get("portMappings") is True:
            self.runtime = {"portMappings": mappings}


class Network:
    """A list as its file has it."""

    def __init__(self, conf):
        self.name, self.plugins = conf["name"], conf["plugins"]
        named = [conf.get("cniVersion"), *(conf.get("cniVersions") or [])]
        self.version = next(it for it in VERSIONS if it in named)
        self.own = [{key: it for key, it in each.items() if not is_runtimes(key)} for each in self.plugins]
        asks = [it.get("capabilities") or {} for it in self.plugins if it["type"] == "portmap"]
        self.publishes = any(it.get("portMappings") is True for it in asks)
        self.tuning = next((k for k, it in enumerate(self.plugins) if it["type"] == "tuning"), None)

    def to_each(self, number, env):
        return [Due(number, place, env, self) for place in range(len(self.own))]

    def result_before(self, place, given, result):
        """The result that the plugin at this place is handed: that of the ADD, without what `tuning` sets behind it."""
        if place == 0:
            return ABSENT
        if self.tuning is None or place > self.tuning:
            return result
        *others, inner = result["interfaces"]
        names = "\n".join([self.name, given["container"], given["ifname"]])
        mac = b"\x0a" + hashlib.sha256(names.encode("utf-8")).digest()[4:9]
        mtu = {"mtu": self.plugins[0].get("mtu") or 1500} if "mtu" in inner else {}
        return {**result, "interfaces": [*others, {**inner, "mac": mac.hex(":"), **mtu}]}


class Attached:
    """What is cached of an attachment."""

    def __init__(self, result=ABSENT, mappings=(), netns=""):
        self.result, self.mappings, self.netns = result, [*mappings], netns


def address_text(address):
    if address.version == 6 and address.ipv4_mapped:
        return f"::ffff:{int(address) >> 16 & 0xFFFF:x}:{int(address) & 0xFFFF:x}"
    return str(address)


def mapping_of(given):
    """A command's mapping as plugins are handed it."""
    host = given.get("hostIP", "")
    at = {} if host in WITHOUT_HOST else {"hostIP": address_text(ipaddress.ip_address(host))}
    ports = {key: given[key] for key in ("containerPort", "hostPort")}
    return {**ports, **at, "protocol": given.get("protocol") or "tcp"}


def words(given, netns):
    names = {"ARGS": "args", "COMMAND": "verb", "CONTAINERID": "container", "IFNAME": "ifname"}
    return {**{f"CNI_{name}": given[key] for name, key in names.items()}, "CNI_NETNS": netns}


class Reading:
    """The files of a run, and by network, container and interface what is cached. No command is broken off."""

    def __init__(self, pods, lists):
        self.commands = [{**FIELDS, **it} for each in pods["rounds"] for it in each]
        self.networks = {it["name"]: Network(it) for it in lists}
        self.cached = {}

    def due(self, answers):
        """What is due, in the order in which it is printed."""
        by_verb = {"ADD": self.add, "DEL": self.delete, "CHECK": self.check, "GC": self.collect, "STATUS": self.status}
        for number, (given, answer) in enumerate(zip(self.commands, map(json.loads, answers)), 1):
            if given["verb"] in by_verb and ("result" in answer or "ok" in answer):
                yield from by_verb[given["verb"]](number, self.networks[given["network"]], given, answer)

    def at(self, given):
        """The key of the attachment, and what is cached of it."""
        key = given["network"], given["container"], given["ifname"]
        return key, self.cached.get(key, Attached())

    def add(self, number, network, given, answer):
        mappings = [mapping_of(it) for it in given["portMappings"]] if network.publishes else []
        self.cached[self.at(given)[0]] = Attached(answer["result"], mappings, given["netns"])
        due = network.to_each(number, words(given, given["netns"]))
        for it in due:
            it.tell(network.result_before(it.plugin, given, answer["result"]), mappings)
        return due

    def of_cached(self, number, network, given, netns):
        attached = self.at(given)[1]
        due = network.to_each(number, words(given, netns))
        for it in due:
            it.tell(attached.result, attached.mappings)
        return due

    def check(self, number, network, given, _):
        return self.of_cached(number, network, given, self.at(given)[1].netns)

    def delete(self, number, network, given, _):
        due = self.of_cached(number, network, given, given["netns"])
        self.cached.pop(self.at(given)[0], None)
        return reversed(due)

    def status(self, number, network, given, _):
        return network.to_each(number, {"CNI_COMMAND": given["verb"]})

    def collect(self, number, network, given, _):
        kept = [(it["containerID"], it["ifname"]) for it in given["valid"]]
        self.cached = {key: it for key, it in self.cached.items() if key[0] != network.name or key[1:] in kept}
        due = network.to_each(number, {"CNI_COMMAND": given["verb"]})
        for it in due:
            it.valid = given["valid"]
        return due
