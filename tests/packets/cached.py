"""What the cached results of a host say of a packet, without a look at its rules, where the host is complete: all that
any attachment has is of one with a cached result, and every rule and lease that these want is there."""

import ipaddress

from plugins import MULTICAST, Att, NetList
from scripts import wanted_by


class Attachment:
    """An attachment with a cached result."""

    def __init__(self, lists, cached):
        network, container, ifname = cached["tag"].split("/")
        self.tag, self.cached, self.net = cached["tag"], cached, NetList(lists[network])
        self.att = Att(network, container, ifname, cached["netns"])
        self.ips = [ipaddress.ip_interface(it["address"]) for it in cached["result"].get("ips", [])]
        self.plugins = [self.net.first, *self.net.chained]

    def wants(self, kind):
        return [it for it in wanted_by(self.net, self.att, self.cached) if it["kind"] == kind]

    def first_of(self, family):
        return next((it.ip for it in self.ips if it.version == family), None)

    def has(self, address):
        return address in [it.ip for it in self.ips]

    def has_firewall(self):
        return any(it["type"] == "firewall" for it in self.plugins)

    def publishing(self, packet):
        """Where the attachment sends the packet by each mapping that fits it, with the rule of the mapping."""
        dst = ipaddress.ip_address(packet["dst"])
        first = self.first_of(dst.version)
        for it in self.cached.get("portMappings", []) if first else []:
            restricted = "hostIP" in it and ipaddress.ip_address(it["hostIP"]) != dst
            if not restricted and (it["protocol"], it["hostPort"]) == (packet["protocol"], packet["dport"]):
                yield str(first), it["containerPort"], self.rule_of(it, first)

    def rule_of(self, mapping, first):
        to = f"[{first}]" if first.version == 6 else str(first)
        target = f"DNAT {to}:{mapping['containerPort']}"
        asked = (target, mapping["protocol"], mapping["hostPort"], "hostIP" in mapping)
        return next(
            it
            for it in self.wants("rule")
            if (it["target"], it.get("protocol"), it.get("dport"), "dst" in it) == asked
            and ("dst" not in it or ipaddress.ip_interface(it["dst"]).ip == ipaddress.ip_address(mapping["hostIP"]))
        )


class Host:
    """A host by its dump, and its attachments."""

    def __init__(self, lists, objects):
        self.of = {}
        for it in objects:
            self.of.setdefault(it["kind"], []).append(it)
        self.attachments = [Attachment(lists, it) for it in self.of.get("cached", [])]

    def is_complete(self):
        owners = {it["tag"] for each in self.of.values() for it in each if "/" in it.get("tag", "")}
        kinds = ("rule", "lease")
        wanted = [it for each in self.attachments for kind in kinds for it in each.wants(kind)]
        return owners <= {it.tag for it in self.attachments} and all(it in self.of.get(it["kind"], []) for it in wanted)

    def rewriting(self, packet):
        """Where the packet is sent by the mapping whose rule stands first; nowhere by none."""
        found = [it for each in self.attachments for it in each.publishing(packet)]
        return min(found, key=lambda it: self.of["rule"].index(it[2]), default=None)

    def masquerading(self, packet, fate):
        """Whether the packet is masqueraded, where exactly one attachment leases the address that it comes from."""
        src, dst = ipaddress.ip_address(packet["src"]), ipaddress.ip_address(fate["dst"])
        lessees = {it["tag"] for it in self.of.get("lease", []) if ipaddress.ip_address(it["address"]) == src}
        if len(lessees) != 1:
            return None
        owner = next(it for it in self.attachments if it.tag in lessees)
        subnet = next(it.network for it in owner.ips if it.ip == src)
        near = dst in subnet or dst in ipaddress.ip_network(MULTICAST[src.version])
        return bool(owner.net.first.get("ipMasq")) and not near

    def accepting(self, packet):
        ends = [ipaddress.ip_address(packet["src"])]
        if packet.get("established"):
            ends.append(ipaddress.ip_address(packet["dst"]))
        return any(each.has_firewall() and any(map(each.has, ends)) for each in self.attachments)
