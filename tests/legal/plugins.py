"""What each plugin of a network list calls and answers, by docs/plugins/. A list here is one that the program reads."""

import hashlib
import ipaddress

from kernel import HOST, address_text, link, mac, name_mac

DEFAULT = {4: "0.0.0.0/0", 6: "::/0"}
MULTICAST = {4: "224.0.0.0/4", 6: "ff00::/8"}
VERSIONS = ["0.4.0", "1.0.0", "1.1.0"]


class Att:
    """An attachment, and the names that are derived from it."""

    def __init__(self, network, container, ifname, netns=HOST):
        digest = hashlib.sha256(f"{network}\n{container}\n{ifname}".encode()).digest()
        self.network, self.ifname, self.netns = network, ifname, netns
        self.tag = f"{network}/{container}/{ifname}"
        self.host_name, self.inner_mac, self.host_mac = f"veth{digest[:4].hex()}", mac(digest[4:9]), mac(digest[9:14])
        self.inner, self.host = {"ns": netns, "link": ifname}, {"ns": HOST, "link": self.host_name}


def without_null(value):
    if isinstance(value, dict):
        return {key: without_null(it) for key, it in value.items() if it is not None}
    return [without_null(it) for it in value] if isinstance(value, list) else value


def cidr_text(address, prefix):
    return f"{address_text(address)}/{prefix}"


def whole(address):
    return cidr_text(address, address.max_prefixlen)


def network_text(network):
    return cidr_text(network.network_address, network.prefixlen)


def once(objects, *keys):
    """The first of each key; an address is told apart without its prefix."""
    found = {}
    for it in objects:
        key = [it["address"].split("/")[0] if name == "address" else it.get(name) for name in keys] or it
        found.setdefault(str(key), it)
    return list(found.values())


def read_range(given):
    subnet = ipaddress.ip_network(given["subnet"])
    address = type(subnet.network_address)
    first, last = subnet.network_address + 1, address(int(subnet.broadcast_address) - 1)
    keys = {"start": ("rangeStart", first), "end": ("rangeEnd", last), "gateway": ("gateway", first)}
    return {"subnet": subnet, **{to: address(given[key]) if key in given else it for to, (key, it) in keys.items()}}


def read_sets(ipam):
    listed = ([[ipam]] if "subnet" in ipam else []) + ipam.get("ranges", [])
    return [[read_range(it) for it in ranges] for ranges in listed]


def given_of(sets, addresses):
    """Each leased address with the range of its set that has it."""
    return [
        {"ip": address, **next(it for it in ranges if it["start"] <= address <= it["end"])}
        for address, ranges in zip(addresses, sets)
    ]


def is_true(value):
    return value in (True, "true")


class NetList:
    """A network list: what its plugins ask for, and its result."""

    def __init__(self, conf):
        self.objects = conf["plugins"]
        conf = without_null(conf)
        named = [conf.get("cniVersion"), *conf.get("cniVersions", [])]
        self.version = max(it for it in VERSIONS if it in named)
        self.name = conf["name"]
        self.no_check, self.no_gc = is_true(conf.get("disableCheck")), is_true(conf.get("disableGC"))
        self.first, *self.chained = conf["plugins"]
        ipam = self.first.get("ipam", {})
        self.sets = read_sets(ipam)
        self.routes = [self.read_route(it) for it in ipam.get("routes", [])]
        self.bridge = self.first.get("bridge", "cni0") if self.first["type"] == "bridge" else None
        self.master = self.first["master"] if self.first["type"] == "macvlan" else None
        self.mtu = self.first.get("mtu") or 1500
        self.takes_mappings = any(
            it["type"] == "portmap" and it.get("capabilities", {}).get("portMappings", False) for it in self.chained
        )

    @staticmethod
    def read_route(given):
        dst = network_text(ipaddress.ip_network(given["dst"], strict=False))
        return {"dst": dst, **({"gw": address_text(ipaddress.ip_address(given["gw"]))} if "gw" in given else {})}

    # ---- the result

    def interface(self, name, hardware, own, **more):
        mtu = {"mtu": self.mtu} if own and self.version == "1.1.0" else {}
        return {"mac": hardware, "name": name, **mtu, **more}

    def interfaces(self, att):
        inner = self.interface(att.ifname, att.inner_mac, True, sandbox=att.netns)
        if self.first["type"] == "macvlan":
            return [inner]
        bridge = [self.interface(self.bridge, name_mac(self.bridge), False)] if self.bridge else []
        return [*bridge, self.interface(att.host_name, att.host_mac, True), inner]

    def all_routes(self, given):
        """The configured routes, and the default ones that the bridge adds."""
        routes = list(self.routes)
        for family, dst in DEFAULT.items():
            gateway = next((it["gateway"] for it in given if it["ip"].version == family), None)
            if self.bridge and self.first.get("isDefaultGateway") and gateway is not None:
                if dst not in [it["dst"] for it in self.routes]:
                    routes.append({"dst": dst, "gw": address_text(gateway)})
        return routes

    def result(self, att, addresses, chained=None):
        """The result after so many chained plugins, or after all of them."""
        given, interfaces = given_of(self.sets, addresses), self.interfaces(att)
        for it in self.chained[:chained]:
            if it["type"] == "tuning":
                named = {"mac": it["mac"].lower()} if it.get("mac") else {}
                sized = {"mtu": it["mtu"]} if it.get("mtu") and self.version == "1.1.0" else {}
                interfaces[-1] = {**interfaces[-1], **named, **sized}
        ips = []
        for it in given:
            family = {"version": str(it["ip"].version)} if self.version == "0.4.0" else {}
            address, gateway = cidr_text(it["ip"], it["subnet"].prefixlen), address_text(it["gateway"])
            ips.append({"address": address, "gateway": gateway, "interface": len(interfaces) - 1, **family})
        dns = {key: it for key, it in self.first.get("dns", {}).items() if it and key in DNS}
        members = {"dns": dns, "ips": ips, "routes": self.all_routes(given)}
        full = {key: it for key, it in members.items() if it}
        return {"cniVersion": self.version, "interfaces": interfaces, **full}

    # ---- the calls of an ADD

    def before(self, att):
        """Those before the leases."""
        inner = {"peer": {"name": att.host_name, "ns": HOST}}
        if self.first["type"] == "macvlan":
            over = {"master": self.master, "mode": self.first.get("mode", "bridge")}
            return [("MacvlanAdd", link(att.netns, att.ifname, "macvlan", att.inner_mac, self.mtu, att.tag, **over))]
        outer = {"peer": {"name": att.ifname, "ns": att.netns}, **({"master": self.bridge} if self.bridge else {})}
        outer["hairpin"] = self.bridge is not None and self.first.get("hairpinMode", False)
        host_end = link(HOST, att.host_name, "veth", att.host_mac, self.mtu, att.tag, **outer)
        inner_end = link(att.netns, att.ifname, "veth", att.inner_mac, self.mtu, att.tag, **inner)
        ensured = [("BridgeEnsure", self.bridge, self.mtu, self.first.get("promiscMode", False))] if self.bridge else []
        return [*ensured, ("VethAdd", host_end, inner_end)]

    def after(self, att, mappings, addresses):
        """Those after the leases, without the last, CachePut."""
        given = given_of(self.sets, addresses)
        calls = self.of_ptp(att, given) if self.first["type"] == "ptp" else self.of_others(att, given)
        if self.first["type"] != "macvlan" and self.first.get("ipMasq"):
            calls += [("RuleAppend", it) for it in once(masquerades(att, given))]
        for it in self.chained:
            calls += CHAINED[it["type"]](it, att, mappings, given)
        return calls

    def routes_on(self, att, given, routes):
        gateways = {}
        for it in given:
            gateways.setdefault(it["ip"].version, address_text(it["gateway"]))
        for it in routes:
            gw = it.get("gw", gateways.get(6 if ":" in it["dst"] else 4))
            yield route(att, att.inner, it["dst"], gw)

    def forwards(self, given):
        return [("ForwardEnsure", family) for family in (4, 6) if any(it["ip"].version == family for it in given)]

    def of_others(self, att, given):
        """What bridge and macvlan call."""
        own = [address(att, att.inner, cidr_text(it["ip"], it["subnet"].prefixlen)) for it in given]
        routes = once(self.routes_on(att, given, self.all_routes(given)), "ns", "dst", "link")
        calls = [("AddrAdd", it) for it in once(own, "ns", "link", "address")] + [("RouteAdd", it) for it in routes]
        if self.bridge and (self.first.get("isGateway") or self.first.get("isDefaultGateway")):
            gateways = [{"address": cidr_text(it["gateway"], it["subnet"].prefixlen)} for it in given]
            calls += [("GatewayEnsure", self.bridge, it["address"]) for it in once(gateways, "address")]
            calls += self.forwards(given)
        return calls

    def of_ptp(self, att, given):
        objects = []
        for it in given:
            gateway = address_text(it["gateway"])
            objects += [
                address(att, att.inner, cidr_text(it["ip"], it["subnet"].prefixlen)),
                route(att, att.inner, whole(it["gateway"]), None),
                route(att, att.inner, network_text(it["subnet"]), gateway),
                address(att, att.host, whole(it["gateway"])),
                route(att, att.host, whole(it["ip"]), None),
            ]
        objects += self.routes_on(att, given, self.routes)
        addresses = once((it for it in objects if it["kind"] == "address"), "ns", "link", "address")
        routes = once((it for it in objects if it["kind"] == "route"), "ns", "dst", "link")
        kept = [it for it in objects if any(it is each for each in addresses + routes)]
        return [("AddrAdd" if it["kind"] == "address" else "RouteAdd", it) for it in kept] + self.forwards(given)

    def kinds(self):
        """The kinds of objects that a DEL takes back, in order."""
        of_chained = ["setting" if it["type"] == "tuning" else "rule" for it in reversed(self.chained)]
        masqueraded = self.first["type"] != "macvlan" and self.first.get("ipMasq", False)
        leased = ["lease"] if self.first.get("ipam") else []
        return [*of_chained, "link", *(["rule"] if masqueraded else []), *leased, "cached"]


DNS = ["domain", "nameservers", "options", "search"]


# ---- objects


def address(att, on, cidr):
    return {"address": cidr, "kind": "address", "link": on["link"], "ns": on["ns"], "tag": att.tag}


def route(att, on, dst, gw):
    by = {} if gw is None else {"gw": gw}
    return {"dst": dst, **by, "kind": "route", "link": on["link"], "ns": on["ns"], "tag": att.tag}


def rule(att, table, chain, target, **packets):
    return {"chain": chain, "kind": "rule", "table": table, "tag": att.tag, "target": target, **packets}


def masquerades(att, given):
    for it in given:
        src = whole(it["ip"])
        yield rule(att, "nat", "CNI-MASQ", "ACCEPT", src=src, dst=network_text(it["subnet"]))
        yield rule(att, "nat", "CNI-MASQ", "MASQUERADE", src=src, dst=MULTICAST[it["ip"].version], not_dst=True)


# ---- chained plugins


def firewall(_, att, __, given):
    rules = []
    for it in given:
        rules.append(rule(att, "filter", "CNI-FORWARD", "ACCEPT", dst=whole(it["ip"]), established=True))
        rules.append(rule(att, "filter", "CNI-FORWARD", "ACCEPT", src=whole(it["ip"])))
    return [("RuleAppend", it) for it in once(rules)]


def port_rules(conf, att, mapping, it):
    ip, port, protocol = it["ip"], mapping["containerPort"], mapping["protocol"]
    host = ipaddress.ip_address(mapping["hostIP"]) if "hostIP" in mapping else None
    if host is not None and host.version != ip.version:
        return
    to = f"[{address_text(ip)}]:{port}" if ip.version == 6 else f"{ip}:{port}"
    at = {} if host is None else {"dst": whole(host)}
    dnat = {"dport": mapping["hostPort"], "protocol": protocol, **at}
    yield rule(att, "nat", "CNI-HOSTPORT-DNAT", f"DNAT {to}", **dnat)
    if conf.get("snat", True):
        own = network_text(ipaddress.ip_network((ip, it["subnet"].prefixlen), strict=False))
        for src in [own, "127.0.0.1/32"][: 2 if ip.version == 4 else 1]:
            to_port = {"dport": port, "dst": whole(ip), "protocol": protocol, "src": src}
            yield rule(att, "nat", "CNI-HOSTPORT-MASQ", "MASQUERADE", **to_port)


def portmap(conf, att, mappings, given):
    rules = []
    for mapping in mappings:
        for family in (4, 6):
            first = next((it for it in given if it["ip"].version == family), None)
            rules += port_rules(conf, att, mapping, first) if first else []
    return [("RuleAppend", it) for it in once(rules)]


def tuning(conf, att, _, __):
    keys = sorted(conf.get("sysctl", {}), key=lambda it: it.encode())
    settings = [
        {"key": key, "kind": "setting", "ns": att.netns, "tag": att.tag, "value": conf["sysctl"][key]} for key in keys
    ]
    values = {"mac": conf["mac"].lower()} if conf.get("mac") else {}
    values |= {"mtu": conf["mtu"]} if conf.get("mtu") else {}
    values |= {"txqlen": conf["txQLen"]} if "txQLen" in conf else {}
    values |= {key: True for key in ("promisc", "allmulti") if conf.get(key)}
    set_link = [("LinkSet", att.tag, att.netns, att.ifname, values)] if values else []
    return [("SettingSet", it) for it in settings] + set_link


CHAINED = {"firewall": firewall, "portmap": portmap, "tuning": tuning}
