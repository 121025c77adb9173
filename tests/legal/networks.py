"""Network lists drawn at random: with every key that the pages of docs/plugins/ name, keys that they don't, keys in
whose place a runtime writes its own, nulls, and texts and numbers at their limits; and JSON in other spellings."""

import ipaddress
import json

from plugins import VERSIONS

TEXTS = ["", "a", "A b", '"', "\\", "/", "\n\r\t\b\f", "\x00", "\x1f\x7f", "é", "日本", "😀", "\u2028", "<&>"]
NUMBERS = [0, 1, -1, 255, 65536, 2**53 + 1, 2**63 - 1, -(2**63), 2**63, 2**64 - 1]
# keys that no page names, some of them nearly keys that a page does name
UNNAMED = ["x", "Mtu", "bridge ", "is_gateway", "é", "", "\u0000", "ips", "args", "cni", "cni.dev", "typ", "😀"]
# keys in whose place the runtime writes its own
OF_CNI = ["cni.dev/valid-attachments", "cni.dev/x"]
OF_RUNTIME = ["cniVersion", "cniVersions", "name", "prevResult", "runtimeConfig", *OF_CNI]
BRIDGES = ["cni0", "br1", "é", "b.-_"]
MTUS = [0, 68, 1400, 1500, 65535]
SYSCTL = ["net.a", "net.core.somaxconn", "net.ipv4.ip_forward", "net.é", "net."]
# ranges that share no address, by family: the subnet, and keys that may stand beside it
RANGES = {
    4: [
        {"subnet": "10.1.0.0/29"},
        {"subnet": "10.1.0.8/30"},
        {"subnet": "10.2.0.0/24", "rangeStart": "10.2.0.10", "rangeEnd": "10.2.0.12"},
        {"subnet": "10.2.0.0/24", "rangeStart": "10.2.0.20", "gateway": "10.2.0.254"},
        {"subnet": "10.3.0.0/16", "gateway": "192.0.2.1"},
        {"subnet": "11.0.0.0/8", "rangeStart": "11.0.0.0", "rangeEnd": "11.255.255.255"},
    ],
    6: [
        {"subnet": "fd00:1::/126"},
        {"subnet": "FD00:2:0::/64", "rangeStart": "fd00:2::ff"},
        {"subnet": "fd00::/8", "rangeStart": "fd77::1", "rangeEnd": "fd77::2", "gateway": "fe80::1"},
        {"subnet": "::ffff:10.9.0.0/112", "gateway": "::ffff:10.9.0.9"},
    ],
}
DESTINATIONS = ["0.0.0.0/0", "::/0", "10.77.7.7/16", "192.0.2.0/24", "fd99::1/64", "2001:DB8::/32"]
GATEWAYS = {4: "10.1.0.1", 6: "fd00:1::1"}
# keys that are accepted and not acted on
UNACTED = {
    "bridge": {
        **{"vlan": [0], "vlanTrunk": [[]], "preserveDefaultVlan": [True], "ipMasqBackend": ["", "iptables"]},
        **{key: [False] for key in ("macspoofchk", "forceAddress", "disableContainerInterface", "portIsolation")},
    },
    "ptp": {},
    "macvlan": {"linkInContainer": [False]},
    "portmap": {
        **{"conditionsV4": [[]], "conditionsV6": [[]], "markMasqBit": [0, 13, 2**64 - 1]},
        **{"externalSetMarkChain": [""], "backend": ["", "iptables"]},
    },
    "firewall": {"backend": ["", "iptables"], "iptablesAdminChainName": TEXTS, "ingressPolicy": ["", "open"]},
    "tuning": {},
}


def chance(rng, part):
    return rng.random() < part


def text(rng):
    return "".join(rng.choice(TEXTS) for _ in range(rng.randrange(4)))


def value(rng, depth=3):
    """Any JSON value."""
    kinds = ["null", "truth", "number", "text", "text", "list", "object"]
    kind = rng.choice(kinds if depth else kinds[:5])
    if kind in ("list", "object"):
        inside = [value(rng, depth - 1) for _ in range(rng.randrange(4))]
        return inside if kind == "list" else {text(rng): it for it in inside}
    return {"null": None, "truth": chance(rng, 0.5), "number": rng.choice(NUMBERS), "text": text(rng)}[kind]


def some(rng, part, accepted):
    """Each key with one of its values, in part of the cases; at times with null, which is as if it weren't there."""
    found = {key: rng.choice(values) for key, values in accepted.items() if chance(rng, part)}
    return {key: None if chance(rng, 0.08) else it for key, it in found.items()}


def strange(rng, keys):
    return {rng.choice(keys): value(rng) for _ in range(rng.choice([0, 0, 1, 1, 2, 4]))}


def range_sets(rng):
    left = {family: rng.sample(them, len(them)) for family, them in RANGES.items()}
    for _ in range(rng.choice([1, 1, 2, 2, 3])):
        family = 4 if chance(rng, 0.6) else 6
        ranges = [left[family].pop() for _ in range(rng.choice([1, 1, 2, 3])) if left[family]]
        if ranges:
            yield [{**it, **strange(rng, UNNAMED)} for it in ranges]


def route(rng):
    dst = rng.choice(DESTINATIONS)
    gateway = GATEWAYS[ipaddress.ip_interface(dst).version]
    return {"dst": dst, **some(rng, 0.5, {"gw": [gateway]}), **strange(rng, UNNAMED)}


def ipam(rng):
    sets = [*range_sets(rng)]
    alone = len(sets[0]) == 1 and chance(rng, 0.5)
    ranges = {"ranges": sets[alone:]} if sets[alone:] else some(rng, 0.3, {"ranges": [[]]})
    routes = {"routes": [route(rng) for _ in range(rng.randrange(3))]} if chance(rng, 0.6) else {}
    more = some(rng, 0.3, {"resolvConf": [""], "dataDir": ["/run", 7]})
    return {**strange(rng, UNNAMED), "type": "host-local", **(sets[0][0] if alone else {}), **ranges, **routes, **more}


def dns(rng):
    texts = [[text(rng) for _ in range(rng.randrange(3))]]
    return some(rng, 0.6, {"nameservers": texts, "search": texts, "options": texts, "domain": [text(rng)]})


def of_bridge(rng):
    mode = rng.choice([{}, {"hairpinMode": True}, {"promiscMode": True}, {"hairpinMode": False, "promiscMode": False}])
    gateway = {"isGateway": [True, False], "isDefaultGateway": [True, False], "ipMasq": [True, False]}
    return {**mode, **some(rng, 0.5, {"bridge": BRIDGES, **gateway})}


def first_plugin(rng):
    kind = rng.choice(["bridge", "bridge", "ptp", "macvlan"])
    given = {"type": kind, **some(rng, 0.5, {"mtu": MTUS, "dns": [dns(rng)]})}
    if kind == "bridge":
        given |= of_bridge(rng)
    if kind == "ptp":
        given |= some(rng, 0.6, {"ipMasq": [True, False]})
    if kind == "macvlan":
        given |= {"master": "eth1", **some(rng, 0.6, {"mode": ["bridge", "private", "vepa", "passthru"]})}
    bare = {} if chance(rng, 0.5) else {"ipam": rng.choice([{}, None])}
    return {**given, **({"ipam": ipam(rng)} if kind == "ptp" or chance(rng, 0.85) else bare)}


def portmap(rng):
    asks = {"capabilities": {"portMappings": chance(rng, 0.85), **strange(rng, ["x", "ips", "é"])}}
    return {**(asks if chance(rng, 0.9) else {}), **some(rng, 0.5, {"snat": [True, False]})}


def tuning(rng):
    values = {"mac": ["", "02:AB:00:00:00:01"], "mtu": [0, 1300], "promisc": [True, False], "allmulti": [True, False]}
    settings = {key: text(rng) for key in rng.sample(SYSCTL, rng.randrange(4))}
    return some(rng, 0.5, {**values, "txQLen": [0, 2**32 - 1], "sysctl": [settings]})


CHAINED = {"portmap": portmap, "firewall": lambda _: {}, "tuning": tuning}


def shuffled(rng, members):
    keys = rng.sample(sorted(members), len(members))
    return {key: members[key] for key in keys}


def object_of(rng, plugin):
    """The plugin's object, with keys that mean nothing to it."""
    unacted = some(rng, 0.2, UNACTED[plugin["type"]])
    odd = {key: it for key, it in strange(rng, UNNAMED + OF_RUNTIME).items() if key not in plugin}
    asks = some(rng, 0.2, {"capabilities": [{"portMappings": True}, {"ips": True}]})
    takes = {} if "capabilities" in plugin else asks
    return shuffled(rng, {**odd, **takes, **unacted, **plugin})


def network(rng, name):
    """A network list that is taken."""
    chained = [{"type": kind, **CHAINED[kind](rng)} for kind in rng.sample(sorted(CHAINED), rng.randrange(4))]
    plugins = [object_of(rng, it) for it in [first_plugin(rng), *chained]]
    version = rng.choice(["0.3.1", "x", *VERSIONS, "1.1.0", "1.1.0"])
    named = {"cniVersion": version, **some(rng, 0.2, {"cniVersions": [["0.4.0", "1.0.0"], VERSIONS, ["é"]]})}
    if not set(VERSIONS) & {named["cniVersion"], *(named.get("cniVersions") or [])}:
        named["cniVersions"] = [rng.choice(VERSIONS)]
    switches = {key: [False, "false", False, "false", True, "true"] for key in ("disableCheck", "disableGC")}
    odd = {key: it for key, it in strange(rng, UNNAMED).items() if key not in named}
    return shuffled(rng, {**odd, **named, "name": name, **some(rng, 0.2, switches), "plugins": plugins})


# ---- JSON in other spellings


def spelled_text(rng, of):
    """A text with some of its characters written as escapes that needn't be."""
    plain = json.dumps(of, ensure_ascii=chance(rng, 0.5))
    return plain.replace("/", "\\/").replace("a", "\\u0061") if chance(rng, 0.2) else plain


def spelled_member(rng, key, it):
    """A member; at times another with the same key, which doesn't count, stands before it."""
    name = spelled_text(rng, key)
    replaced = f"{name}:{json.dumps(value(rng, 1))}," if chance(rng, 0.05) else ""
    return f"{replaced}{name}{space(rng)}:{spelled(rng, it)}"


def space(rng):
    return rng.choice(["", "", "", "", " ", "\n\t", "\r\n"])


def spelled(rng, it):
    """The value as JSON, as some other program could have written it."""
    if isinstance(it, str):
        inside = spelled_text(rng, it)
    elif isinstance(it, dict):
        inside = "{" + ",".join(spelled_member(rng, key, each) for key, each in it.items()) + space(rng) + "}"
    elif isinstance(it, list):
        inside = "[" + ",".join(spelled(rng, each) for each in it) + space(rng) + "]"
    else:
        inside = json.dumps(it)
    return space(rng) + inside + space(rng)
