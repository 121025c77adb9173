"""What is wrong in a network list by docs/FORMATS.md and docs/plugins/: the place, the reason and a remedy.

`refusals(value)` gives what the program would refuse, in its order, so the first is what it prints. What comes behind
it is told as far as it can be.
"""

import dataclasses
import ipaddress
import itertools
import json
import re

from places import WrongNumber, everywhere

VERSIONS = ("0.4.0", "1.0.0", "1.1.0")
FIRST, CHAINED = ("bridge", "ptp", "macvlan"), ("portmap", "firewall", "tuning")
SMALLEST = '{"cniVersion":"1.1.0","name":"NAME","plugins":[..]}'
MOST_SETS = 65_536
# the prefixes of a range, by the family
PREFIXES = {4: range(8, 31), 6: range(8, 127)}
NAME = re.compile(r"[A-Za-z0-9][A-Za-z0-9_.-]*")
MAC = re.compile(r"[0-9A-Fa-f]{2}(:[0-9A-Fa-f]{2}){5}")
# white space as Unicode has it, to which four separators of Python's don't belong
NOT_IN_INTERFACES = re.compile(r"[/:]|(?![\x1c-\x1f])\s")
CIDR = re.compile(r"([^/]*)/(0|[1-9][0-9]{0,2})")


@dataclasses.dataclass(frozen=True)
class Refusal:
    """Why a list is refused: the place, the program's code and words, and for people a reason and a remedy."""

    place: tuple
    code: int
    said: str
    reason: str
    remedy: str


def text_of(value):
    """A value as the program prints it."""
    return json.dumps(value, separators=(",", ":"), ensure_ascii=False, sort_keys=True)


def invalid(place, key, reason, remedy):
    return Refusal(place, 7, f"invalid network configuration: {key}", reason, remedy)


def unsupported(place, value, remedy):
    said = f"unsupported field {place[-1]}: {text_of(value)}"
    return Refusal(place, 2, said, f"{text_of(value)} isn't modelled", remedy)


# ---- kinds of values


def is_text(value):
    return isinstance(value, str)


def is_truth(value):
    return isinstance(value, bool)


def is_number(value):
    return isinstance(value, int) and not isinstance(value, bool)


def is_object(value):
    return isinstance(value, dict)


def is_interface_name(value):
    if not is_text(value) or value in ("", ".", ".."):
        return False
    return len(value.encode("utf-8")) <= 15 and not NOT_IN_INTERFACES.search(value)


def is_mtu(value):
    return is_number(value) and (value == 0 or 68 <= value <= 65535)


def is_mac(value):
    return is_text(value) and (value == "" or MAC.fullmatch(value) is not None)


def is_empty(value):
    """Whether an `ipam` asks for no addresses."""
    return value is None or is_object(value) and all(it is None for it in value.values())


def address_of(text):
    """The address that a text is, or None."""
    try:
        return ipaddress.ip_address(text) if is_text(text) and "%" not in text else None
    except ValueError:
        return None


def network_of(text, strict=True):
    """The network that a text is as a CIDR, or None."""
    match = CIDR.fullmatch(text) if is_text(text) else None
    try:
        return ipaddress.ip_network(text, strict) if match and address_of(match[1]) else None
    except ValueError:
        return None


# ---- the keys of each plugin, in the order in which they are tested: what is taken, and what to write else

LEAVE_OUT = "leave it out"
NO_VLAN = "leave it out; a bridge carries no VLANs here"
NO_BACKEND = "leave it out; rules are as those of iptables"
TRUTH = (is_truth, "write true or false, without quotes")
MTU = (is_mtu, "write 0 for the usual 1500, or 68 to 65535, without quotes")
INTERFACE = (is_interface_name, "write a name of 1 to 15 bytes without /, : and white space")
# keys that have no effect, and those of their values that are accepted
WITHOUT_EFFECT = {
    "bridge": {
        "vlan": ((0,), NO_VLAN),
        "vlanTrunk": (([],), NO_VLAN),
        "preserveDefaultVlan": ((True,), NO_VLAN),
        "macspoofchk": ((False,), LEAVE_OUT),
        "forceAddress": ((False,), "write false; then an address that the bridge has stays"),
        "disableContainerInterface": ((False,), LEAVE_OUT),
        "portIsolation": ((False,), LEAVE_OUT),
        "ipMasqBackend": (("", "iptables"), NO_BACKEND),
    },
    "macvlan": {"linkInContainer": ((False,), "leave it out, and name a master of the host")},
    "portmap": {
        "conditionsV4": (([],), LEAVE_OUT),
        "conditionsV6": (([],), LEAVE_OUT),
        "markMasqBit": (is_number, "write a number, or leave it out"),
        "externalSetMarkChain": (("",), LEAVE_OUT),
        "backend": (("", "iptables"), NO_BACKEND),
    },
    "firewall": {
        "backend": (("", "iptables"), NO_BACKEND),
        "iptablesAdminChainName": (is_text, "write a text, or leave it out"),
        "ingressPolicy": (("", "open"), "leave it out; then bridges aren't isolated from one another"),
    },
}
OF_PLUGIN = {
    "bridge": {
        "bridge": INTERFACE,
        **dict.fromkeys(("isGateway", "isDefaultGateway", "ipMasq"), TRUTH),
        "mtu": MTU,
        **dict.fromkeys(("hairpinMode", "promiscMode"), TRUTH),
    },
    "ptp": {"ipMasq": TRUTH, "mtu": MTU},
    "macvlan": {
        "master": INTERFACE,
        "mode": (("bridge", "private", "vepa", "passthru"), "write bridge, private, vepa or passthru"),
        "mtu": MTU,
    },
    "portmap": {"capabilities": (is_object, 'write {"portMappings":true}'), "snat": TRUTH},
    "firewall": {},
    "tuning": {
        "sysctl": (is_object, "write an object of texts"),
        "mac": (is_mac, "write six bytes, such as 0a:01:02:03:04:05"),
        "mtu": MTU,
        **dict.fromkeys(("promisc", "allmulti"), TRUTH),
        "txQLen": (lambda it: is_number(it) and 0 <= it < 2**32, "write a number of 32 bits, without quotes"),
    },
}


def is_taken(value, taken):
    """Whether a value passes a test, or is one of these; 0 isn't false, though Python says so."""
    return taken(value) if callable(taken) else any((type(value), value) == (type(it), it) for it in taken)


def of_keys(name, plugin, place):
    for key, (taken, remedy) in WITHOUT_EFFECT.get(name, {}).items():
        value = plugin.get(key)
        if value is not None and not is_taken(value, taken):
            yield unsupported((*place, key), value, remedy)
    for key, (taken, remedy) in OF_PLUGIN[name].items():
        value, there = plugin.get(key), (*place, key)
        if value is not None and not is_taken(value, taken):
            yield invalid(there, key, f"{text_of(value)} isn't accepted", remedy)
        elif key == "master" and value is None:
            yield invalid(there, key, "there is none", "name a link of the host")
        elif value is not None:
            yield from INSIDE.get(key, lambda value, place: [])(value, there)
        if key == "promiscMode" and plugin.get("hairpinMode") is True and value is True:
            yield invalid((*place, "hairpinMode"), "hairpinMode", "promiscMode is true too", "make one of them false")


def of_capabilities(value, place):
    if not isinstance(value.get("portMappings"), (bool, type(None))):
        said = text_of(value["portMappings"])
        yield invalid((*place, "portMappings"), "capabilities", f"{said} isn't accepted", TRUTH[1])


def of_sysctl(value, place):
    for key in sorted(value, key=lambda it: it.encode("utf-8")):
        there, setting = (*place, key), value[key]
        if setting is None:
            continue
        if not key.startswith("net."):
            yield invalid(there, "sysctl", "only settings of a network namespace can be set", "write net. and dots")
        elif not is_text(setting):
            yield invalid(there, "sysctl", f"{text_of(setting)} isn't a text", "put it into quotes")
        elif "IFNAME" in key:
            yield unsupported(there, setting, "write the interface's name in place of IFNAME")


INSIDE = {"capabilities": of_capabilities, "sysctl": of_sysctl}


# ---- what only a first plugin has


def are_texts(value):
    return isinstance(value, list) and all(map(is_text, value))


def of_dns(dns, place):
    kinds = {**dict.fromkeys(("nameservers", "search", "options"), are_texts), "domain": is_text}
    if dns is None:
        return
    if not is_object(dns):
        yield invalid(place, "dns", "it isn't an object", 'write {"nameservers":["192.0.2.1"]}')
        return
    for key, is_of_kind in kinds.items():
        if dns.get(key) is not None and not is_of_kind(dns[key]):
            remedy = "write a text" if key == "domain" else "write a list of texts"
            yield invalid((*place, key), "dns", f"{text_of(dns[key])} isn't accepted", remedy)


def sets_of(ipam, place):
    """The range sets, each a list of places with ranges; None where their form is wrong."""
    sets = [] if ipam.get("subnet") is None else [[(place, ipam)]]
    ranges = ipam.get("ranges")
    for number, ranges_of_set in enumerate([] if ranges is None else ranges if isinstance(ranges, list) else [None]):
        if not isinstance(ranges_of_set, list) or not ranges_of_set or not all(map(is_object, ranges_of_set)):
            return None
        sets.append([((*place, "ranges", number, at), it) for at, it in enumerate(ranges_of_set)])
    return sets if 0 < len(sets) <= MOST_SETS else None


def ends_of(given):
    """The first address, the last and the gateway of a range that is right."""
    subnet = network_of(given["subnet"])
    keys = {"rangeStart": subnet[1], "rangeEnd": subnet[-2], "gateway": subnet[1]}
    return [address_of(given.get(key)) or usual for key, usual in keys.items()]


def of_range(place, given):
    """What is wrong in a range; the first address and the last of one that is right come back."""
    subnet = network_of(given.get("subnet"))
    if subnet is None or subnet.prefixlen not in PREFIXES[subnet.version]:
        loose = network_of(given.get("subnet"), strict=False)
        remedy = f"write {loose}" if loose and not subnet else "write a CIDR of prefix 8 to 30, of IPv6 8 to 126"
        yield invalid((*place, "subnet"), "subnet", f"{text_of(given.get('subnet'))} isn't a subnet", remedy)
        return None
    ends = {"rangeStart": subnet[1], "rangeEnd": subnet[-2]}
    for key in ends:
        if given.get(key) is not None:
            ends[key] = address_of(given[key])
            if ends[key] is None or ends[key] not in subnet:
                reason = f"{text_of(given[key])} isn't in {subnet}"
                yield invalid((*place, key), key, reason, f"write an address of {subnet}")
                return None
    first, last = ends.values()
    if first > last:
        yield invalid((*place, "rangeStart"), "rangeStart", f"{first} is above the end, {last}", "swap them")
        return None
    if given.get("gateway") is not None:
        gateway = address_of(given["gateway"])
        if gateway is None or gateway.version != subnet.version:
            reason = f"{text_of(given['gateway'])} isn't an IPv{subnet.version} address"
            yield invalid((*place, "gateway"), "gateway", reason, "write one")
            return None
    return first, last


def of_ranges(sets):
    ends = []
    for number, places in enumerate(sets):
        for place, given in places:
            end = yield from of_range(place, given)
            ends += [(number, place, *end)] if end else []
    if len(ends) < sum(map(len, sets)):
        return
    for one, two in itertools.pairwise(sorted(ends, key=lambda it: (it[2].version, it[2]))):
        if one[2].version == two[2].version and two[2] <= one[3]:
            reason = f"it overlaps the range that ends with {one[3]}"
            yield invalid(two[1], "ranges", reason, "let each address be in one range")
            return
    for number in range(len(sets)):
        of_set = [it for it in ends if it[0] == number]
        if len({it[2].version for it in of_set}) > 1:
            yield invalid(of_set[0][1][:-1], "ranges", "a set has IPv4 and IPv6", "make a set of each")
            return


def of_routes(routes, place):
    if routes is None:
        return
    if not isinstance(routes, list) or not all(map(is_object, routes)):
        yield invalid(place, "routes", "it isn't a list of objects", 'write [{"dst":"0.0.0.0/0"}]')
        return
    for number, route in enumerate(routes):
        to = network_of(route.get("dst"), strict=False)
        gateway = address_of(route.get("gw"))
        if to is None:
            yield invalid((*place, number, "dst"), "routes", f"{text_of(route.get('dst'))} isn't a CIDR", "write one")
        elif route.get("gw") is not None and (gateway is None or gateway.version != to.version):
            reason = f"{text_of(route['gw'])} isn't an IPv{to.version} address"
            yield invalid((*place, number, "gw"), "routes", reason, "write one")


def of_ipam(name, ipam, place):
    if is_empty(ipam):
        if name == "ptp":
            yield invalid(place, "ipam", "ptp needs addresses", 'write {"type":"host-local","subnet":"10.88.0.0/16"}')
        return
    if not is_object(ipam) or not is_text(ipam.get("type")):
        yield invalid(place, "ipam", "it has no type", 'write {"type":"host-local","subnet":"10.88.0.0/16"}')
        return
    if ipam["type"] != "host-local":
        yield unsupported((*place, "type"), ipam["type"], "write host-local with a subnet, or {} for no addresses")
        return
    if ipam.get("resolvConf") not in (None, ""):
        yield unsupported((*place, "resolvConf"), ipam["resolvConf"], "write the name servers as the plugin's dns")
    sets = sets_of(ipam, place)
    if sets is None:
        reason = "the range sets aren't lists of ranges"
        yield invalid((*place, "ranges"), "ranges", reason, 'write [[{"subnet":"10.88.0.0/16"}]]')
    yield from of_ranges(sets or [])
    yield from of_routes(ipam.get("routes"), (*place, "routes"))


# ---- the list


def of_plugin(number, plugin, before):
    place = ("plugins", number)
    if not is_object(plugin):
        yield invalid(place, "plugins", f"{text_of(plugin)} isn't an object", 'write {"type":"bridge"}')
        return
    name = plugin.get("type")
    if name not in (*FIRST, *CHAINED):
        remedy = f"write one of {', '.join(FIRST if number == 0 else CHAINED)}"
        yield invalid((*place, "type"), "type", f"{text_of(name)} isn't among the plugins", remedy)
        return
    if (name in FIRST) != (number == 0):
        reason = f"{name} can't be the first plugin" if number == 0 else f"{name} can only be the first plugin"
        yield invalid(place, "plugins", reason, f"begin with one of {', '.join(FIRST)}" if number == 0 else LEAVE_OUT)
    elif name in before:
        yield invalid(place, "plugins", f"{name} is here a second time", LEAVE_OUT)
    yield from of_keys(name, plugin, place)
    if number == 0:
        yield from of_dns(plugin.get("dns"), (*place, "dns"))
        yield from of_ipam(name, plugin.get("ipam"), (*place, "ipam"))


def of_versions(value):
    one, more = value.get("cniVersion"), value.get("cniVersions")
    write = f"write one of {', '.join(VERSIONS)}"
    if one is not None and not is_text(one):
        yield invalid(("cniVersion",), "cniVersion", f"{text_of(one)} isn't a text", write)
    if more is not None and not are_texts(more):
        yield invalid(("cniVersions",), "cniVersions", "it isn't a list of texts", write)
    named = [it for it in (one, *(more if are_texts(more) else [])) if it is not None]
    if not set(VERSIONS) & {it for it in named if is_text(it)}:
        said = named[0] if named and is_text(named[0]) else ""
        reason = f"{text_of(said)} isn't accepted" if said else "no version is named"
        yield Refusal(("cniVersion",), 1, f"incompatible CNI version: {said}", reason, write)


def of_list(value):
    yield from of_versions(value)
    name = value.get("name")
    if not is_text(name) or not NAME.fullmatch(name):
        remedy = "write letters, digits, _ . and -, none of these three first"
        reason = "there is none" if name is None else f"{text_of(name)} isn't a network's name"
        yield invalid(("name",), "name", reason, remedy)
    for key in ("disableCheck", "disableGC"):
        if value.get(key) not in (None, "true", "false") and not is_truth(value[key]):
            yield invalid((key,), key, f"{text_of(value[key])} isn't accepted", TRUTH[1])
    plugins = value.get("plugins")
    if plugins is None and "type" in value:
        yield invalid(("plugins",), "plugins", "this is a single plugin, not a list", f"wrap it: {SMALLEST}")
    elif not isinstance(plugins, list) or not plugins:
        reason = "there are none" if plugins is None else f"{text_of(plugins)} has no plugin"
        yield invalid(("plugins",), "plugins", reason, 'write [{"type":"bridge"}]')
    for number, plugin in enumerate(plugins if isinstance(plugins, list) else []):
        before = [it.get("type") for it in plugins[:number] if is_object(it)]
        yield from of_plugin(number, plugin, before)


def refusals(value):
    for place, inside in everywhere(value):
        if isinstance(inside, WrongNumber):
            reason = f"{inside} isn't whole, or has more than 64 bits"
            yield invalid(place, "number", reason, "write a whole number, or a text")
            return
    if not is_object(value):
        yield invalid((), "list", "it isn't an object", f"write {SMALLEST}")
        return
    yield from of_list(value)
