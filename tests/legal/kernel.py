"""A model of the kernel of docs/FORMATS.md: objects as a dump prints them, and what each call makes of them and
replies.

An object is never changed: another takes its place. A reply is its text, as the trace has it, and a value: of a lease
the address, of owners their tags, of a cached result the object.
"""

import hashlib
import ipaddress

KINDS = ["namespace", "link", "address", "route", "rule", "setting", "lease", "cached", "last"]
# the host's own namespace
HOST = ""
DONE = ("Done", None)
NO_NS = ("NoNs", None)
NO_LINK = ("NoLink", None)
FAULT = ("Fault", None)
FORWARDING = {4: "net.ipv4.ip_forward", 6: "net.ipv6.conf.all.forwarding"}


def address_text(address):
    """By RFC 5952, but never with an IPv4 address inside."""
    if address.version == 6 and address.ipv4_mapped is not None:
        return f"::ffff:{int(address) >> 16 & 0xFFFF:x}:{int(address) & 0xFFFF:x}"
    return str(address)


def mac(of):
    return ":".join(f"{byte:02x}" for byte in b"\x0a" + of)


def name_mac(name):
    """The hardware address of a link that no attachment owns."""
    return mac(hashlib.sha256(name.encode()).digest()[:5])


def link(ns, name, kind, address, mtu, tag, **more):
    plain = {"allmulti": False, "hairpin": False, "promisc": False, "txqlen": 1000}
    given = {"kind": "link", "link": kind, "mac": address, "mtu": mtu, "name": name, "ns": ns, "tag": tag}
    return {**plain, **given, **more}


def is_owned(tag):
    return tag not in ("outside", "base")


def place(it):
    return it["ns"], it["name"]


def candidates(ranges):
    """The addresses of a range set, in order."""
    for it in ranges:
        for number in range(int(it["start"]), int(it["end"]) + 1):
            if number != int(it["gateway"]):
                yield type(it["start"])(number)


def way_round(ranges, last):
    """The same in the order in which they are tried: after the last one, then up to it."""
    if last is None:
        yield from candidates(ranges)
        return
    # a set has one family
    at = next(k for k, it in enumerate(ranges) if it["start"] <= last <= it["end"])
    here = ranges[at]
    if last < here["end"]:
        yield from candidates([{**here, "start": last + 1}])
    yield from candidates(ranges[at + 1 :])
    yield from candidates(ranges[:at])
    yield from candidates([{**here, "end": last}])


class Host:
    """What the kernel holds, list by list. A call is a method of its name."""

    def __init__(self, opening):
        self.of = {kind: [] for kind in KINDS}
        for name in opening.get("namespaces", []):
            self.of["namespace"].append({"kind": "namespace", "name": name, "tag": "outside"})
        for it in opening.get("links", []):
            ns, name, mtu = it.get("ns", HOST), it["name"], it.get("mtu", 1500)
            self.of["link"].append(link(ns, name, it["kind"], name_mac(name), mtu, "outside"))

    def dump(self):
        return [it for kind in KINDS for it in self.of[kind]]

    def copy(self):
        other = Host({})
        other.of = {kind: list(objects) for kind, objects in self.of.items()}
        return other

    def first(self, kind, **members):
        """The first object of the kind with these members."""
        return next((it for it in self.of[kind] if all(it.get(key) == to for key, to in members.items())), None)

    def add(self, kind, new, *keys):
        """Appends the object, unless one stands there with the same keys."""
        old = self.first(kind, **{key: new.get(key) for key in keys})
        if old is not None:
            return f"Taken {old['tag']}", None
        self.of[kind].append(new)
        return DONE

    def remove(self, kind, gone):
        self.of[kind] = [it for it in self.of[kind] if not gone(it)]

    def has_ns(self, name):
        return self.first("namespace", name=name) is not None

    def bridge(self, name):
        return self.first("link", ns=HOST, name=name, link="bridge")

    def master(self, name):
        found = self.first("link", ns=HOST, name=name)
        return found is not None and not is_owned(found["tag"])

    def lies(self, obj):
        return self.first("link", ns=obj["ns"], name=obj["link"], tag=obj["tag"]) is not None

    def without_links(self, gone):
        """These links go, with what is on them."""
        places = {place(it) for it in self.of["link"] if gone(it)}
        self.remove("link", gone)
        for kind in ("address", "route"):
            self.remove(kind, lambda it: (it["ns"], it["link"]) in places)

    def without_link(self, found):
        if found is None:
            return "Gone false", None
        at = place(found)
        self.without_links(lambda it: place(it) == at or ("peer" in it and place(it["peer"]) == at))
        return "Gone true", None

    def delete(self, kind, tag):
        """The attachment's first object of the kind goes."""
        found = self.first(kind, tag=tag)
        if kind == "link":
            return self.without_link(found)
        if found is not None:
            self.of[kind].remove(found)
        return ("Gone true" if found is not None else "Gone false"), None

    def leased(self, network):
        return {it["address"] for it in self.of["lease"] if it["network"] == network}

    def next_free(self, network, ranges, last):
        taken = self.leased(network)
        return next((it for it in way_round(ranges, last) if address_text(it) not in taken), None)

    # ---- the calls

    def Begin(self, tag, netns):
        if netns != HOST and not self.has_ns(netns):
            return NO_NS
        owned = any(it.get("tag") == tag for it in self.dump())
        return (f"Taken {tag}", None) if owned else DONE

    def BridgeEnsure(self, name, mtu, promisc):
        found = self.first("link", ns=HOST, name=name)
        if found is not None:
            return DONE if found["link"] == "bridge" else (f"Taken {found['tag']}", None)
        self.of["link"].append(link(HOST, name, "bridge", name_mac(name), mtu, "base", promisc=promisc))
        return DONE

    def GatewayEnsure(self, bridge, cidr):
        if self.bridge(bridge) is None:
            return NO_LINK
        bare = [it["address"].split("/")[0] for it in self.of["address"] if (it["ns"], it["link"]) == (HOST, bridge)]
        if cidr.split("/")[0] not in bare:
            self.of["address"].append({"address": cidr, "kind": "address", "link": bridge, "ns": HOST, "tag": "base"})
        return DONE

    def ForwardEnsure(self, family):
        setting = {"key": FORWARDING[family], "kind": "setting", "ns": HOST, "tag": "base", "value": "1"}
        self.add("setting", setting, "ns", "key")
        return DONE

    def VethAdd(self, host_end, inner_end):
        if not self.has_ns(inner_end["ns"]):
            return NO_NS
        if "master" in host_end and self.bridge(host_end["master"]) is None:
            return NO_LINK
        for end in (inner_end, host_end):
            found = self.first("link", ns=end["ns"], name=end["name"])
            if found is not None:
                return f"Taken {found['tag']}", None
        self.of["link"] += [host_end, inner_end]
        return DONE

    def MacvlanAdd(self, new):
        if not self.has_ns(new["ns"]):
            return NO_NS
        if "master" in new and not self.master(new["master"]):
            return NO_LINK
        return self.add("link", new, "ns", "name")

    def LinkSet(self, tag, ns, name, values):
        found = self.first("link", ns=ns, name=name, tag=tag)
        if found is None:
            return NO_LINK
        self.of["link"] = [{**it, **values} if it is found else it for it in self.of["link"]]
        return DONE

    def AddrAdd(self, new):
        if not self.lies(new):
            return NO_LINK
        for it in self.of["address"]:
            bare = [each["address"].split("/")[0] for each in (it, new)]
            if (it["ns"], it["link"]) == (new["ns"], new["link"]) and bare[0] == bare[1]:
                return f"Taken {it['tag']}", None
        self.of["address"].append(new)
        return DONE

    def RouteAdd(self, new):
        return self.add("route", new, "ns", "dst", "link") if self.lies(new) else NO_LINK

    def RuleAppend(self, new):
        if new in self.of["rule"]:
            return f"Taken {new['tag']}", None
        self.of["rule"].append(new)
        return DONE

    def SettingSet(self, new):
        return self.add("setting", new, "ns", "key") if self.has_ns(new["ns"]) else NO_NS

    def LeaseNext(self, tag, network, number, ranges):
        last = self.first("last", network=network, set=number)
        found = self.next_free(network, ranges, ipaddress.ip_address(last["address"]) if last else None)
        if found is None:
            return "Empty", None
        text = address_text(found)
        self.of["lease"].append({"address": text, "kind": "lease", "network": network, "tag": tag})
        new = {"address": text, "kind": "last", "network": network, "set": number}
        self.of["last"] = [new if it is last else it for it in self.of["last"]] + [new] * (last is None)
        return f"Leased {text}", found

    def CachePut(self, new):
        return self.add("cached", new, "tag")

    def LinkDel(self, tag):
        return self.delete("link", tag)

    def RuleDel(self, tag):
        return self.delete("rule", tag)

    def SettingDel(self, tag):
        return self.delete("setting", tag)

    def LeaseDel(self, tag):
        return self.delete("lease", tag)

    def CacheDel(self, tag):
        return self.delete("cached", tag)

    def CacheGet(self, tag):
        found = self.first("cached", tag=tag)
        return ("Entry none" if found is None else "Entry some"), found

    def HasObj(self, is_there):
        return ("Has true" if is_there(self) else "Has false"), None

    def OwnersOf(self, network, kind):
        tags = [it["tag"] for it in self.of[kind] if it["tag"].split("/")[0] == network and is_owned(it["tag"])]
        owners = list(dict.fromkeys(tags))
        return f"Owners {len(owners)}", owners

    def PoolFree(self, network, ranges):
        return ("Has false" if self.next_free(network, ranges, None) is None else "Has true"), None

    def NsChange(self, name, comes):
        if comes and self.has_ns(name):
            return "Taken outside", None
        if comes:
            self.of["namespace"].append({"kind": "namespace", "name": name, "tag": "outside"})
            return DONE
        if not self.has_ns(name):
            return NO_NS
        self.without_links(lambda it: it["ns"] == name or it.get("peer", {}).get("ns") == name)
        self.remove("namespace", lambda it: it["name"] == name)
        self.remove("setting", lambda it: it["ns"] == name)
        return DONE

    def Outside(self, what, *where):
        if what == "flush":
            self.remove("rule", lambda it: it["table"] == where[0])
            return DONE
        if not self.has_ns(where[0]):
            return NO_NS
        return self.without_link(self.first("link", ns=where[0], name=where[1]))
