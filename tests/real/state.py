"""What is there after a command, on a real host or by a dump, and where the two differ."""

import ipaddress
from dataclasses import dataclass, field, fields

# what is compared of a link
OF_LINKS = ("link", "mtu", "master", "promisc", "allmulti", "hairpin", "txqlen", "mode", "mac")
CHAINS = ("CNI-MASQ", "CNI-HOSTPORT-DNAT", "CNI-FORWARD")
FORWARDING = ("net.ipv4.ip_forward", "net.ipv6.conf.all.forwarding")


def cidr_text(text):
    return str(ipaddress.ip_interface(text))


def destination_text(text):
    return str(ipaddress.ip_network(text, strict=False))


@dataclass
class State:
    """Objects by what tells them apart. The host's own namespace is the empty text."""

    namespaces: set = field(default_factory=set)
    links: dict = field(default_factory=dict)
    addresses: set = field(default_factory=set)
    routes: set = field(default_factory=set)
    rules: list = field(default_factory=list)
    chains: list = field(default_factory=list)
    settings: dict = field(default_factory=dict)
    leases: set = field(default_factory=set)
    lasts: dict = field(default_factory=dict)

    def as_json(self):
        """As a recording has it: what is empty is left out."""
        told = {}
        for it in fields(self):
            value = getattr(self, it.name)
            if isinstance(value, dict):
                told[it.name] = sorted([*map(list_of, value.items())], key=str)
            else:
                told[it.name] = sorted(map(list_of, value), key=str) if isinstance(value, set) else value
        return {key: it for key, it in told.items() if it}

    @classmethod
    def of_json(cls, told):
        found = cls()
        for it in fields(cls):
            empty, value = getattr(found, it.name), told.get(it.name, [])
            if isinstance(empty, dict):
                setattr(found, it.name, {tuple(key): of for key, of in value})
            elif isinstance(empty, set):
                setattr(found, it.name, {tuple(of) if isinstance(of, list) else of for of in value})
            else:
                setattr(found, it.name, value)
        return found


def list_of(value):
    return [*map(list_of, value)] if isinstance(value, tuple) else value


def of_dump(objects, names):
    """The state that a dump tells, with host ends and hardware addresses named as on the real host."""
    found = State()
    for it in objects:
        kind = it["kind"]
        if kind == "namespace":
            found.namespaces.add(it["name"])
        elif kind == "link":
            mac = names.mac(it["mac"])
            found.links[it["ns"], names.end(it["name"])] = {**{key: it.get(key) for key in OF_LINKS}, "mac": mac}
        elif kind == "address":
            found.addresses.add((it["ns"], names.end(it["link"]), it["address"]))
        elif kind == "route":
            found.routes.add((it["ns"], it["dst"], it.get("gw", ""), names.end(it["link"])))
        elif kind == "rule":
            found.rules.append({key: value for key, value in it.items() if key not in ("kind", "tag")})
        elif kind == "setting":
            found.settings[it["ns"], it["key"]] = it["value"]
        elif kind == "lease":
            found.leases.add((it["network"], it["address"], *it["tag"].split("/")[1:]))
        elif kind == "last":
            found.lasts[it["network"], it["set"]] = it["address"]
    return found


def told(*parts):
    return " ".join(str(it) or "-" for it in parts)


def members(kind, model, real):
    """The members of a set that only one side has."""
    for it in sorted({*model} ^ {*real}, key=str):
        yield told(kind, *([it] if isinstance(it, str) else it)), it in model, it in real


def of_links(model, real):
    for key in sorted({*model} ^ {*real}):
        yield told("link", *key), model.get(key, {}).get("link"), real.get(key, {}).get("link")
    for key in sorted({*model} & {*real}):
        for name in OF_LINKS:
            is_free = name == "mac" and model[key]["link"] == "device"
            if not is_free and (model[key].get(name) or None) != (real[key].get(name) or None):
                yield told(f"link.{name}", *key), model[key].get(name), real[key].get(name)


def rule_text(rule):
    return " ".join(f"{key}={rule[key]}" for key in sorted(rule))


def of_rules(model, real):
    """Rules that one side has more often, and chains in which those that both have stand in another order."""
    ours, theirs = [*map(rule_text, model)], [*map(rule_text, real)]
    for it in sorted({*ours, *theirs}):
        if ours.count(it) != theirs.count(it):
            yield f"rule {it}", ours.count(it), theirs.count(it)
    both = {*ours} & {*theirs}
    for chain in CHAINS:
        first, second = ([it for it in rules if f"chain={chain} " in it and it in both] for rules in (ours, theirs))
        if first != second:
            yield f"order {chain}", first, second


def of_settings(model, real, at_first):
    """Forwarding of the host, and each setting that a plugin made or changed."""
    for key in sorted({*model, *real}):
        ours, theirs = model.get(key), real.get(key)
        if key[1] in FORWARDING:
            due = ours or "0"
        else:
            due = ours if key in model else at_first.get(key)
        if due != theirs:
            yield told("setting", *key), ours, theirs


def differences(model, real, at_first):
    """Where the model's state is another than the real one: what it is about, the model's and the real one."""
    yield from members("namespace", model.namespaces, real.namespaces)
    yield from of_links(model.links, real.links)
    yield from members("address", model.addresses, real.addresses)
    yield from members("route", model.routes, real.routes)
    yield from of_rules(model.rules, real.rules)
    yield from members("chain", [], real.chains)
    yield from of_settings(model.settings, real.settings, at_first)
    yield from members("lease", model.leases, real.leases)
    for key in sorted({*model.lasts, *real.lasts}):
        if model.lasts.get(key) != real.lasts.get(key):
            yield told("last", *key), model.lasts.get(key), real.lasts.get(key)
