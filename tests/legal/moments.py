"""What docs/GUARANTEES.md says of every moment and of every entry, held against a run that judge.py carried out again:
each function yields what isn't so."""

import ipaddress

from kernel import FAULT
from scripts import is_stale
from told import by_owner, is_of, told

# the members that tell an object of a kind from the others of that kind
KEYS = {
    "namespace": ["name"],
    "link": ["ns", "name"],
    "address": ["ns", "link", "address"],
    "route": ["ns", "dst", "link"],
    "setting": ["ns", "key"],
    "lease": ["network", "address"],
    "cached": ["tag"],
    "last": ["network", "set"],
}


def moments(run):
    """Every host is sound, and no network has an address leased twice."""
    for host in [run.opening, *(it.after for it in run.entries)]:
        objects = host.dump()
        keys = [(it["kind"], *(str(it.get(key)) for key in KEYS[it["kind"]])) for it in objects if it["kind"] in KEYS]
        if len(set(keys)) != len(keys):
            yield "two objects have one key"
        leases = [(it["network"], it["address"]) for it in host.of["lease"]]
        if len(set(leases)) != len(leases):
            yield "an address is leased twice"
        ends = {(it["ns"], it["name"]): it for it in host.of["link"]}
        for it in host.of["link"]:
            peer = it.get("peer")
            other = ends.get((peer["ns"], peer["name"]), {}) if peer else None
            if peer and (other.get("peer"), other.get("tag")) != ({"name": it["name"], "ns": it["ns"]}, it["tag"]):
                yield f"{it['name']} has no peer"
        for it in [*host.of["link"], *host.of["setting"]]:
            if it["ns"] and not host.has_ns(it["ns"]):
                yield f"{it} lies in no namespace"
        for it in [*host.of["address"], *host.of["route"]]:
            under = ends.get((it["ns"], it["link"]), {}).get("tag")
            if under is None or it["tag"] not in (under, "base"):
                yield f"{it} lies on no link of its owner"


def lasts(run):
    """Each address that a pool leased last is a candidate of its set."""
    for entry in run.entries:
        for it in entry.after.of["last"] if entry.after.of["last"] != entry.before.of["last"] else []:
            address = ipaddress.ip_address(it["address"])
            ranges = run.lists[it["network"]].sets[it["set"]]
            if not any(within(address, each) and address != each["gateway"] for each in ranges):
                yield f"{it} is no candidate"


def within(address, each):
    return address.version == each["start"].version and each["start"] <= address <= each["end"]


def is_part(some, whole):
    """Whether these are what is left of the whole, in its order."""
    rest = iter(whole)
    return all(it in rest for it in some)


def tenancy(run):
    """Each attachment has nothing, or only what its last ADD that began asks for: its links all as made or all as
    wanted, and the rest in order, with a cached result only where one address of each range set was leased."""
    adds, last = {it.command: it for it in told(run, "ADD")}, {}
    for entry in run.entries:
        if entry.call[0] == "Begin" and entry.reply[0] == "Done":
            last[entry.call[1]] = adds[entry.command]
        before = by_owner(entry.before)
        for tag, objects in by_owner(entry.after).items():
            if objects != before.get(tag):
                yield from unasked(tag, objects, last.get(tag))


def unasked(tag, objects, add):
    """What the attachment has that this ADD doesn't ask for."""
    if add is None:
        yield f"{tag} has something before an ADD of it begins"
        return
    links, rest = parted(objects)
    wanted_links, wanted_rest = parted(add.asks_for())
    if not any(all(it in each for it in links) for each in (add.made_links(), wanted_links)):
        yield f"{tag} has links that {add.name} didn't make or want"
    if not is_part(rest, wanted_rest):
        yield f"{tag} has what {add.name} doesn't ask for"
    if rest and rest[-1]["kind"] == "cached" and len(add.leased) != len(add.net.sets):
        yield f"{tag} has a cached result without an address of each set"


def parted(objects):
    """The links, and the others."""
    return [it for it in objects if it["kind"] == "link"], [it for it in objects if it["kind"] != "link"]


def gone(run):
    """What has nothing has nothing until a call of an ADD of it is granted, after its Begin."""
    began = {it.command for it in told(run, "ADD") if it.began()}
    for entry in run.entries:
        for tag in by_owner(entry.after).keys() - by_owner(entry.before).keys():
            given = entry.command.given
            of_add = f"{given.get('network')}/{given.get('container', '')}/{given.get('ifname', 'eth0')}"
            if entry.command not in began or of_add != tag:
                yield f"{tag} comes by {entry.call[0]} of command {entry.command.number}"


def entries(run):
    """Each entry changes its attachment's objects alone (a GC's, those of stale ones), removes nothing that is shared
    or outside, and asks without changing."""
    for entry in run.entries:
        verb, given = entry.command.given["verb"], entry.command.given
        before, after = entry.before.dump(), entry.after.dump()
        if entry.reply == FAULT or verb in ("CHECK", "STATUS") or entry.call[0] in ("Begin", "CacheGet", "OwnersOf"):
            if before != after:
                yield f"{entry.call[0]} of command {entry.command.number} changes the host"
        if verb not in ("ADD", "DEL", "GC") or before == after:
            continue
        removed, added = [it for it in before if it not in after], [it for it in after if it not in before]
        tag = f"{given['network']}/{given.get('container', '')}/{given.get('ifname', 'eth0')}"
        for it in [*removed, *added]:
            if it["kind"] == "last":
                right = entry.call[0] == "LeaseNext" and it["network"] == given["network"]
            elif verb == "GC":
                right = it in removed and is_of(given["network"], it) and is_stale(given.get("valid", []), it["tag"])
            else:
                right = it["tag"] == tag or (it["tag"] == "base" and it in added and verb == "ADD")
            if not right:
                yield f"{entry.call[0]} of command {entry.command.number} changes {it}"


def order(run):
    """On one thread the entries are in file order."""
    numbers = [it.command.number for it in run.entries]
    if run.is_alone and numbers != sorted(numbers):
        yield "entries aren't in file order"


MOMENTS = [moments, lasts, tenancy, gone, entries, order]
