#!/usr/bin/env python3
"""Whether a session is lawful: it is carried out again as its trace tells, by what its plugins need, call and answer,
and what each task calls and answers (docs/REGISTRY.md). The rows by which DEL and CHECK go are kept here. The model of
the kernel, and how an entry is held against it, are those of tests/legal.

    cnitool --trace WORDS | session.py --trace WORDS

says it of one session, by what that prints, and ends with 1 where it isn't lawful.
"""

import collections
import ipaddress
import pathlib
import re
import sys

sys.dont_write_bytecode = True
sys.path.append(str(pathlib.Path(__file__).resolve().parent.parent / "legal"))

from judge import Run, line_of, read, tell
from kernel import DONE, NO_LINK, address_text, link
from plugins import Att, address, cidr_text, given_of, read_sets, rule, whole, without_null
from scripts import FIELDS, NEWEST, SWEEPS, asked, error, fault, is_interface, questions_for, refusal, swept, undo
from scripts import wrong_fields

# ---- plugins


def is_number(least, most):
    return lambda text: re.fullmatch("0|[1-9][0-9]*", text) is not None and least <= int(text) <= most


def is_address(text):
    try:
        return "%" not in text and ipaddress.ip_address(text) is not None
    except ValueError:
        return False


def made_by_guard(att, options, _):
    src = whole(ipaddress.ip_address(options["from"]))
    return [("RuleAppend", rule(att, "filter", "CNI-FORWARD", "ACCEPT", src=src))], {"interfaces": []}


def made_on_link(kind, att, options, given, **over):
    mtu = int(options.get("mtu", "1500"))
    inner = {"mac": att.inner_mac, "mtu": mtu, "name": att.ifname, "sandbox": att.netns}
    calls, ips = [("MacvlanAdd", link(att.netns, att.ifname, kind, att.inner_mac, mtu, att.tag, **over))], []
    for it in given:
        cidr = cidr_text(it["ip"], it["subnet"].prefixlen)
        calls.append(("AddrAdd", address(att, att.inner, cidr)))
        ips.append({"address": cidr, "gateway": address_text(it["gateway"]), "interface": 0})
    return calls, {"interfaces": [inner], **({"ips": ips} if ips else {})}


def made_by_dummy(att, options, given):
    return made_on_link("dummy", att, options, given)


def made_by_vlan(att, options, given):
    over = {"master": options["master"], "vlan": int(options["vlanId"])}
    return made_on_link("vlan", att, options, given, **over)


# a need has a key, whether it must be there, and a test of its value; what is made is calls, and a result's members
Plugin = collections.namedtuple("Plugin", "kinds needs made")
MTU = ("mtu", False, is_number(68, 65535))
PLUGINS = {
    "guard": Plugin(["rule"], [("from", True, is_address)], made_by_guard),
    "dummy": Plugin(["link"], [MTU], made_by_dummy),
    "vlan": Plugin(["link"], [("master", True, is_interface), ("vlanId", True, is_number(1, 4094)), MTU], made_by_vlan),
}


def wrong_configuration(c):
    """The key that is wrong: `type`, or the first need that isn't met."""
    if c["type"] not in PLUGINS:
        return "type"
    options = c["options"]
    needs = PLUGINS[c["type"]].needs
    return next((key for key, must, right in needs if not (right(options[key]) if key in options else not must)), None)


# ---- tasks


class Row:
    """What an ADD leaves for later tasks of its attachment, from when its Begin was granted."""

    def __init__(self, kinds):
        self.kinds, self.leased, self.calls = kinds, [], []


class Back:
    """What a deletion takes back: as things are when it comes to that."""

    version = NEWEST

    def __init__(self, session, att):
        self.session, self.att = session, att

    def kinds(self):
        row = self.session.rows.get(self.att.tag)
        leases = ["lease"] if row and self.session.has_ipam else []
        return [*(row.kinds if row else []), *leases, "cached"]


def att_of(session, c):
    return Att(session.name, c["container"], c["ifname"], c["netns"])


def invalid(key):
    return error(NEWEST, 7, f"invalid network configuration: {key}")


def add(session, c):
    wrong = wrong_fields(NEWEST, c, "CNI_CONTAINERID", "CNI_NETNS", "CNI_IFNAME")
    key = wrong_configuration(c)
    if wrong or key:
        return wrong or invalid(key)
    att = att_of(session, c)
    back, number = Back(session, att), 1
    reply = yield "Begin", att.tag, att.netns
    if reply != DONE:
        return refusal(back, c, reply, number, 0)
    plugin = PLUGINS[c["type"]]
    row = session.rows[att.tag] = Row(plugin.kinds)
    for place, ranges in enumerate(session.sets):
        number += 1
        reply = yield "LeaseNext", att.tag, session.name, place, ranges
        if reply[1] is None:
            return (yield from undo(back, att, number, refusal(back, c, reply, number, place)))
        row.leased.append(reply[1])
    row.calls, members = plugin.made(att, c["options"], given_of(session.sets, row.leased))
    result = {"cniVersion": NEWEST, **members}
    cached = {"kind": "cached", "netns": att.netns, "result": result, "tag": att.tag}
    for call in [*row.calls, ("CachePut", cached)]:
        number += 1
        reply = yield call
        if reply != DONE:
            why = invalid("link") if reply == NO_LINK else refusal(back, c, reply, number, 0)
            return (yield from undo(back, att, number, why))
    return {"result": result}


def delete(session, c):
    att = att_of(session, c)
    wrong = wrong_fields(NEWEST, c, "CNI_CONTAINERID", "CNI_IFNAME")
    return wrong or (yield from undo(Back(session, att), att, 0, None))


def check(session, c):
    wrong = wrong_fields(NEWEST, c, "CNI_CONTAINERID", "CNI_IFNAME")
    if wrong:
        return wrong
    tag = att_of(session, c).tag
    reply, cached = yield "CacheGet", tag
    if reply == "Fault":
        return fault(NEWEST, 1)
    if cached is None:
        return error(NEWEST, 3, "container unknown", tag)
    row = session.rows[tag]
    leases = [{"address": address_text(it), "kind": "lease", "network": session.name, "tag": tag} for it in row.leased]
    named = questions_for([*(it for _, it in row.calls), *leases])
    calls = ((name, ("HasObj", is_there)) for name, is_there in named)
    return (yield from asked(NEWEST, 1, calls, 110, "check failed"))


def collect(session, c):
    return (yield from swept(session, c, SWEEPS))


TASKS = {"ADD": add, "DEL": delete, "CHECK": check, "GC": collect}


class Session(Run):
    """A run of one task after another, each of which has a round for itself."""

    version = NEWEST

    def __init__(self, conf):
        conf = without_null(conf)
        ipam = conf.get("ipam", {})
        self.name, self.has_ipam, self.sets, self.rows = conf["network"], bool(ipam), read_sets(ipam), {}
        super().__init__({"opening": conf.get("opening", {}), "rounds": [[it] for it in conf["tasks"]]}, [])

    def script(self, given):
        return TASKS[given["verb"]](self, {**FIELDS, "type": "", "options": {}, **given})

    def printed(self):
        """The lines of a program that does as this model does."""
        trace = []
        for it in self.commands:
            while it.call is not None:
                trace.append(self.make(it))
        return [*(it.line() for it in self.commands), *map(line_of, [*trace, *self.host.dump()])]


def main():
    words = sys.argv[1:]
    file = next(it.removeprefix("reg:") for it in words if it.startswith("reg:"))
    return tell(Session(read(file)), words)


if __name__ == "__main__":
    sys.exit(main())
