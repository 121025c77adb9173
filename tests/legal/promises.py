"""What docs/GUARANTEES.md says of answers, held against a run that judge.py carried out again: each function is one of
the guarantee's parts or of what stands beside it, and yields what isn't as it says."""

import ipaddress

from kernel import FAULT, address_text, candidates
from moments import MOMENTS, within
from plugins import VERSIONS
from scripts import is_stale, mappings_of, questions, wanted_by
from told import Told, is_of, own, told

# how a reply begins that refuses a command, and the code of its error
CODES = {"NoNs": 100, "NoLink": 7, "Taken": 101, "Empty": 102, "Gone": 105, "Fault": 103}
GRANTED = ("Done", "Leased", "Gone true")
CHANGES = ("NSADD", "NSDEL", "DROP", "FLUSH")
# what a deletion takes back
KINDS_OF = {"LinkDel": "link", "RuleDel": "rule", "SettingDel": "setting", "LeaseDel": "lease", "CacheDel": "cached"}


def first_refusal(it):
    """The place of the first entry that is refused, and its reply."""
    replies = [each.reply[0] for each in it.entries]
    return next(((k, reply) for k, reply in enumerate(replies) if not reply.startswith(GRANTED)), (None, None))


def details_of(it, at, reply):
    """What is told of the reply that refuses an ADD."""
    number = sum(each.reply[0].startswith("Leased") for each in it.entries[:at])
    by_reply = {"NoNs": it.given.get("netns"), "NoLink": "", "Empty": f"set {number}", "Fault": f"call {at + 1}"}
    return by_reply.get(reply, reply.removeprefix("Taken "))


def adds(run):
    """An ADD with a result has made just its objects, by one address a range set, no two the same; a refused one names
    its cause. One with good fields and no refusing entry has a result."""
    for it in told(run, "ADD"):
        if "result" in it.answer:
            ips = [each["address"].split("/")[0] for each in it.answer["result"].get("ips", [])]
            if ips != [address_text(each) for each in it.leased] or not len(ips) == len(it.net.sets) == len(set(ips)):
                yield f"{it.name} isn't answered its leases"
            if own(it.entries[-1].after, it.att.tag) != it.asks_for():
                yield f"{it.name} has other objects than it asks for"
        elif it.error and not it.entries:
            if it.error["code"] not in (2, 4, 7):
                yield f"{it.name} is refused by its fields with code {it.error['code']}"
        elif it.error:
            yield from refused(it)
        elif not it.was_stopped():
            yield f"{it.name} has no result and isn't refused"


def refused(it):
    """An ADD that is refused by an entry has undone what it made, unless a later entry is a fault."""
    at, reply = first_refusal(it)
    if reply is None:
        yield f"{it.name} is refused by no entry"
        return
    if (it.error["code"], it.error["details"]) != (CODES[reply.split()[0]], details_of(it, at, reply)):
        yield f"{it.name} is refused with {it.error} for {reply}"
    if at == 0 and len(it.entries) > 1:
        yield f"{it.name} goes on after its Begin is refused"
    later = any(each.reply == FAULT for each in it.entries[at + 1 :])
    if at > 0 and not later and own(it.entries[-1].after, it.att.tag):
        yield f"{it.name} leaves something"


def dels(run):
    """A DEL that succeeds leaves nothing of its attachment; one with good fields and without a fault succeeds, and a
    refused one names its cause."""
    for it in told(run, "DEL"):
        if "ok" in it.answer and own(it.entries[-1].after, it.att.tag):
            yield f"{it.name} leaves something"
        by_fault = it.faults and it.error and it.error["details"] == f"call {it.faults[0]}"
        if it.error and not (by_fault or it.error["code"] == 4 and not it.entries):
            yield f"{it.name} is refused for no cause"


def repeats(run):
    """A DEL that succeeded, repeated before another ADD of the attachment begins, changes nothing."""
    begins = [(it.att.tag, it.places[0]) for it in told(run, "ADD") if it.began()]
    each_del = [it for it in told(run, "DEL") if it.places]
    for it in each_del:
        for again in each_del if "ok" in it.answer else []:
            apart = again.att.tag != it.att.tag or again.places[0] < it.places[-1]
            if apart or any(tag == it.att.tag and it.places[-1] < at < again.places[-1] for tag, at in begins):
                continue
            if any(each.before.dump() != each.after.dump() for each in again.entries):
                yield f"{again.name} changes what was deleted"


def missing(net, att, host):
    """What a CHECK is to name in this host, and None where it succeeds."""
    cached = host.first("cached", tag=att.tag)
    if cached is None:
        return att.tag
    return next((name for name, is_there in questions(net, att, cached) if not is_there(host)), None)


def checks(run):
    """A CHECK succeeds exactly where the host at its last entry holds what is cached, else names the first that is
    missing; and it was so at its start."""
    for it in told(run, "CHECK"):
        if not it.entries or it.faults or it.was_stopped():
            continue
        first, last = it.entries[0].before, it.entries[-1].after
        due = missing(it.net, it.att, last)
        if due != (it.error["details"] if it.error else None):
            yield f"{it.name} is to name {due}"
        if first.first("cached", tag=it.att.tag) != last.first("cached", tag=it.att.tag):
            yield f"{it.name} has another cached result at its end"
        if (missing(it.net, it.att, first) is None) != (due is None):
            yield f"{it.name} would have been answered in another way at its start"


def kept_of(it, host):
    """What a GC is to keep of a host."""
    valid = it.given.get("valid", [])
    return [each for each in host.dump() if not (is_of(it.net.name, each) and is_stale(valid, each["tag"]))]


def collections(run):
    """A GC that succeeds leaves exactly what its valid list keeps. One that met faults names them, and a call about
    what it leaves over was faulty. Any adds nothing and takes nothing that is kept."""
    for it in told(run, "GC"):
        if not it.entries:
            continue
        before, after = it.entries[0].before, it.entries[-1].after
        kept = kept_of(it, before)
        if "ok" in it.answer and after.dump() != kept:
            yield f"{it.name} leaves other objects"
        over = [each for each in after.dump() if each not in kept]
        is_old = all(each in before.dump() for each in over)
        if [each for each in after.dump() if each not in over] != kept or not is_old:
            yield f"{it.name} takes what is to be kept, or adds something"
        if it.error and it.error["details"] != ", ".join(f"call {each}" for each in it.faults):
            yield f"{it.name} names other faults"
        for each in over if it.error else []:
            if not is_blamed(it, each):
                yield f"{it.name} leaves {each} without a faulty call about it"


def is_blamed(it, left):
    """Whether a call of a GC failed that asks for the owners of the object's kind, or deletes its owner's of it."""
    kind = "link" if left["kind"] in ("address", "route") else left["kind"]
    failed = [each.call for each in it.entries if each.reply == FAULT]
    return any(
        call[2] == kind if call[0] == "OwnersOf" else (KINDS_OF.get(call[0]), call[1]) == (kind, left["tag"])
        for call in failed
    )


def second_collections(run):
    """A GC that fills the round after one with the same network and valid list, and succeeds, leaves what is to be kept
    of the host before the first."""
    each_gc = {it.command.round: it for it in told(run, "GC")}
    for place, second in each_gc.items():
        first = each_gc.get(place - 1)
        asked = [it and (it.given["network"], it.given.get("valid", [])) for it in (first, second)]
        if asked[0] != asked[1] or "ok" not in second.answer or not first.entries:
            continue
        if second.entries[-1].after.dump() != kept_of(second, first.entries[0].before):
            yield f"{second.name} doesn't finish the collection before it"


def is_full(ranges, leased):
    held = sum(within(it, each) and it != each["gateway"] for each in ranges for it in leased)
    return held == sum(int(it["end"]) - int(it["start"]) + 1 - within(it["gateway"], it) for it in ranges)


def statuses(run):
    """A STATUS succeeds exactly where each range set has a free address and the master is there."""
    for it in told(run, "STATUS"):
        if not it.entries or it.faults or it.was_stopped():
            continue
        host = it.entries[-1].after
        leased = [ipaddress.ip_address(each) for each in host.leased(it.net.name)]
        lacks = [f"set {place}" for place, ranges in enumerate(it.net.sets) if is_full(ranges, leased)]
        if it.net.master and not host.master(it.net.master):
            lacks.append(f"master {it.net.master}")
        if (lacks[0] if lacks else None) != (it.error["details"] if it.error else None):
            yield f"{it.name} is to name {lacks}"


def changes(run):
    """A change from outside makes the one call that it asks for, whose reply decides, or is refused by its fields. A
    VERSION makes none, and is answered its list's version."""
    for it in told(run, *CHANGES):
        reply = first_refusal(it)[1]
        code = CODES[reply.split()[0]] if reply else None
        if len(it.entries) > 1 or it.entries and not it.was_stopped() and code != (it.error or {}).get("code"):
            yield f"{it.name} isn't answered the reply of its one call"
        if not it.entries and not it.was_stopped() and (it.error or {}).get("code") != 4:
            yield f"{it.name} makes no call, though its fields are good"
    for it in told(run, "VERSION"):
        due = {"cniVersion": it.net.version, "supportedVersions": VERSIONS}
        if it.entries or it.answer != {"versions": due}:
            yield f"{it.name} is answered another version"


def stops(run):
    """A command that is stopped is answered how many calls it made: its own stop, or no more than the number of the
    entry that its round was stopped with."""
    cut = run.entries[run.stop_at - 1].command.round if run.stop_at and run.stop_at <= len(run.entries) else None
    for it in (Told(run, each) for each in run.commands):
        if not it.was_stopped():
            continue
        made = it.answer["stopped"]
        by_round = it.command.round == cut and made <= run.stop_at
        if made != len(it.entries) or not (made == it.given.get("stop") or by_round):
            yield f"{it.name} is stopped after {made} calls"


def most_calls(it):
    """The most calls that a command with an entry makes."""
    if it.net is None:
        return 1
    if it.verb == "VERSION":
        return 0
    host, kinds = it.entries[0].before, len(it.net.kinds())
    if it.verb == "ADD":
        addresses = [next(candidates(ranges)) for ranges in it.net.sets]
        mappings = mappings_of(it.net, {"portMappings": [], **it.given})
        after = it.net.after(it.att, mappings, addresses)
        return 2 * (len(it.net.before(it.att)) + len(addresses) + len(after) + 2) + kinds + 1
    if it.verb == "DEL":
        return kinds + 1 + len(own(host, it.att.tag))
    if it.verb == "CHECK":
        cached = host.first("cached", tag=it.att.tag)
        return 2 + len(wanted_by(it.net, it.att, cached)) if cached else 1
    if it.verb == "STATUS":
        return 1 + len(it.net.sets)
    valid = it.given.get("valid", [])
    stale = [each["tag"] for each in host.dump() if is_of(it.net.name, each) and is_stale(valid, each["tag"])]
    return 6 + (kinds + 6) * len(set(stale)) + len(stale)


def bounds(run):
    """No command makes more calls than its verb's most."""
    for it in (Told(run, each) for each in run.commands):
        if it.entries and len(it.entries) > most_calls(it):
            yield f"{it.name} makes {len(it.entries)} calls"


ANSWERS = [adds, dels, repeats, checks, collections, second_collections, statuses, changes, stops, bounds]
PARTS = [*MOMENTS, *ANSWERS]


def broken_parts(run):
    """The names of the parts that don't hold, each with what isn't as it says."""
    found = {part.__name__: [*part(run)] for part in PARTS}
    return {name: texts for name, texts in found.items() if texts}
