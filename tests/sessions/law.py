"""What docs/REGISTRY.md promises of a session, held against what is seen of it: each function is a sentence, and yields
what isn't so. None knows how a task comes to its calls."""

import itertools
import types

from kernel import KINDS, Host, address_text, candidates
from moments import is_part, moments
from scripts import error, fault, is_stale, missed
from session import NEWEST, invalid
from told import by_owner

GRANTED = ("Done", "Leased")


def own(objects, tag):
    return [it for it in objects if it.get("tag") == tag]


def host_of(objects):
    host = Host({})
    for it in objects:
        host.of[it["kind"]].append(it)
    return host


def growth(h):
    """What was printed of earlier tasks stays, and entries are numbered in order."""
    whole = h.printed[-1]
    for count, it in enumerate(h.printed):
        if it.answers != whole.answers[:count] or it.calls != [each for each in whole.calls if each["n"] <= count]:
            yield f"after task {count} something else is printed than at the end"
    if [it["i"] for it in whole.calls] != [*range(1, len(whole.calls) + 1)]:
        yield "entries aren't numbered in order"


def soundness(h):
    """Every host is sound. A link of an attachment is one of a container; the others are those of the opening."""
    hosts = [host_of(it.objects) for it in h.printed]
    entries = [types.SimpleNamespace(after=it) for it in hosts]
    yield from moments(types.SimpleNamespace(opening=hosts[0], entries=entries))
    for host in hosts:
        for it in host.of["link"]:
            if ("/" in it["tag"]) != (it["link"] in ("dummy", "vlan")) or ("/" in it["tag"] and not it["ns"]):
                yield f"{it} is no link of a container, or of the host"


def faults(h):
    """The k-th call is a fault exactly where k is among the task's faults."""
    for it in h.seen:
        if it.faults != [k for k in range(1, len(it.calls) + 1) if k in it.given.get("faults", [])]:
            yield f"{it.name} has faults at {it.faults}"


def tenancy(h):
    """No attachment has anything but what its last row says, each list in order."""
    for number, it in enumerate(h.printed):
        for tag, objects in by_owner(host_of(it.objects)).items():
            row = h.row(tag, number)
            whole = sorted(h.part(row), key=lambda each: KINDS.index(each["kind"])) if row else []
            if not is_part(objects, whole):
                yield f"after task {number} {tag} has what its row doesn't say"


def apart(h):
    """A task changes what its attachment has, and an ADD what was leased last; a GC takes from stale attachments alone.
    All else stands as it stood, and all of it where the task makes no call."""
    for it in h.seen:

        def stands(each):
            if it.verb == "GC":
                return not is_swept(h, it, each)
            return each.get("tag") != it.att.tag and (it.verb, each["kind"]) != ("ADD", "last")

        if (it.verb == "CHECK" or not it.calls) and it.before != it.after:
            yield f"{it.name} changes the host"
        if [*filter(stands, it.before)] != [*filter(stands, it.after)]:
            yield f"{it.name} changes what isn't its own"
        if it.verb != "ADD" and not is_part(it.after, it.before):
            yield f"{it.name} makes something"


def picked(h, before, number):
    """What a set leases next: its first free candidate behind the one that it leased last, or None. A set may have more
    candidates than can be listed."""
    whole, again = (map(address_text, candidates(h.sets[number])) for _ in range(2))
    last = [it["address"] for it in before if it["kind"] == "last" and it["set"] == number]
    behind = itertools.islice(itertools.dropwhile(lambda it: it != last[0], whole), 1, None) if last else whole
    taken = [it["address"] for it in before if it["kind"] == "lease"]
    return next((it for it in itertools.chain(behind, again) if it not in taken), None)


def pools(h):
    """An ADD is leased what each set leases next, and that is then what the set leased last."""
    for it in h.of_verb("ADD"):
        if it.leased != [picked(h, it.before, number) for number in range(len(it.leased))]:
            yield f"{it.name} is leased {it.leased}"
        lasts = {each["set"]: each for each in it.before if each["kind"] == "last"}
        for number, text in enumerate(it.leased):
            lasts[number] = {"address": text, "kind": "last", "network": h.network, "set": number}
        if {each["set"]: each for each in it.after if each["kind"] == "last"} != lasts:
            yield f"{it.name} leaves other addresses that were leased last"


def grounds_in(h, it):
    """What the host before an ADD has against it, in the order in which it's met."""
    links = [each for each in it.before if each["kind"] == "link"]
    if not any(each["kind"] == "namespace" and each["name"] == it.att.netns for each in it.before):
        yield error(NEWEST, 100, "namespace missing", it.att.netns)
    if own(it.before, it.att.tag):
        yield error(NEWEST, 101, "name taken", it.att.tag)
    for number in range(len(h.sets)):
        if picked(h, it.before, number) is None:
            yield error(NEWEST, 102, "pool empty", f"set {number}")
    kind, master = it.given["type"], it.given["options"].get("master")
    if kind == "vlan" and not any((each["ns"], each["name"], each["tag"]) == ("", master, "outside") for each in links):
        yield invalid("link")
    for each in links if kind != "guard" else []:
        if (each["ns"], each["name"]) == (it.att.netns, it.att.ifname):
            yield error(NEWEST, 101, "name taken", each["tag"])


def grounds(h):
    """An ADD with good words, no fault and no stop is refused for the first that the host has against it, and has a
    result where there is nothing."""
    for it in h.of_verb("ADD"):
        if it.wrong() or it.faults or it.was_stopped():
            continue
        due = next(grounds_in(h, it), None)
        if it.error != (due and due["error"]):
            yield f"{it.name} is refused with {it.error}, due is {due}"


def adds(h):
    """An ADD with a result has made all that its row says, which its plugin gives, and the result is cached."""
    for it in h.of_verb("ADD"):
        if "result" not in it.answer:
            continue
        whole = sorted(h.part(it), key=lambda each: KINDS.index(each["kind"]))
        if not it.began() or own(it.after, it.att.tag) != whole:
            yield f"{it.name} has made something else than its row says"
        if it.answer["result"] != h.made(it)[1] or len(it.leased) != len(h.sets):
            yield f"{it.name} has another result than its plugin's"


def first_refusal(it):
    """The place of the first call of an ADD that isn't granted, and its reply."""
    return next(((k, reply) for k, (_, reply) in enumerate(it.calls) if not reply.startswith(GRANTED)), (None, None))


def refusals(h):
    """A refused ADD made no call, or one of them refused it. Then nothing is left, unless a call of the undoing was a
    fault, or it was Begin, and nothing changes."""
    for it in h.of_verb("ADD"):
        if not it.error:
            continue
        at, _ = first_refusal(it)
        if bool(it.wrong()) != (not it.calls) or (it.calls and at is None):
            yield f"{it.name} is refused by none of its calls"
        elif at == 0 and (len(it.calls) > 1 or it.before != it.after):
            yield f"{it.name} goes on behind its Begin"
        elif at and not any(place > at + 1 for place in it.faults) and own(it.after, it.att.tag):
            yield f"{it.name} leaves something"


def deletions(h):
    """A DEL that succeeds leaves nothing of its attachment, and one that finds nothing changes nothing."""
    for it in h.of_verb("DEL"):
        if it.answer.get("ok") and own(it.after, it.att.tag):
            yield f"{it.name} leaves something"
        if not own(it.before, it.att.tag) and it.before != it.after:
            yield f"{it.name} changes the host without anything to delete"


def wanted(h, it):
    """What a CHECK asks for, in order, each by its name; nothing without a row."""
    row = h.row(it.att.tag, it.number)
    rules = 0
    for each in [*h.made(row)[0], *h.leases(row)] if row else []:
        rules += each["kind"] == "rule"
        yield missed(each, rules), each


def checks(h):
    """A CHECK with good words, no fault and no stop succeeds exactly where the cached result and all that the row says
    are there, and has asked for each."""
    for it in h.of_verb("CHECK"):
        if it.wrong() or it.faults or it.was_stopped():
            continue
        cached = any(each["kind"] == "cached" for each in own(it.after, it.att.tag))
        whole = cached and all(each in it.after for _, each in wanted(h, it))
        if bool(it.answer.get("ok")) != whole:
            yield f"{it.name} finds all there, or not, where it isn't so"
        if whole and len(it.calls) != 1 + len([*wanted(h, it)]):
            yield f"{it.name} doesn't ask for all"


def is_swept(h, it, each):
    tag = each.get("tag", "")
    return tag.startswith(f"{h.network}/") and is_stale(it.given["valid"], tag)


def collections(h):
    """A GC that succeeds leaves exactly what its valid list keeps."""
    for it in h.of_verb("GC"):
        if it.answer.get("ok") and it.after != [each for each in it.before if not is_swept(h, it, each)]:
            yield f"{it.name} leaves something else than it is to keep"


def cause_of_add(it):
    at, reply = first_refusal(it)
    if reply is None:
        return None
    if reply.startswith("Taken "):
        return error(NEWEST, 101, "name taken", reply.removeprefix("Taken "))
    pool = sum(each.startswith("Leased") for _, each in it.calls[:at])
    return {
        "NoNs": error(NEWEST, 100, "namespace missing", it.given["netns"]),
        "NoLink": invalid("link"),
        "Empty": error(NEWEST, 102, "pool empty", f"set {pool}"),
        "Fault": fault(NEWEST, at + 1),
    }[reply]


def cause_of_check(h, it):
    replies = [reply for _, reply in it.calls]
    if replies[:1] == ["Entry none"]:
        return error(NEWEST, 3, "container unknown", it.att.tag)
    if it.faults:
        return fault(NEWEST, it.faults[0])
    if "Has false" in replies:
        names = [name for name, _ in wanted(h, it)]
        return error(NEWEST, 110, "check failed", names[replies.index("Has false") - 1])
    return None


def cause_of(h, it):
    """Why its calls refuse a task."""
    if it.verb == "ADD":
        return cause_of_add(it)
    if it.verb == "CHECK":
        return cause_of_check(h, it)
    named = ", ".join(f"call {place}" for place in (it.faults if it.verb == "GC" else it.faults[:1]))
    return error(NEWEST, 103, "kernel fault", named) if named else None


def causes(h):
    """A task that isn't stopped is refused for what is wrong of its words, else for its first refusal (a GC for all its
    faults), and succeeds without one."""
    for it in h.seen:
        due = it.wrong() or cause_of(h, it)
        if it.was_stopped():
            continue
        if (due or {}).get("error") != it.error:
            yield f"{it.name} is refused with {it.error}, due is {due}"
        if not due and ("result" if it.verb == "ADD" else "ok") not in it.answer:
            yield f"{it.name} is neither refused nor answered"
        if it.wrong() and it.calls:
            yield f"{it.name} makes a call, though its words are wrong"


def stops(h):
    """A task makes no more calls than its stop says, and is answered that it was stopped exactly where it would have
    made a further one."""
    for it in h.seen:
        if "stop" not in it.given:
            if it.was_stopped():
                yield f"{it.name} is stopped unasked"
            continue
        most, whole = it.given["stop"], h.without_stop(it)
        if it.calls != whole.calls[:most]:
            yield f"{it.name} makes other calls than without its stop"
        due = {"n": it.number, "stopped": most, "verb": it.verb} if len(whole.calls) > most else whole.answer
        if it.answer != due:
            yield f"{it.name} is answered {it.answer}, due is {due}"


OF_ADDS = [pools, grounds, adds, refusals]
LAW = [growth, soundness, faults, tenancy, apart, *OF_ADDS, deletions, checks, collections, causes, stops]


def broken(history):
    """The names of the sentences that don't hold, each with what isn't so."""
    found = {sentence.__name__: [*sentence(history)] for sentence in LAW}
    return {name: texts for name, texts in found.items() if texts}
