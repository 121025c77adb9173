"""Programs that break the law of a session, as models: each does as the model does, but for one thing."""

from kernel import DONE, Host, address_text, candidates
from session import PLUGINS, Row, Session

GONE = ("Gone false", None)


class Program(Session):
    """The model, where a program may do otherwise: it goes by other words, keeps rows in another way, doesn't make a
    call and takes a reply in its place, looks at replies, answers something else, or has a kernel of its own."""

    kernel, kept = Host, dict

    def __init__(self, conf):
        self.last = conf["tasks"][-1:]
        super().__init__({**conf, "tasks": [*map(self.words, conf["tasks"])]})
        self.host, self.rows = self.kernel(conf.get("opening", {})), self.kept()

    def script(self, given):
        task, reply = super().script(given), None
        while True:
            try:
                call = task.send(reply)
            except StopIteration as end:
                return self.answer(given, end.value)
            reply = self.instead(given, call)
            if reply is None:
                reply = yield call
                self.look(given, call, reply)

    def words(self, given):
        return given

    def instead(self, given, call):
        pass

    def look(self, given, call, reply):
        pass

    def answer(self, given, answer):
        return answer


def program(**others):
    """A program with these in place of the model's."""
    return type("Other", (Program,), others)


def on_kernel(**calls):
    """A program on a kernel with these calls in place of the model's."""
    return program(kernel=type("Kernel", (Host,), calls))


def skipping(verb, calls, reply=GONE, of=None):
    """A program that doesn't make such calls for a verb, or those alone that are of this kind."""

    def instead(_, given, call):
        return reply if given["verb"] == verb and call[0] in calls and of in (None, call[-1]) else None

    return program(instead=instead)


def by_words(key, change):
    """A program that goes by another value of a key, where there is one."""
    return program(words=lambda _, given: {**given, key: change(given[key])} if key in given else given)


def refusing(code, **members):
    """A program that tells refusals of a code otherwise."""

    def answer(_, __, given):
        is_told = given.get("error", {}).get("code") == code
        return {"error": {**given["error"], **members}} if is_told else given

    return program(answer=answer)


# ---- kernels


def lease_first(host, tag, network, number, ranges):
    """The first address of the set, whether or not it's free."""
    first = next(candidates(ranges))
    host.of["lease"].append({"address": address_text(first), "kind": "lease", "network": network, "tag": tag})
    host.of["last"] = [it for it in host.of["last"] if it["set"] != number]
    host.of["last"].append({"address": address_text(first), "kind": "last", "network": network, "set": number})
    return f"Leased {address_text(first)}", first


def next_from_start(host, network, ranges, _):
    return Host.next_free(host, network, ranges, None)


def delete_lease_and_last(host, tag):
    host.of["last"] = []
    return Host.LeaseDel(host, tag)


def delete_first_rule(host, _):
    """Whoever's it is."""
    gone, host.of["rule"] = host.of["rule"][:1], host.of["rule"][1:]
    return ("Gone true" if gone else "Gone false"), None


def delete_link_alone(host, tag):
    found = host.first("link", tag=tag)
    host.remove("link", lambda it: it is found)
    return ("Gone false" if found is None else "Gone true"), None


def add_in_front(host, new):
    reply = Host.AddrAdd(host, new)
    host.of["address"].sort(key=lambda it: it is not new)
    return reply


def forget_without_entry(host, tag):
    reply = Host.CacheGet(host, tag)
    host.of["last"] = [] if reply[1] is None else host.of["last"]
    return reply


def append_twice(host, new):
    host.of["rule"] += [new, new]
    return DONE


def with_other(call, **members):
    """The call, which makes an object that differs in these."""
    return lambda host, new: getattr(Host, call)(host, {**new, **members})


# ---- rows and answers


class FirstRows(dict):
    """Rows of which the first of an attachment stays."""

    def __setitem__(self, tag, row):
        self.setdefault(tag, row)


def row_without_begin(run, given, call, reply):
    """Makes a row for an ADD whose Begin is refused."""
    if call[0] == "Begin" and reply != DONE:
        run.rows[call[1]] = Row(PLUGINS[given["type"]].kinds)


def other_result(_, __, answer):
    return {"result": {**answer["result"], "interfaces": []}} if "result" in answer else answer


def by_last_task(run, _, answer):
    return {"ok": True} if run.last[0]["verb"] == "GC" else answer


def both(valid):
    """The attachments of these containers by whatever interface."""
    return [{**it, "ifname": ifname} for it in valid for ifname in ("eth0", "eth2")]


UNDOING = ["LinkDel", "RuleDel", "LeaseDel"]
HAS, HAS_NOT = ("Has true", None), ("Has false", None)
# by the sentence that they break: the name of each, and the program
WRONG = {
    "growth": {"earlier answers go by later tasks": program(answer=by_last_task)},
    "soundness": {
        "an address is leased twice": on_kernel(LeaseNext=lease_first),
        "an address stays without its link": on_kernel(LinkDel=delete_link_alone),
        "a container's link is a device": on_kernel(MacvlanAdd=with_other("MacvlanAdd", link="device")),
    },
    "faults": {"faults are counted from 0": by_words("faults", lambda them: [it + 1 for it in them])},
    "tenancy": {
        "a rule stands twice": on_kernel(RuleAppend=append_twice),
        "an ADD begins over what is there": on_kernel(Begin=lambda *_: DONE),
    },
    "apart": {
        "a deletion takes another's rule": on_kernel(RuleDel=delete_first_rule),
        "a deletion forgets what was leased last": on_kernel(LeaseDel=delete_lease_and_last),
    },
    "pools": {
        "a leased address isn't free": on_kernel(LeaseNext=lease_first),
        "the address that was leased last comes next": on_kernel(next_free=next_from_start),
    },
    "grounds": {
        "a pool is said to be empty": on_kernel(LeaseNext=lambda *_: ("Empty", None)),
        "any link is taken for a master": on_kernel(master=lambda *_: True),
    },
    "adds": {
        "an address isn't added": skipping("ADD", ["AddrAdd"], DONE),
        "addresses stand in another order": on_kernel(AddrAdd=add_in_front),
        "another namespace is cached": on_kernel(CachePut=with_other("CachePut", netns="")),
        "another result is answered than cached": program(answer=other_result),
    },
    "refusals": {
        "a refused ADD isn't undone": skipping("ADD", UNDOING),
        "a refused ADD keeps its leases": skipping("ADD", ["LeaseDel"]),
    },
    "deletions": {
        "a DEL leaves leases": skipping("DEL", ["LeaseDel"]),
        "a DEL goes by the first row": program(kept=FirstRows),
        "a DEL of nothing forgets what was leased last": on_kernel(CacheGet=forget_without_entry),
        "a refused Begin makes a row": program(look=row_without_begin),
    },
    "checks": {
        "a CHECK asks for the cached result alone": skipping("CHECK", ["HasObj"], HAS),
        "a CHECK is told that all is there": on_kernel(HasObj=lambda *_: HAS),
        "a CHECK misses what is there": on_kernel(HasObj=lambda *_: HAS_NOT),
    },
    "collections": {
        "a GC leaves leases": skipping("GC", ["OwnersOf"], ("Owners 0", []), "lease"),
        "a GC keeps all of a container": by_words("valid", both),
        "a GC keeps nothing": by_words("valid", lambda _: []),
    },
    "causes": {
        "a missing link is told as a master": refusing(7, msg="invalid network configuration: master"),
        "the first call is told for each fault": refusing(103, details="call 1"),
        "the first pool is told for each": refusing(102, details="set 0"),
        "what is in the way isn't told": refusing(101, details="outside"),
    },
    "stops": {
        "a stop comes a call later": by_words("stop", lambda most: most + 1),
        "a stop isn't heeded": by_words("stop", lambda _: None),
    },
}
