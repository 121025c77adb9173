"""A run that keeps every promise, and histories that no run comes to: in each, one thing is altered of that run as it
was carried out again, and one promise is broken by it."""

from draw import ASKED
from program import bridge, network_list

BOTH = [[{"subnet": "10.88.0.0/29"}], [{"subnet": "fd00:88::/64"}]]
DUAL = network_list("dual", {**bridge(ranges=BOTH), "ipMasq": True}, {"type": "tuning", "mtu": 1400})
PODS = network_list("pods", bridge(subnet="10.9.0.0/24"))
# the numbers of the commands, by what they are
(DUAL_ADDED, PODS_ADDED, CHECKED, DELETED, DELETED_AGAIN, HALF_MADE, FAULTY, TAKEN), COLLECTED = range(1, 9), 9
COLLECTED_AGAIN, ASKED_STATUS, NS_ADDED, NS_REMOVED, ASKED_VERSION, DELETED_LAST = range(10, 16)


def sample():
    """Words and files of the run: on one thread, a command a round."""
    dual = {"network": "dual", "container": "c1", "netns": "/ns/a"}
    pods = {"network": "pods", "container": "c2", "netns": "/ns/b"}
    collection = {"verb": "GC", "network": "pods", "valid": []}
    commands = [
        {"verb": "ADD", **dual},
        {"verb": "ADD", **pods},
        {"verb": "CHECK", **dual},
        {"verb": "DEL", **pods},
        {"verb": "DEL", **pods},
        {"verb": "ADD", **pods, "stop": 5},
        {"verb": "ADD", **pods, "container": "c3", "netns": "/ns/c", "faults": [5]},
        {"verb": "ADD", **pods, "container": "c4"},
        {**collection, "faults": [7]},
        collection,
        {"verb": "STATUS", "network": "pods"},
        {"verb": "NSADD", "netns": "/ns/z"},
        {"verb": "NSDEL", "netns": "/none"},
        {"verb": "VERSION", "network": "dual"},
        {"verb": "DEL", **dual, "faults": [4]},
    ]
    opening = {"namespaces": ["/ns/a", "/ns/b", "/ns/c"]}
    files = {"pods.json": {"opening": opening, "rounds": [[it] for it in commands]}, "d.json": DUAL, "p.json": PODS}
    return [*ASKED, *files], files


def entries_of(run, n):
    return [it for it in run.entries if it.command.number == n]


def last(run, n):
    return entries_of(run, n)[-1]


def with_one(n, kind, **members):
    """After the last entry of a command there is an object more."""
    return lambda run: last(run, n).after.of[kind].append({"kind": kind, **members})


def without_one(n, kind, place=0):
    return lambda run: last(run, n).after.of[kind].pop(place)


def with_other(n, kind, place, **members):
    """After its last entry an object has other members."""
    return lambda run: last(run, n).after.of[kind].__setitem__(place, {**last(run, n).after.of[kind][place], **members})


def turned(n, kind):
    """After its last entry the objects of a kind stand in another order."""
    return lambda run: last(run, n).after.of[kind].reverse()


def answered(n, **answer):
    return lambda run: setattr(run.commands[n - 1], "answer", answer)


def refused(n, code, details):
    return answered(n, error={"code": code, "details": details, "msg": "", "cniVersion": "1.1.0"})


def again(n, times):
    """The last entry of a command is made more often."""
    return lambda run: run.entries.extend([last(run, n)] * times)


def of_moments():
    """What no host holds, or no entry does: the promise, and what breaks it."""
    leased_again = {"address": "10.88.0.2", "network": "dual", "tag": "dual/c2/eth0"}
    setting = {"key": "net.a", "ns": "/ns/b", "tag": "pods/c2/eth0", "value": "1"}
    yield "an address is leased twice", "moments", with_one(PODS_ADDED, "lease", **leased_again)
    yield "a link has no peer", "moments", without_one(PODS_ADDED, "link", -1)
    yield "an address lies on no link", "moments", with_other(PODS_ADDED, "address", -1, link="eth9")
    yield "the gateway was leased last", "lasts", with_other(PODS_ADDED, "last", -1, address="10.9.0.1")
    yield "an attachment has a setting unasked", "tenancy", with_one(PODS_ADDED, "setting", **setting)
    yield "one link is as made, one as wanted", "tenancy", with_other(DUAL_ADDED, "link", 1, mtu=1300)
    yield "rules stand in another order", "tenancy", turned(DUAL_ADDED, "rule")
    yield "another result is cached", "tenancy", with_other(DUAL_ADDED, "cached", 0, netns="/ns/b")
    yield "a DEL makes what was gone", "gone", with_one(DELETED_AGAIN, "setting", **setting)
    yield "a deletion takes the bridge", "entries", without_one(DELETED, "link")
    yield "a CHECK takes a rule", "entries", without_one(CHECKED, "rule")
    yield "an ADD takes another's rule", "entries", without_one(PODS_ADDED, "rule")
    yield "a collection takes another network's lease", "entries", without_one(COLLECTED_AGAIN, "lease")
    yield "a later command comes first", "order", lambda run: run.entries.insert(0, run.entries.pop())


def of_attachments():
    """Answers of an ADD, a DEL or a CHECK that aren't so."""
    left = {"address": "10.9.0.9", "network": "pods"}
    yield "an ADD has made no route", "adds", without_one(DUAL_ADDED, "rule")
    yield "a refused ADD leaves a lease", "adds", with_one(FAULTY, "lease", **left, tag="pods/c3/eth0")
    yield "a refused ADD names another call", "adds", refused(FAULTY, 103, "call 4")
    yield "a refused ADD has another code", "adds", refused(TAKEN, 100, "pods/c2/eth0")
    yield "an ADD without a refusal has no result", "adds", refused(PODS_ADDED, 103, "call 2")
    yield "a DEL leaves a lease", "dels", with_one(DELETED, "lease", **left, tag="pods/c2/eth0")
    yield "a DEL fails without a fault", "dels", refused(DELETED, 103, "call 1")
    yield "a DEL names another fault", "dels", refused(DELETED_LAST, 103, "call 3")
    yield "a repeated DEL changes the host", "repeats", without_one(DELETED_AGAIN, "last")
    yield "a CHECK succeeds without a lease", "checks", without_one(CHECKED, "lease")
    yield "a CHECK misses what is there", "checks", refused(CHECKED, 110, "bridge cni0")


def of_others():
    """Answers of the other verbs that aren't so, and stops."""
    left = {"address": "10.9.0.9", "network": "pods", "tag": "pods/c2/eth0"}
    yield "a GC takes another network's lease", "collections", without_one(COLLECTED_AGAIN, "lease")
    yield "a GC leaves what isn't kept", "collections", with_one(COLLECTED_AGAIN, "lease", **left)
    yield "a GC names another fault", "collections", refused(COLLECTED, 103, "call 8")
    yield "a GC leaves what no fault is about", "collections", without_faults(COLLECTED)
    yield "another GC leaves something", "second_collections", with_one(COLLECTED_AGAIN, "lease", **left)
    yield "a STATUS says full", "statuses", refused(ASKED_STATUS, 50, "set 0")
    yield "a namespace that came is refused", "changes", refused(NS_ADDED, 101, "outside")
    yield "a namespace that wasn't there went", "changes", answered(NS_REMOVED, ok=True)
    yield "another version is answered", "changes", answered(ASKED_VERSION, versions={"cniVersion": "1.0.0"})
    yield "a stop comes elsewhere", "stops", answered(HALF_MADE, stopped=6)
    yield "a command stops unasked", "stops", answered(DELETED_AGAIN, stopped=5)
    yield "a DEL makes too many calls", "bounds", again(DELETED_AGAIN, 3)


def without_faults(n):
    """The faulty calls of a command are about something else."""

    def change(run):
        for it in entries_of(run, n):
            if it.reply[0] == "Fault":
                it.call = ("CacheGet", "pods/c9/eth0")

    return change


def broken_histories():
    """The name of each, the promise that it breaks, and what is altered."""
    for part in (of_moments, of_attachments, of_others):
        yield from part()
