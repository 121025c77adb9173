"""A run with requests, and runs in which one line of them is altered: what another program could hand its plugins."""

import json

from handed import canonical

MAPPINGS = [
    {"hostPort": 8080, "containerPort": 80, "hostIP": "::"},
    {"hostPort": 53, "containerPort": 53, "protocol": "udp"},
]
OWN = {"x": {"big": 2**64 - 1, "none": None, "é": "\u2028\u0001"}, "y": None}
OF_RUNTIME = {"prevResult": {"a": 1}, "runtimeConfig": {"x": 1}, "cni.dev/x": True, "name": "other"}
BRIDGE = {"type": "bridge", "ipam": {"type": "host-local", "subnet": "10.88.0.0/16"}, **OWN, **OF_RUNTIME}
PORTMAP = {"type": "portmap", "capabilities": {"portMappings": True}}
# two members of a request, and the same in another order
TURNED = ('"cniVersion":"1.1.0","name":"net"', '"name":"net","cniVersion":"1.1.0"')
# ports of a mapping, and the same with a host address that doesn't restrict
UNRESTRICTED = ('80,"hostPort":8080', '80,"hostIP":"::","hostPort":8080')
PLUGINS = [BRIDGE, {"type": "tuning", "mac": "02:00:00:00:00:01"}, PORTMAP, {"type": "firewall"}]


def sample():
    """The files of the run."""
    names = {"network": "net", "container": "c", "ifname": "eth0"}
    rounds = [
        {"verb": "ADD", **names, "netns": "/ns/a", "args": "A=b", "portMappings": MAPPINGS},
        {"verb": "CHECK", **names, "netns": "/ns/b", "portMappings": []},
        {"verb": "GC", "network": "net", "valid": [{"containerID": "c", "ifname": "eth0"}]},
        {"verb": "DEL", **names},
        {"verb": "DEL", **names, "netns": "/ns/b", "portMappings": MAPPINGS},
        {"verb": "GC", "network": "net"},
        {"verb": "ADD", **names, "netns": "/none"},
        {"verb": "STATUS", "network": "net"},
    ]
    pods = {"opening": {"namespaces": ["/ns/a", "/ns/b"]}, "rounds": [[it] for it in rounds]}
    return {"pods.json": pods, "net.json": {"cniVersion": "1.1.0", "name": "net", "plugins": PLUGINS}}


class Lines:
    """The lines of a run. Each method gives them with one line altered, which is named by command and plugin."""

    def __init__(self, lines):
        self.lines = lines

    def at(self, number, plugin):
        told = {"n": number, "plugin": plugin}
        return next(k for k, it in enumerate(self.lines) if told.items() <= json.loads(it).items())

    def request(self, number, plugin):
        return json.loads(self.lines[self.at(number, plugin)])["request"]

    def other(self, place, line):
        return [*self.lines[:place], line, *self.lines[place + 1 :]]

    def told(self, number, plugin, **members):
        place = self.at(number, plugin)
        return self.other(place, canonical({**json.loads(self.lines[place]), **members}))

    def handed(self, number, plugin, **members):
        return self.told(number, plugin, request={**self.request(number, plugin), **members})

    def without(self, number, plugin, key):
        request = self.request(number, plugin)
        return self.told(number, plugin, request={name: it for name, it in request.items() if name != key})

    def worded(self, number, plugin, **members):
        env = json.loads(self.lines[self.at(number, plugin)])["env"]
        return self.told(number, plugin, env={**env, **members})

    def respelled(self, number, plugin, old, new):
        place = self.at(number, plugin)
        return self.other(place, self.lines[place].replace(old, new))

    def left_out(self, number, plugin):
        place = self.at(number, plugin)
        return [*self.lines[:place], *self.lines[place + 1 :]]

    def moved(self, of, before):
        rest, to = self.left_out(*of), self.at(*before)
        return [*rest[:to], self.lines[self.at(*of)], *rest[to:]]


def of_objects(run):
    """A plugin's own object is another, or is spelled otherwise."""
    big = str(2**64 - 1)
    nulls = {key: it for key, it in OWN["x"].items() if it is not None}
    yield "a key that nobody knows is dropped", run.without(1, 0, "x")
    yield "a null is dropped", run.without(1, 0, "y")
    yield "a null inside is dropped", run.handed(1, 0, x=nulls)
    yield "a number is rounded", run.handed(1, 0, x={**OWN["x"], "big": 2**64 - 2048})
    yield "a number becomes a fraction", run.respelled(1, 0, big, f"{big}.0")
    yield "a truth becomes a number", run.handed(1, 2, capabilities={"portMappings": 1})
    yield "a text is changed", run.handed(1, 0, x={**OWN["x"], "é": "\u2029\u0001"})
    yield "a text has an escape too many", run.respelled(1, 0, "\u2028", "\\u2028")
    yield "keys stand in another order", run.respelled(1, 3, *TURNED)
    yield "a space is printed", run.respelled(1, 3, '"type":"firewall"', '"type": "firewall"')
    yield "the runtime's key of the file stays", run.handed(1, 0, **{"cni.dev/x": True})
    yield "the mappings of the file stay", run.handed(1, 0, runtimeConfig={"x": 1})
    yield "the result of the file stays", run.handed(1, 0, prevResult={"a": 1})
    yield "the name of the file stays", run.handed(1, 0, name="other")
    yield "an older version is handed", run.handed(1, 0, cniVersion="1.0.0")


def of_attachments(run):
    """Results, mappings or words are those of something else."""
    mappings = run.request(1, 2)["runtimeConfig"]
    yield "the later result comes too early", run.handed(1, 1, prevResult=run.request(1, 3)["prevResult"])
    yield "the earlier result comes again", run.handed(1, 3, prevResult=run.request(1, 1)["prevResult"])
    yield "the last plugin is handed no result", run.without(1, 3, "prevResult")
    yield "mappings go to one that asks for none", run.handed(1, 3, runtimeConfig=mappings)
    yield "mappings aren't handed", run.without(1, 2, "runtimeConfig")
    yield "a host address that doesn't restrict is handed", run.respelled(1, 2, *UNRESTRICTED)
    yield "a protocol is left out", run.respelled(1, 2, ',"protocol":"tcp"', "")
    yield "a check has the command's namespace", run.worded(2, 0, CNI_NETNS="/ns/b")
    yield "a check has the command's mappings", run.without(2, 2, "runtimeConfig")
    yield "arguments are lost", run.worded(1, 0, CNI_ARGS="")
    yield "a second deletion has a result", run.handed(5, 3, prevResult=run.request(1, 3)["prevResult"])
    yield "a second deletion has mappings", run.handed(5, 2, runtimeConfig=mappings)


def of_commands(run):
    """Collections keep something else, or commands have lines in another order, too few or too many."""
    refused = run.lines[run.at(1, 0)].replace('"n":1', '"n":7')
    yield "a collection has no valid list", run.without(3, 0, "cni.dev/valid-attachments")
    yield "an empty valid list isn't handed", run.without(6, 0, "cni.dev/valid-attachments")
    yield "a collection has the words of an attachment", run.worded(3, 0, CNI_IFNAME="eth0")
    yield "a deletion begins with the first plugin", run.moved((4, 0), (4, 3))
    yield "a plugin is left out", run.left_out(8, 3)
    yield "a refused command has a request", [*run.lines, refused]


def altered(lines):
    """Each altered run by its name."""
    for part in (of_objects, of_attachments, of_commands):
        yield from part(Lines(lines))
