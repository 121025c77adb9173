"""A pod file carried out twice, by the program and by real plugins as libcni calls them, with what differs.

The real side is a Host, or a recording of one. What a plugin is handed is what the program prints, with the real result
in place of the model's; where the program prints nothing, since the command is refused, it is made by the same rule.
After a refused ADD comes the DEL that the CNI specification asks for.
"""

import json
from dataclasses import dataclass, field

import results
import state
from names import Names
from plugins import NetList
from program import FAILURE, REFUSED, SUCCESS, lines_of, run_on
from protocol import request, words as words_of
from scripts import FIELDS, read_mapping

ABOUT_STATE = ("namespace", "link", "address", "route", "rule", "order", "chain", "setting", "lease", "last")
# from this version on libcni asks plugins for a GC and for their status
ASKS_ALL = "1.1.0"


@dataclass
class Difference:
    """What differs after a command, the model's and the real one. `after` is the first ADD that was answered otherwise,
    from which what follows may come."""

    number: int
    verb: str
    what: str
    model: object
    real: object
    after: int = 0


@dataclass
class Answered:
    """How a real command ended: with an error of a plugin, or none."""

    plugin: str = ""
    error: object = None

    def text(self):
        if not self.plugin:
            return "ok"
        if isinstance(self.error, dict):
            return f"{self.error.get('code')} {self.error.get('msg')}"
        return str(self.error)


@dataclass
class Kept:
    """What libcni keeps of an attachment."""

    result: object
    mappings: list
    netns: str


def alone(pods):
    """The pod file with each command in a round of its own."""
    return {**pods, "rounds": [[it] for a_round in pods["rounds"] for it in a_round]}


def carried_out(program, pods, lists, *asked):
    """The status of a run and its lines as values."""
    files = {"pods.json": pods, **{f"{number}.json": it for number, it in enumerate(lists)}}
    done = run_on(program, [*asked, *files], files)
    return done.returncode, [json.loads(it) for it in lines_of(done.stdout)]


def answer_text(answer):
    error = answer.get("error")
    return "ok" if error is None else f"{error['code']} {error['msg']} {error['details']}".strip()


@dataclass
class Beside:
    """A run of a pod file on both sides."""

    program: str
    pods: dict
    lists: list
    found: list = field(default_factory=list)
    same: int = 0

    def __post_init__(self):
        self.pods = alone(self.pods)
        self.names, self.kept, self.standing, self.after, self.number = Names(), {}, {}, 0, 0

    def settings(self):
        """The names of all settings that `tuning` of some list makes."""
        plugins = [it for conf in self.lists for it in conf.get("plugins", [])]
        return [key for it in plugins for key in it.get("sysctl") or {}]

    def carry_out(self, host):
        """Carries it out on a host of this opening."""
        self.host = host
        status, lines = carried_out(self.program, self.pods, self.lists, "--requests", "--dump")
        if status == REFUSED:
            return self.refused_list(lines[0]["error"])
        if status not in (SUCCESS, FAILURE):
            raise ValueError(f"the program ends with {status}")
        answers = {it["n"]: it for it in lines if "verb" in it}
        for number, [given] in enumerate(self.pods["rounds"], 1):
            self.number, self.command = number, {**FIELDS, **given}
            asked = [it for it in lines if "request" in it and it["n"] == number]
            self.compare(answers[number], self.really(answers[number], asked))
        return self

    # ---- comparing

    def note(self, what, model, real, verb=None):
        """Notes a difference, once until it goes."""
        told = json.dumps([model, real], default=str)
        if self.standing.get(what) != told:
            self.standing[what] = told
            self.found.append(Difference(self.number, verb or self.command["verb"], what, model, real, self.after))

    def compare(self, answer, really):
        verb = self.command["verb"]
        if ("error" in answer) != bool(really.plugin):
            self.note("answer", answer_text(answer), really.text())
            if verb == "ADD":
                self.after = self.after or self.number
        else:
            self.standing.pop("answer", None)
            self.same += 1
        self.compare_states()

    def compare_states(self):
        pods = {**self.pods, "rounds": self.pods["rounds"][: self.number]}
        _, lines = carried_out(self.program, pods, self.lists, "--dump")
        model = state.of_dump([it for it in lines if "kind" in it], self.names)
        found = [*state.differences(model, self.host.state(), self.host.at_first)]
        now = {what for what, _, _ in found}
        for what in [it for it in self.standing if it.split(" ")[0].split(".")[0] in ABOUT_STATE and it not in now]:
            del self.standing[what]
        for it in found:
            self.note(*it)
        self.same += not found

    # ---- the real side

    def really(self, answer, asked):
        """Carries out the command on the host, and says how it ended."""
        c = self.command
        if c["verb"] == "NSADD":
            self.host.add_namespace(c["netns"])
        elif c["verb"] == "NSDEL":
            self.host.del_namespace(c["netns"])
        elif c["verb"] == "DROP":
            self.host.drop(c["netns"], c["ifname"])
        elif c["verb"] == "FLUSH":
            self.host.flush(c["table"])
        else:
            return self.of_network(answer, asked)
        return Answered()

    def of_network(self, answer, asked):
        c = self.command
        self.conf = next(it for it in self.lists if it["name"] == c["network"])
        self.net = NetList(self.conf)
        self.key = (c["network"], c["container"], c["ifname"])
        verbs = {"ADD": self.add, "CHECK": self.check, "DEL": self.delete, "GC": self.collect, "STATUS": self.status}
        return verbs[c["verb"]](answer, asked)

    def handed(self, asked, place, prev, mappings=(), valid=None):
        """The request of a plugin: the one that the program printed, or one by the same rule, with this result."""
        line = next((it for it in asked if it["plugin"] == place), None)
        if line is None:
            return request(self.net, self.net.objects[place], prev, mappings, valid)
        made = {key: it for key, it in line["request"].items() if key != "prevResult"}
        return made if prev is None else {**made, "prevResult": prev}

    def call(self, verb, place, made, netns=None):
        """A plugin's answer: an error or none, and the value."""
        c = {**self.command, "verb": verb}
        words = words_of(c, c["netns"] if netns is None else netns)
        if verb in ("GC", "STATUS"):
            words = {"CNI_COMMAND": verb}
        plugin = self.net.objects[place].get("type", "")
        status, answer = self.host.call(plugin, words, made)
        return (Answered(plugin, answer) if status else Answered()), answer

    def places(self, backwards=False):
        places = range(len(self.net.objects))
        return reversed(places) if backwards else places

    def mappings(self):
        return [it for it in map(read_mapping, self.command["portMappings"]) if it is not None]

    def add(self, answer, asked):
        prev, mappings = None, self.mappings()
        for place in self.places():
            ended, real = self.call("ADD", place, self.handed(asked, place, prev, mappings))
            if ended.plugin:
                self.undo(mappings)
                return ended
            self.compare_results(place, answer, asked, real)
            prev = real
        self.kept[self.key] = Kept(prev, mappings, self.command["netns"])
        return Answered()

    def compare_results(self, place, answer, asked, real):
        """A plugin's result beside the model's, which the next plugin is handed, or which is the answer."""
        if "result" not in answer:
            return
        after = next((it for it in asked if it["plugin"] == place + 1), None)
        model = after["request"]["prevResult"] if after else answer["result"]
        if place == 0 and isinstance(real, dict):
            self.names.learn(model, real)
        found = [*results.differences(model, real, self.names, self.host.name_of)]
        for it in found:
            self.note(*it, verb=f"ADD {self.net.objects[place]['type']}")
        self.same += not found

    def undo(self, mappings):
        """The DEL after a refused ADD, up to the first plugin that fails."""
        self.host.state()
        for place in self.places(backwards=True):
            made = request(self.net, self.net.objects[place], None, mappings)
            ended, _ = self.call("DEL", place, made)
            if ended.plugin:
                self.note(f"DEL after it, {ended.plugin}", None, ended.text())
                return

    def check(self, _, asked):
        if self.net.no_check:
            return Answered()
        kept = self.kept.get(self.key)
        for place in self.places():
            made = self.handed(asked, place, kept and kept.result, kept.mappings if kept else ())
            ended, _ = self.call("CHECK", place, made, kept and kept.netns)
            if ended.plugin:
                return ended
        return Answered()

    def delete(self, _, asked):
        kept = self.kept.get(self.key)
        for place in self.places(backwards=True):
            made = self.handed(asked, place, kept and kept.result, kept.mappings if kept else ())
            ended, _ = self.call("DEL", place, made)
            if ended.plugin:
                return ended
        self.kept.pop(self.key, None)
        return Answered()

    def collect(self, _, asked):
        """libcni deletes each cached attachment that isn't valid, and then asks each plugin."""
        if self.net.no_gc:
            return Answered()
        valid = {(it["containerID"], it["ifname"]) for it in self.command["valid"]}
        stale = [it for it in self.kept if it[0] == self.net.name and it[1:] not in valid]
        for key in sorted(stale):
            ended = self.delete_kept(key)
            if ended.plugin:
                return ended
        return self.ask_each("GC", asked, self.command["valid"])

    def delete_kept(self, key):
        kept, command = self.kept[key], self.command
        self.command = {**command, "container": key[1], "ifname": key[2], "netns": kept.netns}
        try:
            for place in self.places(backwards=True):
                made = request(self.net, self.net.objects[place], kept.result, kept.mappings)
                ended, _ = self.call("DEL", place, made)
                if ended.plugin:
                    return ended
        finally:
            self.command = command
        del self.kept[key]
        return Answered()

    def status(self, _, asked):
        return self.ask_each("STATUS", asked)

    def ask_each(self, verb, asked, valid=None):
        if self.net.version != ASKS_ALL:
            return Answered()
        for place in self.places():
            ended, _ = self.call(verb, place, self.handed(asked, place, None, valid=valid))
            if ended.plugin:
                return ended
        return Answered()

    # ---- a list that the program refuses

    def refused_list(self, error):
        """Whether the real plugins refuse it too, at an ADD."""
        [given] = self.pods["rounds"][0]
        self.number, self.command = 1, {**FIELDS, **given}
        conf = next(it for it in self.lists if it["name"] == given["network"])
        self.net = NetList.__new__(NetList)
        self.net.objects, self.net.version, self.net.name = conf["plugins"], conf["cniVersion"], conf["name"]
        prev = None
        for place in self.places():
            made = request(self.net, self.net.objects[place], prev, self.mappings())
            ended, prev = self.call("ADD", place, made)
            if ended.plugin:
                self.same += 1
                return self
        self.note("refused list", f"{error['code']} {error['msg']}", "accepted")
        return self
