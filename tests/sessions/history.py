"""What is seen of a session from outside: its tasks' answers and calls, and the host's objects before and after each of
them. These are what is printed of its first tasks alone."""

import json

from plugins import Att, given_of, read_sets, without_null
from scripts import FIELDS, NEWEST, wrong_fields
from session import PLUGINS, invalid, wrong_configuration

# the words of a task that are tested
WORDS = {"ADD": ["CNI_CONTAINERID", "CNI_NETNS", "CNI_IFNAME"], "GC": []}
OF_OTHERS = ["CNI_CONTAINERID", "CNI_IFNAME"]


class Printed:
    """The lines as values: answers, calls and objects."""

    def __init__(self, lines):
        values = [json.loads(it) for it in lines]
        self.answers = [it for it in values if "verb" in it]
        self.calls = [it for it in values if "call" in it]
        self.objects = [it for it in values if "kind" in it]

    def calls_of(self, number):
        return [(it["call"], it["reply"]) for it in self.calls if it["n"] == number]


class Seen:
    """A task by its words, its answer, its calls with their replies, and the objects before and after it."""

    def __init__(self, network, given, number, before, after):
        self.given, self.number, self.verb = {**FIELDS, "type": "", "options": {}, **given}, number, given["verb"]
        self.name = f"task {number}"
        self.att = Att(network, *(self.given[key] for key in ("container", "ifname", "netns")))
        self.answer, self.calls = after.answers[number - 1], after.calls_of(number)
        self.before, self.after = before.objects, after.objects
        self.error = self.answer.get("error")
        self.faults = [place for place, (_, reply) in enumerate(self.calls, 1) if reply == "Fault"]
        self.leased = [reply.split()[1] for _, reply in self.calls if reply.startswith("Leased ")]

    def was_stopped(self):
        return "stopped" in self.answer

    def began(self):
        return self.calls[:1] == [("Begin", "Done")]

    def wrong(self):
        """How it is refused by its words, its `type` or its options."""
        key = wrong_configuration(self.given) if self.verb == "ADD" else None
        by_words = wrong_fields(NEWEST, self.given, *WORDS.get(self.verb, OF_OTHERS))
        return by_words or (invalid(key) if key else None)


class History:
    """The tasks of a session, where `lines_of` gives what is printed of a session file."""

    def __init__(self, conf, lines_of):
        self.lines_of, self.conf = lines_of, without_null(conf)
        self.tasks, self.network = self.conf["tasks"], self.conf["network"]
        self.sets = read_sets(self.conf.get("ipam", {}))
        self.printed = [self.of_tasks(self.tasks[:count]) for count in range(len(self.tasks) + 1)]
        states = zip(self.tasks, self.printed, self.printed[1:])
        self.seen = [Seen(self.network, it, number, *around) for number, (it, *around) in enumerate(states, 1)]

    def of_tasks(self, tasks):
        return Printed(self.lines_of({**self.conf, "tasks": tasks}))

    def without_stop(self, it):
        """The same task where it isn't stopped."""
        given = {key: word for key, word in self.tasks[it.number - 1].items() if key != "stop"}
        after = self.of_tasks([*self.tasks[: it.number - 1], given])
        return Seen(self.network, given, it.number, self.printed[it.number - 1], after)

    def of_verb(self, verb):
        return [it for it in self.seen if it.verb == verb]

    def row(self, tag, number):
        """The last ADD of the attachment up to that task whose Begin was granted."""
        found = [it for it in self.seen[:number] if it.verb == "ADD" and it.att.tag == tag and it.began()]
        return found[-1] if found else None

    def given(self, add):
        """What it was leased, an address of each set, with the range that has it."""
        return given_of(self.sets, [type(ranges[0]["start"])(it) for it, ranges in zip(add.leased, self.sets)])

    def made(self, add):
        """The calls and the result of its plugin, which is asked behind the leases; none where it wasn't."""
        if len(add.leased) < len(self.sets):
            return [], None
        calls, members = PLUGINS[add.given["type"]].made(add.att, add.given["options"], self.given(add))
        return [it for _, it in calls], {"cniVersion": NEWEST, **members}

    def leases(self, add):
        return [{"address": it, "kind": "lease", "network": self.network, "tag": add.att.tag} for it in add.leased]

    def part(self, add):
        """All that its attachment may have."""
        objects, result = self.made(add)
        cached = [{"kind": "cached", "netns": add.att.netns, "result": result, "tag": add.att.tag}] if result else []
        return [*objects, *self.leases(add), *cached]
