"""A command of a run that judge.py carried out again, with its entries and its attachment, and whose objects are."""

from kernel import FAULT
from plugins import Att
from scripts import cached_of, mappings_of, wanted


class Told:
    """A command of a run with its entries, and its attachment where it has one."""

    def __init__(self, run, command):
        given = command.given
        self.command, self.given, self.answer, self.verb = command, given, command.answer, given["verb"]
        self.name = f"command {command.number}"
        self.entries = [it for it in run.entries if it.command is command]
        self.places = [k for k, it in enumerate(run.entries) if it.command is command]
        self.net = run.lists.get(given.get("network"))
        names = given.get("container", ""), given.get("ifname", "eth0")
        self.att = Att(self.net.name, *names, given.get("netns", "")) if self.net else None
        self.error = self.answer.get("error")
        self.faults = [k for k, it in enumerate(self.entries, 1) if it.reply == FAULT]
        self.leased = [it.reply[1] for it in self.entries if it.reply[0].startswith("Leased")]

    def began(self):
        return self.entries[0].reply[0] == "Done" if self.entries and self.verb == "ADD" else False

    def was_stopped(self):
        return "stopped" in self.answer

    def made_links(self):
        """The links of this ADD as they are made."""
        return [each for call in self.net.before(self.att) for each in call[1:] if isinstance(each, dict)]

    def asks_for(self):
        """The objects of this ADD, by what it was leased."""
        full = {"portMappings": [], **self.given}
        mappings = mappings_of(self.net, full)
        cached = cached_of(self.net, self.att, mappings, self.leased)
        return [*wanted(self.net, self.att, mappings, self.leased), cached]


def told(run, *verbs):
    return [it for it in (Told(run, each) for each in run.commands) if it.verb in verbs]


def own(host, tag):
    return [it for it in host.dump() if it.get("tag") == tag]


def is_of(network, it):
    tag = it.get("tag", "")
    return "/" in tag and tag.split("/")[0] == network


def by_owner(host):
    """The objects of each attachment, by its tag."""
    found = {}
    for it in host.dump():
        if "/" in it.get("tag", ""):
            found.setdefault(it["tag"], []).append(it)
    return found
