"""Recordings of what real plugins answer and leave, which stand for the plugins where there are none."""

import json
import re

from state import State

HOST_END = re.compile(r"veth[0-9a-f]{8}")
MAC = re.compile(r"\b(?:[0-9a-f]{2}:){5}[0-9a-f]{2}\b")


class Recorder:
    """A host, and what it was asked and answered, in order."""

    def __init__(self, host):
        self.host, self.entries, self.at_first = host, [], host.at_first

    def call(self, plugin, words, request):
        status, answer = self.host.call(plugin, words, request)
        asked = {"plugin": plugin, "words": words, "request": request}
        self.entries.append({**asked, "status": status, "answer": answer})
        return status, answer

    def state(self):
        found = self.host.state()
        self.entries.append(found.as_json())
        return found

    def name_of(self, path):
        return self.host.name_of(path)

    def __getattr__(self, name):
        return getattr(self.host, name)

    def told(self, given):
        """What is kept of it: host ends and hardware addresses are named by the order in which they come, but for those
        that were given."""
        spaces = {path: name for name in self.host.names if (path := self.host.path_of(name))}
        kept = {"at_first": [[[*key], it] for key, it in sorted(self.at_first.items())], "entries": self.entries}
        text = json.dumps(kept, sort_keys=True)
        for path, name in spaces.items():
            text = text.replace(f'"{path}"', json.dumps(name))
        for pattern, new in ((HOST_END, "end"), (MAC, "mac")):
            text = numbered(text, pattern, new, given)
        told = json.loads(text)
        told["entries"] = [it if "plugin" in it else State.of_json(it).as_json() for it in told["entries"]]
        return told


def numbered(text, pattern, new, given):
    seen = {}

    def name(match):
        found = match.group(0)
        return found if found in given.lower() else seen.setdefault(found, f"{new}{len(seen) + 1}")

    return pattern.sub(name, text)


class Recorded:
    """A host as it was recorded. It answers what was asked then, in that order, and notes what is asked otherwise."""

    def __init__(self, told):
        self.at_first = {tuple(key): it for key, it in told["at_first"]}
        self.entries, self.wrong = iter(told["entries"]), []

    def call(self, plugin, words, request):
        entry = next(self.entries, {})
        due = {key: entry.get(key) for key in ("plugin", "words", "request")}
        if due != {"plugin": plugin, "words": words, "request": request}:
            self.wrong.append({"asked": [plugin, words, request], "recorded": [*due.values()]})
        return entry.get("status", 1), entry.get("answer")

    def state(self):
        entry = next(self.entries, {})
        if "plugin" in entry:
            self.wrong.append({"asked": "the state", "recorded": entry["plugin"]})
            return State()
        return State.of_json(entry)

    @staticmethod
    def name_of(path):
        return path

    def left(self):
        """How much was recorded that wasn't asked."""
        return len([*self.entries])

    def add_namespace(self, _):
        """Recorded already, as the other changes are."""

    del_namespace = flush = add_namespace

    def drop(self, *_):
        """Recorded already."""
