"""What a plugin reads of the line of a request: its own object, and what the runtime says besides. Written from
docs/PROTOCOL.md alone, and for no list that it knows."""

import json

VERSION, NAME, PREVIOUS, RUNTIME = "cniVersion", "name", "prevResult", "runtimeConfig"
VALID = "cni.dev/valid-attachments"
# keys in whose place the runtime writes its own, and how the others of that sort begin
RUNTIME_KEYS = (VERSION, "cniVersions", NAME, PREVIOUS, RUNTIME)
PREFIX = "cni.dev/"
# stands for what isn't in a request, since null is a value that could be there
ABSENT = "absent"


def is_runtimes(key):
    return key in RUNTIME_KEYS or key.startswith(PREFIX)


class Handed:
    """A line of a request, read back."""

    def __init__(self, line):
        told = json.loads(line)
        self.is_as_printed = line == canonical(told)
        self.members = sorted(told)
        self.number, self.plugin, self.env = told["n"], told["plugin"], told["env"]
        request = told["request"]
        self.own = {key: it for key, it in request.items() if not is_runtimes(key)}
        self.version, self.network = request.get(VERSION, ABSENT), request.get(NAME, ABSENT)
        self.previous, self.valid = request.get(PREVIOUS, ABSENT), request.get(VALID, ABSENT)
        self.runtime = request.get(RUNTIME, ABSENT)
        known = (VERSION, NAME, PREVIOUS, RUNTIME, VALID)
        self.others = [key for key in request if is_runtimes(key) and key not in known]


def canonical(value):
    """The value as JSON in which keys stand in the order of their bytes, each once, with no escape that needn't be."""
    if isinstance(value, dict):
        keys = sorted(value, key=lambda it: it.encode("utf-8"))
        return "{" + ",".join(f"{canonical(key)}:{canonical(value[key])}" for key in keys) + "}"
    if isinstance(value, list):
        return "[" + ",".join(map(canonical, value)) + "]"
    return json.dumps(value, ensure_ascii=False)
