"""What the scripts of tools/ share that run the program: a run, its lines, the statuses that have any, its commands."""

import json
import pathlib
import subprocess

# what a word begins with that names a session file
SESSION = "reg:"

# no command failed; some command was refused or stopped; some command ran out of memory
CARRIED_OUT = (0, 1, 8)


def run(words):
    return subprocess.run(words, stdout=subprocess.PIPE, encoding="utf-8", check=False)


def read(word):
    """The pod file or session file that a word names."""
    return json.loads(pathlib.Path(word.removeprefix(SESSION)).read_text(encoding="utf-8"))


def commands_of(value, word):
    """The commands of the pod file that a word names, or the tasks of a session file, each with its network."""
    if word.startswith(SESSION):
        return [{**task, "network": value["network"]} for task in value["tasks"]]
    return [command for a_round in value["rounds"] for command in a_round]


def lines_with(key, text):
    """The lines that have a member of this key."""
    return [line for line in text.splitlines() if key in json.loads(line)]


def values_with(key, text):
    return [json.loads(line) for line in lines_with(key, text)]
