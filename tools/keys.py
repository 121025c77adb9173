"""The keys of network lists, pod files and session files that no page of docs/ names where they stand: the program
ignores them."""

import difflib
import pathlib
import re

from places import members

DOCS = pathlib.Path(__file__).resolve().parent.parent / "docs"
NAME = re.compile(r"`([a-z]\w*)`")
# a row of a table that begins with keys, and an item of a list that begins with one
ROW = re.compile(r"^\| ((?:`\w+`(?:, )?)+) \|(.*)", re.MULTILINE)
ITEM = re.compile(r"^- (`\w+`)(.*\n(?:  .*\n)*)", re.MULTILINE)
# what tells a list, or a plugin alone, from a pod file or a session file
LIST_KEYS = {"cniVersion", "name", "plugins", "type"}
# keys that CNI, its runtimes and the reference plugins know, and that have no effect here
KNOWN = {
    *("args", "capabilities", "runtimeConfig", "prevResult", "cniVersion", "name"),
    *("dataDir", "loadOnlyInlinedPlugins", "ips", "mac", "bandwidth", "aliases", "deviceID"),
}
PREFIX_OF_RUNTIMES = "cni.dev/"


def section(page, head):
    text = (DOCS / page).read_text(encoding="utf-8")
    return re.search(rf"^## {head}\n(.*?)(?=^## |\Z)", text, re.MULTILINE | re.DOTALL)[1]


def keys_of(text, pattern=ROW):
    """The keys that a text names, each with those that may stand inside it: what else its row names."""
    found = {}
    for keys, said in pattern.findall(text):
        for key in NAME.findall(keys):
            inside = found[key] = {}
            inside.update((name, inside) for name in NAME.findall(said))
    return found


def opening_keys(text):
    """The keys of an opening and of its links, without the values in brackets."""
    said = next(said for key, said in ITEM.findall(text) if key == "`opening`")
    outside, inside = re.sub(r"\([^)]*\)", "", said).split("objects with")
    return {**dict.fromkeys(NAME.findall(outside), {}), "links": dict.fromkeys(NAME.findall(inside), {})}


def pod_keys():
    text = section("FORMATS.md", "Pod files")
    return {"opening": opening_keys(text), "rounds": keys_of(text)}


def session_keys():
    pods, text = section("FORMATS.md", "Pod files"), section("FORMATS.md", "Session files")
    of_command = keys_of(pods)
    of_task = keys_of(text.split("The keys of a task:")[1].split("The program's plugins:")[0])
    task = {**{key: of_command.get(key, {}) for key in of_task}, "options": None}
    return {"network": {}, "ipam": ipam_keys(), "opening": opening_keys(pods), "tasks": task}


def ipam_keys():
    text = section("plugins/host-local.md", "Keys")
    return {**keys_of(text), "ranges": keys_of(text.split("A range:")[1].split("Accepted and not acted on")[0])}


def plugin_keys(name):
    """The keys of a plugin, or of any where no type is named; none of a type that has no page, which the program
    refuses."""
    pages = [it.stem for it in (DOCS / "plugins").iterdir() if name in (it.stem, None)]
    if not pages:
        return None
    keys = {}
    for page in pages:
        keys.update(keys_of(section(f"plugins/{page}.md", "Keys")))
    dns = keys_of(section("plugins/bridge.md", "Keys"))["dns"]
    inside = {"dns": dns, "ipam": ipam_keys(), "sysctl": None}
    return {**keys, "type": {}, **{key: inside[key] for key in inside if key in keys}}


def unnamed(value, keys, place=()):
    """The places whose key isn't among these, each with these keys. Where there are no keys all are taken."""
    for key, inside in members(value) if keys is not None else []:
        there = (*place, key)
        if isinstance(value, list):
            yield from unnamed(inside, keys, there)
        elif key in keys:
            yield from unnamed(inside, keys[key], there)
        else:
            yield there, keys


def is_pod_file(value):
    return isinstance(value, dict) and ("rounds" in value or not value.keys() & LIST_KEYS)


def unnamed_in(value):
    """The places of a list, a pod file or a session file, which may be of any form, as those that the program refuses
    are."""
    if is_pod_file(value):
        yield from unnamed(value, session_keys() if "tasks" in value else pod_keys())
    elif isinstance(value, dict):
        plugins = value.get("plugins")
        yield from unnamed(value, {**keys_of(section("FORMATS.md", "Network lists")), "plugins": None})
        for number, plugin in enumerate(plugins if isinstance(plugins, list) else []):
            name = plugin.get("type") if isinstance(plugin, dict) else None
            yield from unnamed(plugin, plugin_keys(name if isinstance(name, str) else None), ("plugins", number))


def is_known(key):
    """Whether CNI knows a key that is ignored here."""
    return key in KNOWN or key.startswith(PREFIX_OF_RUNTIMES)


def nearest(key, keys):
    """The name that was meant, where one of these is near."""
    return next(iter(difflib.get_close_matches(key, keys, 1) or [it for it in keys if it in key]), None)
