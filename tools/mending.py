"""Mends a list that an engine writes and that the program refuses: what to change, and what is lost by it.

Only lists of engines whose lists were looked up are mended. engines.json says where: an engine's list has `cniVersion`,
and among its keys and plugins, in this order, none but these. A change leaves out a plugin, or a key that has `value`,
or any where none is given; or it writes another value. `file` is the list that shows it.
"""

import copy
import dataclasses
import json
import pathlib

import lists

ENGINES = json.loads(pathlib.Path(__file__).with_name("engines.json").read_text(encoding="utf-8"))


@dataclasses.dataclass(frozen=True)
class Change:
    """A change of a list: its place, and a sentence on what is written, what is lost, and from where it is known."""

    place: tuple
    sentence: str


def is_of(engine, value):
    """Whether this engine writes such lists."""
    plugins = value.get("plugins")
    if value.get("cniVersion") != engine["cniVersion"] or not value.keys() <= {*engine["keys"]}:
        return False
    if not isinstance(plugins, list) or not all(map(lists.is_object, plugins)):
        return False
    names = [it.get("type") for it in plugins]
    in_order = names == [it for it in engine["plugins"] if it in names]
    return in_order and all(it.keys() <= {*engine["plugins"][it["type"]]} for it in plugins)


def change_of(engine, value, refusal):
    """What the engine's table says of a place that is refused, or None."""
    if len(refusal.place) < 3:
        return None
    _, number, key, *_ = refusal.place
    plugin = value["plugins"][number]
    for it in engine["changes"]:
        is_there = it["plugin"] == plugin["type"] and it.get("key", "type") == key
        if is_there and ("value" not in it or it["value"] == plugin[key]):
            return it
    return None


def carried_out(engine, change, mended, number):
    """Makes a change of a plugin of this number, and tells of it. A plugin that is left out is None from then on."""
    plugin, key = mended["plugins"][number], change.get("key")
    said = lists.text_of(plugin["type"] if key is None else plugin[key])
    done = f"{lists.text_of(change['write'])} stands for {said}" if "write" in change else f"{said} is left out"
    if key is None:
        mended["plugins"][number] = None
    elif "write" in change:
        plugin[key] = change["write"]
    else:
        del plugin[key]
    place = ("plugins", number) if key is None else ("plugins", number, key)
    return Change(place, f"{done}, so {change['so']} ({engine['engine']}: {engine['source']}/{change['file']})")


def mend(value, refusals):
    """The list of an engine as the program takes it, with the changes; None where it can't be mended."""
    engine = next((it for it in ENGINES if lists.is_object(value) and is_of(it, value)), None)
    due = [(refusal.place[1:2], change_of(engine, value, refusal)) for refusal in refusals] if engine else []
    if not due or any(change is None for _, change in due):
        return None
    mended = copy.deepcopy(value)
    changes = [carried_out(engine, change, mended, *number) for number, change in due]
    mended["plugins"] = [it for it in mended["plugins"] if it is not None]
    return (mended, changes) if not any(lists.refusals(mended)) else None
